// A library that is loaded in front of a program: of the reads of standard input, the one whose number, from 1, the
// variable FAILED has fails with EIO, once. All others are as ever. Behind the program's end it writes how many there
// were to the file that the variable READS names. tests/failed_reads.sh compiles it.
#define _GNU_SOURCE
#include <dlfcn.h>
#include <errno.h>
#include <stdio.h>
#include <stdlib.h>
#include <unistd.h>

static unsigned long reads;

ssize_t read(int file, void *to, size_t size) {
    static ssize_t (*next)(int, void *, size_t);
    const char *failed = getenv("FAILED");
    if (!next)
        next = dlsym(RTLD_NEXT, "read");
    if (file == STDIN_FILENO && ++reads == (failed ? strtoul(failed, NULL, 10) : 0)) {
        errno = EIO;
        return -1;
    }
    return next(file, to, size);
}

__attribute__((destructor)) static void tell(void) {
    const char *path = getenv("READS");
    FILE *file = path ? fopen(path, "w") : NULL;
    if (!file)
        return;
    fprintf(file, "%lu\n", reads);
    fclose(file);
}
