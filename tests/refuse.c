// A library that is loaded in front of a program: it refuses the allocation whose number, from 1, the variable REFUSED
// has, and writes behind the program's end how many there were. A program that then goes on for a minute is ended.
// tests/memory.sh and tests/refusals.sh compile it.
#define _GNU_SOURCE
#include <dlfcn.h>
#include <errno.h>
#include <stdio.h>
#include <stdlib.h>
#include <unistd.h>

static unsigned long allocations;

static int is_refused(void) {
    const char *refused = getenv("REFUSED");
    allocations++;
    if (!refused || strtoul(refused, NULL, 10) != allocations)
        return 0;
    errno = ENOMEM;
    return 1;
}

void *malloc(size_t size) {
    static void *(*next)(size_t);
    if (!next)
        next = dlsym(RTLD_NEXT, "malloc");
    return is_refused() ? NULL : next(size);
}

void *realloc(void *block, size_t size) {
    static void *(*next)(void *, size_t);
    if (!next)
        next = dlsym(RTLD_NEXT, "realloc");
    return is_refused() ? NULL : next(block, size);
}

__attribute__((constructor)) static void begin(void) {
    alarm(60);
}

__attribute__((destructor)) static void tell(void) {
    fprintf(stderr, "allocations %lu\n", allocations);
}
