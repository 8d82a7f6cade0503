// A library that is loaded in front of a program: it counts what the program does, by numbers that are the same at each
// run and on each machine, and writes them, behind the program's end, to the file that the variable COUNTS names:
//
//   calls   how often room was taken or changed: malloc, calloc and realloc
//   peak    the most octets that were taken at one time; a realloc has its old room and its new one at once
//   moved   the octets that memcpy, memmove and memset wrote, and those that a realloc keeps
//   passed  the octets that read and write passed
//   behind  the most octets that were taken at one time since an input was read to its end
//   taken   the octets of all room that was ever taken, whether it was given back or not
//   reads   how often read was called
//   late    how often it was called for an input that had been read to its end
//
// tests/cost.sh compiles it.
#define _GNU_SOURCE
#include <dlfcn.h>
#include <fcntl.h>
#include <malloc.h>
#include <stdio.h>
#include <stdlib.h>
#include <string.h>
#include <unistd.h>

static unsigned long calls, live, peak, moved, passed, behind, all, reads, late;
// which files were read to their end, by their numbers
static char ended[1024];

#define NEXT(name, ...)                  \
    static __typeof__(name) *next;       \
    if (!next)                           \
        next = dlsym(RTLD_NEXT, #name);  \
    return next(__VA_ARGS__)

static void *next_malloc(size_t size) { NEXT(malloc, size); }
static void *next_calloc(size_t count, size_t size) { NEXT(calloc, count, size); }
static void *next_realloc(void *block, size_t size) { NEXT(realloc, block, size); }
static void next_free(void *block) { NEXT(free, block); }
static void *next_memcpy(void *to, const void *from, size_t size) { NEXT(memcpy, to, from, size); }
static void *next_memmove(void *to, const void *from, size_t size) { NEXT(memmove, to, from, size); }
static void *next_memset(void *to, int octet, size_t size) { NEXT(memset, to, octet, size); }
static ssize_t next_read(int file, void *to, size_t size) { NEXT(read, file, to, size); }
static ssize_t next_write(int file, const void *from, size_t size) { NEXT(write, file, from, size); }
static int next_close(int file) { NEXT(close, file); }

static void *taken(void *block, size_t size) {
    calls++;
    all += size;
    live += malloc_usable_size(block);
    if (live > peak)
        peak = live;
    if (live > behind)
        behind = live;
    return block;
}

void *malloc(size_t size) {
    return taken(next_malloc(size), size);
}

void *calloc(size_t count, size_t size) {
    return taken(next_calloc(count, size), count * size);
}

void *realloc(void *block, size_t size) {
    size_t old = malloc_usable_size(block);
    void *changed = next_realloc(block, size);
    if (changed) {
        moved += old < size ? old : size;
        taken(changed, size);
        live -= old;
    }
    return changed;
}

void free(void *block) {
    live -= malloc_usable_size(block);
    next_free(block);
}

void *memcpy(void *restrict to, const void *restrict from, size_t size) {
    moved += size;
    return next_memcpy(to, from, size);
}

void *memmove(void *to, const void *from, size_t size) {
    moved += size;
    return next_memmove(to, from, size);
}

void *memset(void *to, int octet, size_t size) {
    moved += size;
    return next_memset(to, octet, size);
}

ssize_t read(int file, void *to, size_t size) {
    ssize_t count = next_read(file, to, size);
    int known = file >= 0 && file < (int)sizeof ended;
    passed += count > 0 ? count : 0;
    reads++;
    late += known && ended[file];
    if (count == 0 && known)
        ended[file] = 1;
    if (count == 0)
        behind = live;
    return count;
}

int close(int file) {
    if (file >= 0 && file < (int)sizeof ended)
        ended[file] = 0;
    return next_close(file);
}

ssize_t write(int file, const void *from, size_t size) {
    ssize_t count = next_write(file, from, size);
    passed += count > 0 ? count : 0;
    return count;
}

__attribute__((destructor)) static void tell(void) {
    const char *path = getenv("COUNTS");
    FILE *file = path ? fopen(path, "w") : NULL;
    if (!file)
        return;
    fprintf(file, "%lu %lu %lu %lu %lu %lu %lu %lu\n", calls, peak, moved, passed, behind, all, reads, late);
    fclose(file);
}
