/* Stands in front of the C library's allocations, by LD_PRELOAD. Lets the one fail whose number FAILING_ALLOCATION says,
 * from 1. At the end it writes how many there were into the file that ALLOCATIONS_FILE names. */
#define _GNU_SOURCE
#include <dlfcn.h>
#include <errno.h>
#include <stdio.h>
#include <stdlib.h>
#include <unistd.h>

static long count;

/* Whether this allocation is the one that fails. */
static int fails(void) {
    static long at = -1;
    if (at < 0) {
        const char *text = getenv("FAILING_ALLOCATION");
        at = text ? atol(text) : 0;
    }
    if (__atomic_add_fetch(&count, 1, __ATOMIC_SEQ_CST) != at) return 0;
    errno = ENOMEM;
    return 1;
}

void *malloc(size_t size) {
    static void *(*real)(size_t);
    if (!real) real = dlsym(RTLD_NEXT, "malloc");
    return fails() ? NULL : real(size);
}

void *realloc(void *old, size_t size) {
    static void *(*real)(void *, size_t);
    if (!real) real = dlsym(RTLD_NEXT, "realloc");
    return fails() ? NULL : real(old, size);
}

void *aligned_alloc(size_t unit, size_t size) {
    static void *(*real)(size_t, size_t);
    if (!real) real = dlsym(RTLD_NEXT, "aligned_alloc");
    return fails() ? NULL : real(unit, size);
}

__attribute__((destructor)) static void tell(void) {
    const char *path = getenv("ALLOCATIONS_FILE");
    long seen = count;
    FILE *file = path ? fopen(path, "w") : NULL;
    if (!file) return;
    fprintf(file, "%ld\n", seen);
    fclose(file);
}

/* A program that ends so runs no destructor. */
void _exit(int status) {
    static void (*real)(int);
    if (!real) real = dlsym(RTLD_NEXT, "_exit");
    tell();
    real(status);
    __builtin_unreachable();
}
