/* A shim for `malloc` and `realloc`: if FAILING_ALLOCATION is N, the N-th allocation fails. It writes how many there were to the file
   that ALLOCATIONS_MADE names, and the bytes of each, a line each, to the file that ALLOCATION_SIZES names. */
#define _GNU_SOURCE
#include <dlfcn.h>
#include <fcntl.h>
#include <stdio.h>
#include <stdlib.h>
#include <unistd.h>
static long calls;
static long failing(void) {
    const char *which = getenv("FAILING_ALLOCATION");
    return which ? atol(which) : 0;
}
/* Neither `snprintf` of a number nor `write` allocates. */
static void note(size_t size) {
    const char *path = getenv("ALLOCATION_SIZES");
    char line[24];
    int length, file = path ? open(path, O_WRONLY | O_APPEND | O_CREAT, 0600) : -1;
    if (file < 0) return;
    length = snprintf(line, sizeof line, "%zu\n", size);
    if (write(file, line, (size_t)length) != length) abort();
    close(file);
}
void *malloc(size_t size) {
    static void *(*next)(size_t);
    if (!next) next = (void *(*)(size_t))dlsym(RTLD_NEXT, "malloc");
    note(size);
    return ++calls == failing() ? NULL : next(size);
}
void *realloc(void *old, size_t size) {
    static void *(*next)(void *, size_t);
    if (!next) next = (void *(*)(void *, size_t))dlsym(RTLD_NEXT, "realloc");
    note(size);
    return ++calls == failing() ? NULL : next(old, size);
}
__attribute__((destructor)) static void tell(void) {
    const char *path = getenv("ALLOCATIONS_MADE");
    FILE *file = path ? fopen(path, "w") : NULL;
    if (file) { fprintf(file, "%ld\n", calls); fclose(file); }
}
/* A program that may start threads ends so, without destructors. */
void _exit(int status) {
    void (*next)(int) = (void (*)(int))dlsym(RTLD_NEXT, "_exit");
    tell();
    next(status);
    __builtin_unreachable();
}
