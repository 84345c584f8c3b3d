/* A shim: the call that FAILING_CALL names fails, `pthread_create` or `clock_gettime`. If SPARED_CALLS is N, its first N calls don't. */
#define _GNU_SOURCE
#include <dlfcn.h>
#include <errno.h>
#include <pthread.h>
#include <stdlib.h>
#include <string.h>
#include <time.h>
static int fails(const char *name) {
    static long calls;
    const char *which = getenv("FAILING_CALL"), *spared = getenv("SPARED_CALLS");
    return which && strcmp(which, name) == 0 && ++calls > (spared ? atol(spared) : 0);
}
int pthread_create(pthread_t *thread, const pthread_attr_t *with, void *(*body)(void *), void *word) {
    int (*next)(pthread_t *, const pthread_attr_t *, void *(*)(void *), void *) =
        (int (*)(pthread_t *, const pthread_attr_t *, void *(*)(void *), void *))dlsym(RTLD_NEXT, "pthread_create");
    return fails("pthread_create") ? EAGAIN : next(thread, with, body, word);
}
int clock_gettime(clockid_t clock, struct timespec *now) {
    static int (*next)(clockid_t, struct timespec *);
    if (!next) next = (int (*)(clockid_t, struct timespec *))dlsym(RTLD_NEXT, "clock_gettime");
    if (fails("clock_gettime")) {
        errno = EINVAL;
        return -1;
    }
    return next(clock, now);
}
