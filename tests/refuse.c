/* Stands before the C library where a test loads it into a program, and has one call fail: that with the number REFUSE_AT,
   counted from 1 over all threads, of those that REFUSE names: `memory` (the allocations and the starts of threads), `read` or
   `write`. Where PIECES is set, each read and each write moves one byte. */
#define _GNU_SOURCE
#include <dlfcn.h>
#include <errno.h>
#include <pthread.h>
#include <stdatomic.h>
#include <stdlib.h>
#include <string.h>
#include <unistd.h>

#define NEXT(name) ((__typeof__(name) *)dlsym(RTLD_NEXT, #name))

static atomic_long calls;

static int refused(const char *kind) {
    const char *which = getenv("REFUSE"), *at = getenv("REFUSE_AT");
    return which && at && !strcmp(which, kind) && atomic_fetch_add(&calls, 1) + 1 == atol(at);
}

static size_t piece(size_t n) { return n > 1 && getenv("PIECES") ? 1 : n; }

void *malloc(size_t n) {
    if (!refused("memory")) return NEXT(malloc)(n);
    errno = ENOMEM;
    return NULL;
}

void *realloc(void *old, size_t n) {
    if (!refused("memory")) return NEXT(realloc)(old, n);
    errno = ENOMEM;
    return NULL;
}

int pthread_create(pthread_t *thread, const pthread_attr_t *how, void *(*run)(void *), void *with) {
    return refused("memory") ? EAGAIN : NEXT(pthread_create)(thread, how, run, with);
}

ssize_t read(int file, void *into, size_t n) {
    if (!refused("read")) return NEXT(read)(file, into, piece(n));
    errno = EIO;
    return -1;
}

ssize_t write(int file, const void *from, size_t n) {
    if (!refused("write")) return NEXT(write)(file, from, piece(n));
    errno = EIO;
    return -1;
}
