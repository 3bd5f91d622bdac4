// Refuses one allocation, or the start of one thread, of a process that is started with LD_PRELOAD set to this.
//
//   gcc -O1 -shared -fPIC refuse.c -o refuse.so
//
// REFUSE_ALLOCATION=N: the N-th call of malloc or realloc fails, counted from 1. REFUSE_START=N: the N-th call of
// pthread_create fails. REFUSE_TOLD=F: where a call was failed, the file F is made.
#define _GNU_SOURCE
#include <dlfcn.h>
#include <errno.h>
#include <fcntl.h>
#include <pthread.h>
#include <stdatomic.h>
#include <stdlib.h>
#include <unistd.h>

static atomic_long allocations, starts;

static int is_refused(const char* name, atomic_long* calls) {
    const char* which = getenv(name);
    if (!which || atomic_fetch_add(calls, 1) + 1 != atol(which)) return 0;
    const char* told = getenv("REFUSE_TOLD");
    if (told) close(open(told, O_CREAT | O_WRONLY, 0600));
    return 1;
}

void* malloc(size_t size) {
    static void* (*next)(size_t);
    if (!next) next = (void* (*)(size_t))dlsym(RTLD_NEXT, "malloc");
    if (is_refused("REFUSE_ALLOCATION", &allocations)) return errno = ENOMEM, NULL;
    return next(size);
}

void* realloc(void* block, size_t size) {
    static void* (*next)(void*, size_t);
    if (!next) next = (void* (*)(void*, size_t))dlsym(RTLD_NEXT, "realloc");
    if (is_refused("REFUSE_ALLOCATION", &allocations)) return errno = ENOMEM, NULL;
    return next(block, size);
}

int pthread_create(pthread_t* thread, const pthread_attr_t* attributes, void* (*start)(void*), void* argument) {
    static int (*next)(pthread_t*, const pthread_attr_t*, void* (*)(void*), void*);
    if (!next) next = (int (*)(pthread_t*, const pthread_attr_t*, void* (*)(void*), void*))dlsym(RTLD_NEXT, "pthread_create");
    if (is_refused("REFUSE_START", &starts)) return EAGAIN;
    return next(thread, attributes, start, argument);
}
