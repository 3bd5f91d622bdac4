// Tells how long the threads of a process ran that is started with LD_PRELOAD set to this: the time from the start of
// the first to the end of the last.
//
//   gcc -O1 -shared -fPIC threads.c -o threads.so
//
// THREADS_TOLD=F: the seconds are written to the file F whenever a thread is joined, so at last all of them.
#define _GNU_SOURCE
#include <dlfcn.h>
#include <pthread.h>
#include <stdio.h>
#include <stdlib.h>
#include <time.h>

static double first;

static double now(void) {
    struct timespec at;
    clock_gettime(CLOCK_MONOTONIC, &at);
    return at.tv_sec + at.tv_nsec / 1e9;
}

int pthread_create(pthread_t* thread, const pthread_attr_t* attributes, void* (*start)(void*), void* argument) {
    static int (*next)(pthread_t*, const pthread_attr_t*, void* (*)(void*), void*);
    if (!next) next = (int (*)(pthread_t*, const pthread_attr_t*, void* (*)(void*), void*))dlsym(RTLD_NEXT, "pthread_create");
    if (first == 0) first = now();
    return next(thread, attributes, start, argument);
}

int pthread_join(pthread_t thread, void** result) {
    static int (*next)(pthread_t, void**);
    if (!next) next = (int (*)(pthread_t, void**))dlsym(RTLD_NEXT, "pthread_join");
    int status = next(thread, result);
    const char* told = getenv("THREADS_TOLD");
    FILE* file = told ? fopen(told, "w") : NULL;
    if (file) {
        fprintf(file, "%.6f\n", now() - first);
        fclose(file);
    }
    return status;
}
