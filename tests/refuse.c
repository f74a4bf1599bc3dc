/* Refuses allocations of a program that is run with this library loaded before the C library (LD_PRELOAD): the one whose number, from
   1, the variable REFUSE holds, and where REFUSE_ALL is set each one after it too. When the program ends, it writes to standard
   error how many were asked for. */
#define _GNU_SOURCE
#include <dlfcn.h>
#include <stdio.h>
#include <stdlib.h>

static long asked, refused, all;

__attribute__((constructor)) static void start(void) {
    const char *number = getenv("REFUSE");
    refused = number ? atol(number) : 0;
    all = getenv("REFUSE_ALL") != NULL;
    asked = 0;
}

__attribute__((destructor)) static void end(void) {
    fprintf(stderr, "allocations=%ld\n", asked);
}

static int is_refused(void) {
    asked += 1;
    return refused > 0 && (all ? asked >= refused : asked == refused);
}

void *malloc(size_t size) {
    static void *(*next)(size_t);
    if (!next)
        next = (void *(*)(size_t))dlsym(RTLD_NEXT, "malloc");
    return is_refused() ? NULL : next(size);
}

void *realloc(void *block, size_t size) {
    static void *(*next)(void *, size_t);
    if (!next)
        next = (void *(*)(void *, size_t))dlsym(RTLD_NEXT, "realloc");
    return is_refused() ? NULL : next(block, size);
}
