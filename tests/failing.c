/* Preloaded before a program: the allocation whose number FAIL_ALLOCATION says answers no memory. */
#define _GNU_SOURCE
#include <dlfcn.h>
#include <errno.h>
#include <stdlib.h>

static int fails(void)
{
    static long count, at = -1;
    if (at < 0) {
        const char *said = getenv("FAIL_ALLOCATION");
        at = said ? atol(said) : 0;
    }
    return ++count == at;
}

void *malloc(size_t size)
{
    static void *(*next)(size_t);
    if (!next)
        next = dlsym(RTLD_NEXT, "malloc");
    if (fails()) {
        errno = ENOMEM;
        return NULL;
    }
    return next(size);
}

void *realloc(void *block, size_t size)
{
    static void *(*next)(void *, size_t);
    if (!next)
        next = dlsym(RTLD_NEXT, "realloc");
    if (fails()) {
        errno = ENOMEM;
        return NULL;
    }
    return next(block, size);
}
