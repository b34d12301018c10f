/* Lets one allocation of a program fail: the one whose number, counted from 1, is in the environment as FAIL_NTH. It is
   loaded in front of the C library. */
#define _GNU_SOURCE
#include <dlfcn.h>
#include <errno.h>
#include <stdlib.h>

static unsigned long made;

static int fails(void) {
    static long nth = -1;
    if (nth < 0) {
        const char *said = getenv("FAIL_NTH");
        nth = said ? atol(said) : 0;
    }
    if (++made != (unsigned long)nth)
        return 0;
    errno = ENOMEM;
    return 1;
}

void *malloc(size_t size) {
    static void *(*real)(size_t);
    if (!real)
        real = (void *(*)(size_t))dlsym(RTLD_NEXT, "malloc");
    return fails() ? NULL : real(size);
}

void *realloc(void *old, size_t size) {
    static void *(*real)(void *, size_t);
    if (!real)
        real = (void *(*)(void *, size_t))dlsym(RTLD_NEXT, "realloc");
    return fails() ? NULL : real(old, size);
}
