/* For tests: an allocator that refuses one growth, the FAIL_AT-th, or each from the FAIL_FROM-th on. */
#define _GNU_SOURCE
#include <dlfcn.h>
#include <stdlib.h>

static long asked;

static long number_in(const char *name)
{
    const char *text = getenv(name);
    return text ? atol(text) : 0;
}

static int is_refused(void)
{
    static long one, all;
    if (asked == 0) {
        one = number_in("FAIL_AT");
        all = number_in("FAIL_FROM");
    }
    asked += 1;
    return asked == one || (all != 0 && asked >= all);
}

void *malloc(size_t size)
{
    static void *(*real)(size_t);
    if (!real)
        real = dlsym(RTLD_NEXT, "malloc");
    return is_refused() ? NULL : real(size);
}

void *realloc(void *old, size_t size)
{
    static void *(*real)(void *, size_t);
    if (!real)
        real = dlsym(RTLD_NEXT, "realloc");
    return is_refused() ? NULL : real(old, size);
}
