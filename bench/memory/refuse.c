/* Lets one request for memory fail: the one whose number REFUSE_AT gives, counted from 1 from when the program
   itself asks. At the end it says on descriptor 9 whether it came to that. */
#define _GNU_SOURCE
#include <dlfcn.h>
#include <errno.h>
#include <stdlib.h>
#include <unistd.h>

static long count, refuse_at = -1;

static int refused(void)
{
    if (refuse_at < 0) {
        const char *text = getenv("REFUSE_AT");
        refuse_at = text ? atol(text) : 0;
    }
    if (++count != refuse_at)
        return 0;
    if (write(9, "refused", 7) < 0)
        return 1;
    errno = ENOMEM;
    return 1;
}

void *malloc(size_t size)
{
    static void *(*next)(size_t);
    if (!next)
        next = dlsym(RTLD_NEXT, "malloc");
    return refused() ? NULL : next(size);
}

void *realloc(void *old, size_t size)
{
    static void *(*next)(void *, size_t);
    if (!next)
        next = dlsym(RTLD_NEXT, "realloc");
    return refused() ? NULL : next(old, size);
}

void *aligned_alloc(size_t align, size_t size)
{
    static void *(*next)(size_t, size_t);
    if (!next)
        next = dlsym(RTLD_NEXT, "aligned_alloc");
    return refused() ? NULL : next(align, size);
}

int posix_memalign(void **out, size_t align, size_t size)
{
    static int (*next)(void **, size_t, size_t);
    if (!next)
        next = dlsym(RTLD_NEXT, "posix_memalign");
    return refused() ? ENOMEM : next(out, align, size);
}
