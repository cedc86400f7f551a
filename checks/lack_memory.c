/* Loaded before the C library, it lets the allocation of the number in LACK_MEMORY fail, and all behind it; or that of
 * the number in LACK_ONE, and no other. Where one fails the file that LACK_MARK names is made. */
#define _GNU_SOURCE
#include <dlfcn.h>
#include <errno.h>
#include <fcntl.h>
#include <stdlib.h>
#include <unistd.h>

static long left = -1;
static int alone;

static void mark(void)
{
    const char *name = getenv("LACK_MARK");
    int file = name ? open(name, O_WRONLY | O_CREAT, 0666) : -1;
    if (file >= 0) close(file);
}

static int lacks(void)
{
    if (left < 0) {
        const char *number = getenv("LACK_ONE");
        alone = number != NULL;
        if (!number) number = getenv("LACK_MEMORY");
        left = number ? atol(number) : 0;
    }
    if (left == 1) {
        if (alone) left = 0;
        mark();
        errno = ENOMEM;
        return 1;
    }
    if (left > 1) left--;
    return 0;
}

void *malloc(size_t size)
{
    static void *(*next)(size_t);
    if (!next) next = (void *(*)(size_t))dlsym(RTLD_NEXT, "malloc");
    return lacks() ? NULL : next(size);
}

void *realloc(void *block, size_t size)
{
    static void *(*next)(void *, size_t);
    if (!next) next = (void *(*)(void *, size_t))dlsym(RTLD_NEXT, "realloc");
    return lacks() ? NULL : next(block, size);
}

void *aligned_alloc(size_t alignment, size_t size)
{
    static void *(*next)(size_t, size_t);
    if (!next) next = (void *(*)(size_t, size_t))dlsym(RTLD_NEXT, "aligned_alloc");
    return lacks() ? NULL : next(alignment, size);
}
