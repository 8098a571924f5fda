/* A library to be preloaded: the allocation of the number REFUSE_AT, counted from 1, is refused. Where that allocation was
 * asked for, the file REFUSE_NOTE is made, so that its absence says that the program asks for fewer. */
#define _GNU_SOURCE
#include <dlfcn.h>
#include <errno.h>
#include <fcntl.h>
#include <stdlib.h>
#include <unistd.h>

static unsigned long asked;

static int is_refused(void)
{
    const char *number = getenv("REFUSE_AT");
    const char *note = getenv("REFUSE_NOTE");
    if (!number || ++asked != strtoul(number, NULL, 10))
        return 0;
    if (note)
        close(open(note, O_WRONLY | O_CREAT, 0666));
    errno = ENOMEM;
    return 1;
}

void *malloc(size_t size)
{
    static void *(*next)(size_t);
    if (!next)
        next = (void *(*)(size_t))dlsym(RTLD_NEXT, "malloc");
    return is_refused() ? NULL : next(size);
}

void *realloc(void *old, size_t size)
{
    static void *(*next)(void *, size_t);
    if (!next)
        next = (void *(*)(void *, size_t))dlsym(RTLD_NEXT, "realloc");
    return is_refused() ? NULL : next(old, size);
}

void *aligned_alloc(size_t alignment, size_t size)
{
    static void *(*next)(size_t, size_t);
    if (!next)
        next = (void *(*)(size_t, size_t))dlsym(RTLD_NEXT, "aligned_alloc");
    return is_refused() ? NULL : next(alignment, size);
}
