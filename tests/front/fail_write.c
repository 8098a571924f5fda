/* A library to be preloaded: of the calls that create, empty, write, sync, close or rename an output (a file whose name ends with .bbl or .blg, or begins so), that of
 * the number FAIL_AT, counted from 1, and those after it fail for want of room. Where FAIL_HALF is set, a write of that number writes half of its bytes.
 * Where the number is met, the file FAIL_NOTE is made, so that its absence says that there are fewer such calls. */
#define _GNU_SOURCE
#include <dlfcn.h>
#include <errno.h>
#include <fcntl.h>
#include <stdarg.h>
#include <stdio.h>
#include <stdlib.h>
#include <string.h>
#include <sys/types.h>
#include <sys/uio.h>
#include <unistd.h>

#define NEXT(name) ((__typeof__(&name))dlsym(RTLD_NEXT, #name))

static unsigned long met;

static int names_output(const char *path)
{
    const char *slash = strrchr(path, '/');
    const char *name = slash ? slash + 1 : path;
    return strstr(name, ".bbl") || strstr(name, ".blg");
}

static int is_output(int file)
{
    char link[64], path[4096];
    ssize_t length;
    snprintf(link, sizeof link, "/proc/self/fd/%d", file);
    length = readlink(link, path, sizeof path - 1);
    if (file <= 2 || length < 0)
        return 0;
    path[length] = 0;
    return names_output(path);
}

/* 0 before that call, 1 at it, 2 after it. */
static int moment(void)
{
    const char *number = getenv("FAIL_AT");
    const char *note = getenv("FAIL_NOTE");
    unsigned long at = number ? strtoul(number, NULL, 10) : 0;
    if (!at || ++met < at)
        return 0;
    if (note)
        NEXT(close)(NEXT(open)(note, O_WRONLY | O_CREAT, 0666));
    errno = ENOSPC;
    return met == at ? 1 : 2;
}

static int fails(int file)
{
    return is_output(file) && moment();
}

ssize_t write(int file, const void *bytes, size_t length)
{
    if (is_output(file))
        switch (moment()) {
        case 0:
            break;
        case 1:
            if (getenv("FAIL_HALF") && length > 1)
                return NEXT(write)(file, bytes, length / 2);
            /* fall through */
        default:
            errno = ENOSPC;
            return -1;
        }
    return NEXT(write)(file, bytes, length);
}

ssize_t writev(int file, const struct iovec *parts, int count)
{
    return fails(file) ? -1 : NEXT(writev)(file, parts, count);
}

ssize_t pwrite64(int file, const void *bytes, size_t length, off64_t at)
{
    return fails(file) ? -1 : NEXT(pwrite64)(file, bytes, length, at);
}

int ftruncate64(int file, off64_t length)
{
    return fails(file) ? -1 : NEXT(ftruncate64)(file, length);
}

int ftruncate(int file, off_t length)
{
    return fails(file) ? -1 : NEXT(ftruncate)(file, length);
}

int fsync(int file)
{
    return fails(file) ? -1 : NEXT(fsync)(file);
}

int close(int file)
{
    if (fails(file)) {
        NEXT(close)(file);
        errno = ENOSPC;
        return -1;
    }
    return NEXT(close)(file);
}

int open64(const char *path, int flags, ...)
{
    va_list rest;
    mode_t mode;
    va_start(rest, flags);
    mode = flags & O_CREAT ? va_arg(rest, mode_t) : 0;
    va_end(rest);
    if (flags & (O_WRONLY | O_RDWR) && names_output(path) && moment())
        return -1;
    return NEXT(open64)(path, flags, mode);
}

int rename(const char *from, const char *to)
{
    return names_output(to) && moment() ? -1 : NEXT(rename)(from, to);
}
