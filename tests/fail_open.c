/* A library to be preloaded. A file or a folder whose path ends with the name FAIL_OPEN can't be opened, for the reason FAIL_REASON, which is an
 * error number or the name of one; where FAIL_ACCESS is set too, only for that access, `read` or `write`. Where FAIL_EMPTY is set, no file can be emptied,
 * for that reason; where FAIL_READ is set, none be read, and where FAIL_WRITE is set, none be written: `each` time, or the `first` time alone.
 * Where FAIL_SHORT is set, each reading and each writing takes one byte. */
#define _GNU_SOURCE
#include <dirent.h>
#include <dlfcn.h>
#include <errno.h>
#include <fcntl.h>
#include <stdarg.h>
#include <stdlib.h>
#include <string.h>
#include <unistd.h>

static const struct {
    const char *name;
    int number;
} reasons[] = {
    {"EIO", EIO},       {"ENXIO", ENXIO},   {"ENODEV", ENODEV}, {"ESTALE", ESTALE},
    {"EMFILE", EMFILE}, {"ENFILE", ENFILE}, {"ENOMEM", ENOMEM}, {"EACCES", EACCES},
    {"EPERM", EPERM},   {"EROFS", EROFS},   {"EDQUOT", EDQUOT}, {"EAGAIN", EAGAIN},
    {"EINTR", EINTR},
};

/* The error number of FAIL_REASON. */
static int reason(void)
{
    const char *wanted = getenv("FAIL_REASON");
    if (wanted && atoi(wanted) > 0)
        return atoi(wanted);
    for (size_t at = 0; wanted && at < sizeof reasons / sizeof *reasons; at++)
        if (strcmp(reasons[at].name, wanted) == 0)
            return reasons[at].number;
    abort();
}

/* Whether an opening with these flags asks for the access that fails: any, if none is named. */
static int is_denied(int flags)
{
    const char *access = getenv("FAIL_ACCESS");
    int asked = flags & O_ACCMODE;
    return !access || (strcmp(access, "read") == 0 ? asked != O_WRONLY : asked != O_RDONLY);
}

static int is_lost(const char *path, int flags)
{
    const char *lost = getenv("FAIL_OPEN");
    const char *slash = strrchr(path, '/');
    return lost && strcmp(slash ? slash + 1 : path, lost) == 0 && is_denied(flags);
}

/* `open`, and the name by which other programs call it. */
#define OPENS(name)                                                            \
    int name(const char *path, int flags, ...)                                 \
    {                                                                          \
        static int (*next)(const char *, int, ...);                            \
        va_list rest;                                                          \
        mode_t mode = 0;                                                       \
        if (!next)                                                             \
            next = (int (*)(const char *, int, ...))dlsym(RTLD_NEXT, #name);   \
        if (is_lost(path, flags)) {                                            \
            errno = reason();                                                  \
            return -1;                                                         \
        }                                                                      \
        if (flags & O_CREAT) {                                                 \
            va_start(rest, flags);                                             \
            mode = va_arg(rest, mode_t);                                       \
            va_end(rest);                                                      \
        }                                                                      \
        return next(path, flags, mode);                                        \
    }

OPENS(open)
OPENS(open64)

DIR *opendir(const char *path)
{
    static DIR *(*next)(const char *);
    if (!next)
        next = (DIR *(*)(const char *))dlsym(RTLD_NEXT, "opendir");
    if (is_lost(path, O_RDONLY)) {
        errno = reason();
        return NULL;
    }
    return next(path);
}

int ftruncate(int file, off_t length)
{
    static int (*next)(int, off_t);
    if (!next)
        next = (int (*)(int, off_t))dlsym(RTLD_NEXT, "ftruncate");
    if (getenv("FAIL_EMPTY")) {
        errno = reason();
        return -1;
    }
    return next(file, length);
}

/* Whether a call fails that this variable names: each time, or the first time alone. */
static int is_failing(const char *name, int *calls)
{
    const char *when = getenv(name);
    return when && (strcmp(when, "each") == 0 || (*calls)++ == 0);
}

/* `read` or `write`: one byte at a time, where that is asked for. */
#define MOVES(name, buffer, variable)                                          \
    ssize_t name(int file, buffer bytes, size_t most)                          \
    {                                                                          \
        static ssize_t (*next)(int, buffer, size_t);                           \
        static int calls;                                                      \
        if (!next)                                                             \
            next = (ssize_t (*)(int, buffer, size_t))dlsym(RTLD_NEXT, #name);  \
        if (is_failing(variable, &calls)) {                                    \
            errno = reason();                                                  \
            return -1;                                                         \
        }                                                                      \
        return next(file, bytes, most > 1 && getenv("FAIL_SHORT") ? 1 : most); \
    }

MOVES(read, void *, "FAIL_READ")
MOVES(write, const void *, "FAIL_WRITE")
