/* Makes calls of the system fail in a program that is loaded with it (LD_PRELOAD). The program says which, by `fail_calls`. */
#define _GNU_SOURCE
#include <dlfcn.h>
#include <errno.h>
#include <fcntl.h>
#include <stdarg.h>
#include <sys/stat.h>
#include <sys/types.h>
#include <unistd.h>

enum how { WITH_ERROR, INTERRUPTED, TORN };

static int first, last, made, failed, is_torn, synced_files, synced_folders;
static enum how how;

/* From now on the calls from the `nth` on fail, `count` of them: with an error; or as a signal interrupts them, which leaves a write with
 * half of its bytes; or, of a write, with half of its bytes and then an error. */
void fail_calls(int nth, int count, int how_they_fail)
{
    first = nth;
    last = nth + count - 1;
    how = (enum how)how_they_fail;
    made = failed = is_torn = 0;
}

/* How many calls failed since. */
int failed_calls(void)
{
    return failed;
}

/* What is done just before a file is synced, if anything. */
void (*before_sync)(void);

/* How many files and folders were synced. */
int synced(int are_folders)
{
    return are_folders ? synced_folders : synced_files;
}

static int fails(void)
{
    made++;
    if (first == 0 || made < first || made > last)
        return 0;
    failed++;
    return 1;
}

static int with(int error)
{
    errno = how == INTERRUPTED ? EINTR : error;
    return -1;
}

#define NEXT(type, name) ((type)dlsym(RTLD_NEXT, name))

ssize_t pwrite(int descriptor, const void *bytes, size_t count, off_t from)
{
    static ssize_t (*next)(int, const void *, size_t, off_t);
    next = next ? next : NEXT(ssize_t(*)(int, const void *, size_t, off_t), "pwrite");
    if (is_torn) {
        is_torn = 0;
        return with(ENOSPC);
    }
    if (!fails())
        return next(descriptor, bytes, count, from);
    if (how == WITH_ERROR || count < 2 || (how == INTERRUPTED && made % 2 == 0))
        return with(ENOSPC);
    is_torn = how == TORN;
    return next(descriptor, bytes, count / 2, from);
}

ssize_t pwrite64(int descriptor, const void *bytes, size_t count, off_t from)
{
    return pwrite(descriptor, bytes, count, from);
}

ssize_t pread(int descriptor, void *bytes, size_t count, off_t from)
{
    static ssize_t (*next)(int, void *, size_t, off_t);
    next = next ? next : NEXT(ssize_t(*)(int, void *, size_t, off_t), "pread");
    return fails() ? with(EIO) : next(descriptor, bytes, count, from);
}

ssize_t pread64(int descriptor, void *bytes, size_t count, off_t from)
{
    return pread(descriptor, bytes, count, from);
}

int fsync(int descriptor)
{
    static int (*next)(int);
    next = next ? next : NEXT(int (*)(int), "fsync");
    if (fails())
        return with(EIO);
    struct stat found;
    if (fstat(descriptor, &found) == 0)
        (*(S_ISDIR(found.st_mode) ? &synced_folders : &synced_files))++;
    if (before_sync)
        before_sync();
    return next(descriptor);
}

int ftruncate(int descriptor, off_t length)
{
    static int (*next)(int, off_t);
    next = next ? next : NEXT(int (*)(int, off_t), "ftruncate");
    return fails() ? with(EIO) : next(descriptor, length);
}

int ftruncate64(int descriptor, off_t length)
{
    return ftruncate(descriptor, length);
}

int flock(int descriptor, int what)
{
    static int (*next)(int, int);
    next = next ? next : NEXT(int (*)(int, int), "flock");
    return fails() ? with(ENOLCK) : next(descriptor, what);
}

int open(const char *name, int flags, ...)
{
    static int (*next)(const char *, int, ...);
    next = next ? next : NEXT(int (*)(const char *, int, ...), "open");
    va_list rest;
    va_start(rest, flags);
    int mode = flags & O_CREAT ? va_arg(rest, int) : 0;
    va_end(rest);
    return fails() ? with(EMFILE) : next(name, flags, mode);
}

int open64(const char *name, int flags, ...)
{
    va_list rest;
    va_start(rest, flags);
    int mode = flags & O_CREAT ? va_arg(rest, int) : 0;
    va_end(rest);
    return open(name, flags, mode);
}

int fcntl(int descriptor, int what, ...)
{
    static int (*next)(int, int, ...);
    next = next ? next : NEXT(int (*)(int, int, ...), "fcntl");
    va_list rest;
    va_start(rest, what);
    void *argument = va_arg(rest, void *);
    va_end(rest);
    return what == F_DUPFD_CLOEXEC && fails() ? with(EMFILE) : next(descriptor, what, argument);
}

int fcntl64(int descriptor, int what, ...)
{
    va_list rest;
    va_start(rest, what);
    void *argument = va_arg(rest, void *);
    va_end(rest);
    return fcntl(descriptor, what, argument);
}
