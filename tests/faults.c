/* Loaded before the C library, for tests: by the variable FAULT, every other read and write is interrupted ("interrupt"),
   each moves at most 7 bytes ("short"), or one call is disturbed, the one that FAULT_AT counts: a growth of memory is refused
   ("memory"), a write fails ("write": no space), a read ("read": input error), an open ("open": too many files), a close
   ("close": input error) or a removal ("remove": not permitted); a read or write is interrupted ("once"), or a write moves at
   most 7 bytes ("cut"), or a file doesn't get another length ("length": input error). Then the file FAULT_MET is made.
   Reads from a place, seeks and questions about a file: the first are interrupted and cut short as reads are; one of them all
   fails ("look"), and before one of these or of the reads the file FAULT_FILE gets the length FAULT_LENGTH ("resize"), or before
   one of the first alone ("shrink"). Of the questions that find no file one is told so, and by then the file FAULT_FILE is there,
   with the line "made" ("make"). */
#define _GNU_SOURCE
#include <dlfcn.h>
#include <errno.h>
#include <fcntl.h>
#include <stdarg.h>
#include <stdlib.h>
#include <string.h>
#include <sys/stat.h>
#include <sys/syscall.h>
#include <unistd.h>

static int fault_is(const char *name)
{
    const char *fault = getenv("FAULT");
    return fault && strcmp(fault, name) == 0;
}

static int interrupts(void)
{
    static int calls;
    if (!fault_is("interrupt") || calls++ % 2)
        return 0;
    errno = EINTR;
    return 1;
}

/* Whether this call, of this kind, is the one that is disturbed. */
static int fails(const char *kind, int *calls, int error)
{
    const char *at = getenv("FAULT_AT"), *met = getenv("FAULT_MET");
    if (!fault_is(kind) || !at || ++*calls != atoi(at))
        return 0;
    if (met)
        syscall(SYS_close, syscall(SYS_openat, AT_FDCWD, met, O_CREAT | O_WRONLY, 0600));
    errno = error;
    return 1;
}

int open(const char *name, int flags, ...)
{
    static int (*next)(const char *, int, ...);
    static int calls;
    va_list more;
    mode_t mode;
    if (!next)
        next = dlsym(RTLD_NEXT, "open");
    if (fails("open", &calls, EMFILE))
        return -1;
    va_start(more, flags);
    mode = flags & O_CREAT ? va_arg(more, mode_t) : 0;
    va_end(more);
    return next(name, flags, mode);
}

/* Reads and writes are counted together. */
static int interrupted_once(void)
{
    static int calls;
    return fails("once", &calls, EINTR);
}

static void resizes_at(const char *kind, int *calls)
{
    const char *file = getenv("FAULT_FILE"), *length = getenv("FAULT_LENGTH");
    if (file && length && fails(kind, calls, 0))
        syscall(SYS_truncate, file, atol(length));
}

static void resizes(void)
{
    static int calls;
    resizes_at("resize", &calls);
}

/* Whether a look at a file fails: a read from a place, a seek, or a question about it. */
static int looks_in_vain(void)
{
    static int calls;
    resizes();
    return fails("look", &calls, EIO);
}

ssize_t pread(int fd, void *buffer, size_t size, off_t place)
{
    static int calls;
    resizes_at("shrink", &calls);
    if (interrupts() || interrupted_once() || looks_in_vain())
        return -1;
    return syscall(SYS_pread64, fd, buffer, fault_is("short") && size > 7 ? 7 : size, place);
}

off_t lseek(int fd, off_t place, int whence)
{
    return looks_in_vain() ? -1 : syscall(SYS_lseek, fd, place, whence);
}

static void makes(void)
{
    static int calls;
    const char *file = getenv("FAULT_FILE");
    if (errno == ENOENT && file && fails("make", &calls, ENOENT)) {
        int made = syscall(SYS_openat, AT_FDCWD, file, O_CREAT | O_WRONLY, 0600);
        syscall(SYS_write, made, "made\n", 5);
        syscall(SYS_close, made);
        errno = ENOENT;
    }
}

int statx(int fd, const char *name, int flags, unsigned mask, struct statx *about)
{
    if (looks_in_vain())
        return -1;
    if (syscall(SYS_statx, fd, name, flags, mask, about) == 0)
        return 0;
    makes();
    return -1;
}

ssize_t read(int fd, void *buffer, size_t size)
{
    static ssize_t (*next)(int, void *, size_t);
    static int calls;
    if (!next)
        next = dlsym(RTLD_NEXT, "read");
    resizes();
    if (interrupts() || interrupted_once() || fails("read", &calls, EIO))
        return -1;
    return next(fd, buffer, fault_is("short") && size > 7 ? 7 : size);
}

ssize_t write(int fd, const void *buffer, size_t size)
{
    static ssize_t (*next)(int, const void *, size_t);
    static int calls, cuts;
    if (!next)
        next = dlsym(RTLD_NEXT, "write");
    if (interrupts() || interrupted_once() || fails("write", &calls, ENOSPC))
        return -1;
    return next(fd, buffer, (fault_is("short") || fails("cut", &cuts, 0)) && size > 7 ? 7 : size);
}

int ftruncate(int fd, off_t length)
{
    static int calls;
    if (interrupts() || fails("length", &calls, EIO))
        return -1;
    return syscall(SYS_ftruncate, fd, length);
}

int close(int fd)
{
    static int (*next)(int);
    static int calls;
    int failed;
    if (!next)
        next = dlsym(RTLD_NEXT, "close");
    failed = fails("close", &calls, EIO);
    return next(fd) || failed ? -1 : 0;
}

int unlink(const char *name)
{
    static int (*next)(const char *);
    static int calls;
    if (!next)
        next = dlsym(RTLD_NEXT, "unlink");
    return fails("remove", &calls, EPERM) ? -1 : next(name);
}

static int refuses(void)
{
    static int growths;
    return fails("memory", &growths, ENOMEM);
}

extern void *__libc_malloc(size_t);
extern void *__libc_realloc(void *, size_t);

void *malloc(size_t size)
{
    return refuses() ? NULL : __libc_malloc(size);
}

void *realloc(void *old, size_t size)
{
    return refuses() ? NULL : __libc_realloc(old, size);
}
