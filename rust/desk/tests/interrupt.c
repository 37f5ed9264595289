/*
 * A library for LD_PRELOAD that stands between a command and the C library's calls by which it reads and
 * saves files. It counts these calls from the first one on and interferes with one of them. What it does is
 * told by environment variables:
 *
 *   INTERRUPT_AT=N        the call to interfere with, counted from 1; nothing is done where it is not set
 *   INTERRUPT_ONLY=NAME   only the calls of this name are counted
 *   INTERRUPT_HOW=kill    the process is killed before the call
 *                 half    the same, but of a write half of the bytes are written first
 *                 fail    the call is not made and fails
 *                 short   of a write half of the bytes are written, and the next write to that file fails
 *                 spoil   a read gives another first byte than the file has
 *                 wait    "waiting" is written to standard error, and the call is made when standard input
 *                         has something to read or has ended
 *   INTERRUPT_ERROR=NAME  the error of a call that fails, as ENOSPC
 *   INTERRUPT_LINKS=no    every hard link fails with EPERM, as on a disk that has none
 *   INTERRUPT_LOG=FILE    a line is added to this file before each call, also to one that is not made: name,
 *                         path and a third word, with tabs between. The third word is the new path of a link
 *                         or a renaming, and says of an open whether it is for writing and truncates.
 */
#define _GNU_SOURCE
#include <dlfcn.h>
#include <errno.h>
#include <fcntl.h>
#include <limits.h>
#include <signal.h>
#include <stdarg.h>
#include <stdio.h>
#include <stdlib.h>
#include <string.h>
#include <sys/types.h>
#include <sys/uio.h>
#include <unistd.h>

/* Declared here because the header forbids the null pointers that a program may still pass. */
int statx(int folder, const char *path, int flags, unsigned mask, void *into);
int fchmod(int fd, mode_t mode);
int flock(int fd, int operation);
int renameat2(int from_folder, const char *from, int to_folder, const char *to, unsigned flags);
ssize_t sendfile(int to, int from, off_t *offset, size_t count);

/* The C library's own function of a name. */
#define REAL(name) ((__typeof__(&name))real(#name))

static void *real(const char *name)
{
    void *found = dlsym(RTLD_NEXT, name);
    if (!found)
        _exit(99);
    return found;
}

static int is(const char *variable, const char *value)
{
    const char *set = getenv(variable);
    return set && strcmp(set, value) == 0;
}

/* The error that a call is to fail with. */
static int error(void)
{
    static const struct {
        const char *name;
        int number;
    } errors[] = {
        { "ENOSPC", ENOSPC }, { "EIO", EIO },     { "EDQUOT", EDQUOT }, { "EACCES", EACCES },
        { "EPERM", EPERM },   { "EROFS", EROFS }, { "EINVAL", EINVAL },
    };
    for (size_t i = 0; i < sizeof errors / sizeof errors[0]; i++)
        if (is("INTERRUPT_ERROR", errors[i].name))
            return errors[i].number;
    _exit(98);
}

/* The path of an open file, as it is now. */
static const char *path_of(int fd)
{
    static char path[PATH_MAX];
    char link[64];
    snprintf(link, sizeof link, "/proc/self/fd/%d", fd);
    ssize_t length = readlink(link, path, sizeof path - 1);
    path[length < 0 ? 0 : length] = 0;
    return path;
}

static void log_line(const char *call, const char *path, const char *third)
{
    const char *log = getenv("INTERRUPT_LOG");
    if (!log)
        return;
    char line[3 * PATH_MAX];
    int length = snprintf(line, sizeof line, "%s\t%s\t%s\n", call, path ? path : "", third);
    int fd = REAL(open)(log, O_WRONLY | O_APPEND | O_CREAT | O_CLOEXEC, 0600);
    if (fd < 0 || REAL(write)(fd, line, (size_t)length) != length)
        _exit(97);
    REAL(close)(fd);
}

/* Writes the line of a call, and says whether it is the one to interfere with. */
static int is_due(const char *call, const char *path, const char *third)
{
    static long calls;
    const char *at = getenv("INTERRUPT_AT");
    log_line(call, path, third);
    if (!at || (getenv("INTERRUPT_ONLY") && !is("INTERRUPT_ONLY", call)))
        return 0;
    return ++calls == atol(at);
}

static void die(void)
{
    kill(getpid(), SIGKILL);
    for (;;)
        pause();
}

/* Waits for the test to go on. */
static void wait_for_test(void)
{
    static const char waiting[] = "waiting\n";
    char answer;
    if (REAL(write)(2, waiting, sizeof waiting - 1) < 0 || REAL(read)(0, &answer, 1) < 0)
        _exit(96);
}

/* What is to be done before a call; true where the call is not to be made and fails. */
static int interrupted(const char *call, const char *path, const char *third)
{
    if (!is_due(call, path, third))
        return 0;
    if (is("INTERRUPT_HOW", "kill") || is("INTERRUPT_HOW", "half"))
        die();
    if (is("INTERRUPT_HOW", "wait")) {
        wait_for_test();
        return 0;
    }
    errno = error();
    return 1;
}

static const char *mode_of(int flags)
{
    if (flags & O_TRUNC)
        return "truncate";
    return (flags & O_ACCMODE) == O_RDONLY ? "read" : "write";
}

/* The third argument of an open, which is there only where a file may be made. */
#define MODE(flags, mode)                                   \
    do {                                                    \
        va_list rest;                                       \
        va_start(rest, flags);                              \
        mode = makes_file(flags) ? va_arg(rest, mode_t) : 0;\
        va_end(rest);                                       \
    } while (0)

static int makes_file(int flags)
{
    return (flags & O_CREAT) || (flags & O_TMPFILE) == O_TMPFILE;
}

int open(const char *path, int flags, ...)
{
    mode_t mode;
    MODE(flags, mode);
    return interrupted("open", path, mode_of(flags)) ? -1 : REAL(open)(path, flags, mode);
}

int open64(const char *path, int flags, ...)
{
    mode_t mode;
    MODE(flags, mode);
    return interrupted("open", path, mode_of(flags)) ? -1 : REAL(open64)(path, flags, mode);
}

int openat(int folder, const char *path, int flags, ...)
{
    mode_t mode;
    MODE(flags, mode);
    return interrupted("open", path, mode_of(flags)) ? -1 : REAL(openat)(folder, path, flags, mode);
}

int openat64(int folder, const char *path, int flags, ...)
{
    mode_t mode;
    MODE(flags, mode);
    return interrupted("open", path, mode_of(flags)) ? -1 : REAL(openat64)(folder, path, flags, mode);
}

int close(int fd)
{
    /* A close that fails has still closed the file. */
    int failed = interrupted("close", path_of(fd), "");
    int number = errno;
    int closed = REAL(close)(fd);
    if (failed)
        errno = number;
    return failed ? -1 : closed;
}

ssize_t read(int fd, void *bytes, size_t count)
{
    if (!is("INTERRUPT_HOW", "spoil"))
        return interrupted("read", path_of(fd), "") ? -1 : REAL(read)(fd, bytes, count);
    int due = is_due("read", path_of(fd), "");
    ssize_t length = REAL(read)(fd, bytes, count);
    if (due && length > 0)
        *(unsigned char *)bytes ^= 1;
    return length;
}

ssize_t write(int fd, const void *bytes, size_t count)
{
    static int fails_next = -1;
    if (fails_next == fd) {
        fails_next = -1;
        log_line("write", path_of(fd), "");
        errno = error();
        return -1;
    }
    int halved = is("INTERRUPT_HOW", "half") || is("INTERRUPT_HOW", "short");
    if (!halved || count < 2)
        return interrupted("write", path_of(fd), "") ? -1 : REAL(write)(fd, bytes, count);
    if (!is_due("write", path_of(fd), ""))
        return REAL(write)(fd, bytes, count);
    ssize_t written = REAL(write)(fd, bytes, count / 2);
    if (is("INTERRUPT_HOW", "half"))
        die();
    fails_next = fd;
    return written;
}

ssize_t writev(int fd, const struct iovec *parts, int count)
{
    return interrupted("write", path_of(fd), "") ? -1 : REAL(writev)(fd, parts, count);
}

ssize_t pwrite(int fd, const void *bytes, size_t count, off_t offset)
{
    return interrupted("write", path_of(fd), "") ? -1 : REAL(pwrite)(fd, bytes, count, offset);
}

ssize_t pwrite64(int fd, const void *bytes, size_t count, off64_t offset)
{
    return interrupted("write", path_of(fd), "") ? -1 : REAL(pwrite64)(fd, bytes, count, offset);
}

ssize_t copy_file_range(int from, off64_t *from_offset, int to, off64_t *to_offset, size_t count,
            unsigned flags)
{
    if (interrupted("write", path_of(to), ""))
        return -1;
    return REAL(copy_file_range)(from, from_offset, to, to_offset, count, flags);
}

ssize_t sendfile(int to, int from, off_t *offset, size_t count)
{
    return interrupted("write", path_of(to), "") ? -1 : REAL(sendfile)(to, from, offset, count);
}

int ftruncate(int fd, off_t length)
{
    return interrupted("truncate", path_of(fd), "") ? -1 : REAL(ftruncate)(fd, length);
}

int ftruncate64(int fd, off64_t length)
{
    return interrupted("truncate", path_of(fd), "") ? -1 : REAL(ftruncate64)(fd, length);
}

int fsync(int fd)
{
    return interrupted("fsync", path_of(fd), "") ? -1 : REAL(fsync)(fd);
}

int fdatasync(int fd)
{
    return interrupted("fsync", path_of(fd), "") ? -1 : REAL(fdatasync)(fd);
}

int fchmod(int fd, mode_t mode)
{
    return interrupted("fchmod", path_of(fd), "") ? -1 : REAL(fchmod)(fd, mode);
}

int fchown(int fd, uid_t user, gid_t group)
{
    return interrupted("fchown", path_of(fd), "") ? -1 : REAL(fchown)(fd, user, group);
}

int flock(int fd, int operation)
{
    return interrupted("flock", path_of(fd), "") ? -1 : REAL(flock)(fd, operation);
}

int statx(int folder, const char *path, int flags, unsigned mask, void *into)
{
    /* An open file is asked for by an empty path. */
    const char *named = path && !*path ? path_of(folder) : path;
    return interrupted("statx", named, "") ? -1 : REAL(statx)(folder, path, flags, mask, into);
}

char *realpath(const char *path, char *into)
{
    return interrupted("realpath", path, "") ? NULL : REAL(realpath)(path, into);
}

static int link_fails(const char *from, const char *to)
{
    if (interrupted("link", from, to))
        return 1;
    errno = EPERM;
    return is("INTERRUPT_LINKS", "no");
}

int link(const char *from, const char *to)
{
    return link_fails(from, to) ? -1 : REAL(link)(from, to);
}

int linkat(int from_folder, const char *from, int to_folder, const char *to, int flags)
{
    return link_fails(from, to) ? -1 : REAL(linkat)(from_folder, from, to_folder, to, flags);
}

int rename(const char *from, const char *to)
{
    return interrupted("rename", from, to) ? -1 : REAL(rename)(from, to);
}

int renameat(int from_folder, const char *from, int to_folder, const char *to)
{
    return interrupted("rename", from, to) ? -1 : REAL(renameat)(from_folder, from, to_folder, to);
}

int renameat2(int from_folder, const char *from, int to_folder, const char *to, unsigned flags)
{
    if (interrupted("rename", from, to))
        return -1;
    return REAL(renameat2)(from_folder, from, to_folder, to, flags);
}

int unlink(const char *path)
{
    return interrupted("unlink", path, "") ? -1 : REAL(unlink)(path);
}

int unlinkat(int folder, const char *path, int flags)
{
    return interrupted("unlink", path, "") ? -1 : REAL(unlinkat)(folder, path, flags);
}
