/* Ends a program at one of its calls on files, as a kill or a power cut would. It is loaded before the C library (LD_PRELOAD), counts the
 * calls below, and at call number KILLER_AT raises SIGKILL, in the way that KILLER_HOW names:
 *   before  and the call is not made
 *   after   when it is made
 *   half    of a write, when half of its bytes are written; of another call as before
 *   data    as after, and what was written and not flushed is lost, as by a power cut
 *   names   as after, and what was renamed since its folder was flushed has its old name, as by a power cut
 * With the word full nothing ends: the call is not made and fails, as on a full disk. Nothing is really flushed, which would take most of
 * the tests' time: what a power cut leaves is played here, whatever the disk has.
 * Every call is a line of the file KILLER_LOG, if that is set. */
#define _GNU_SOURCE
#include <errno.h>
#include <fcntl.h>
#include <signal.h>
#include <stdarg.h>
#include <stdio.h>
#include <stdlib.h>
#include <string.h>
#include <sys/stat.h>
#include <sys/syscall.h>
#include <sys/uio.h>
#include <unistd.h>

#define FILES 64
#define PATH 512

static char opened[FILES][PATH] = {"stdin", "stdout", "stderr"};
/* Second descriptors of files with bytes that are not flushed, at the place of the first; else 0. They stay when the file is closed, until
 * another one has its place. */
static int unflushed[FILES];
/* The last rename, if its folder is not flushed, and another name for what `to` was when the folder was. */
static char from[PATH], to[PATH], was[PATH];
static int renamed, replaced;

static int by(const char *word) {
    const char *how = getenv("KILLER_HOW");
    return how && strcmp(how, word) == 0;
}

static const char *name(int fd) { return fd >= 0 && fd < FILES ? opened[fd] : "?"; }

static void end(void) {
    int fd;
    for (fd = 0; fd < FILES && by("data"); fd++)
        if (unflushed[fd]) syscall(SYS_ftruncate, unflushed[fd], 0L);
    if (by("names") && renamed) {
        renameat(AT_FDCWD, to, AT_FDCWD, from);
        if (replaced) renameat(AT_FDCWD, was, AT_FDCWD, to);
    }
    kill(getpid(), SIGKILL);
}

/* Logs and counts a call, and gives whether it is the one. */
static int here(const char *call, const char *first, const char *second) {
    static int count = 0;
    const char *at = getenv("KILLER_AT"), *log = getenv("KILLER_LOG");
    if (log) {
        char line[3 * PATH];
        int len = snprintf(line, sizeof line, "%s %s%s%s\n", call, first, *second ? " " : "", second);
        int fd = (int)syscall(SYS_openat, AT_FDCWD, log, O_WRONLY | O_CREAT | O_APPEND, 0600);
        syscall(SYS_write, fd, line, (size_t)len);
        syscall(SYS_close, fd);
    }
    if (++count != (at ? atoi(at) : 0)) return 0;
    if (by("before") || (by("half") && strcmp(call, "write") != 0)) end();
    return 1;
}

static long then(int ends, long answer) {
    if (ends) end();
    return answer;
}

#define HERE(call, first, second)                   \
    const int ends = here(call, first, second);     \
    if (ends && by("full")) return errno = ENOSPC, -1

static int open_at(int folder, const char *path, int flags, va_list rest) {
    HERE("open", path, "");
    const unsigned mode = flags & O_CREAT ? va_arg(rest, unsigned) : 0;
    const int fd = (int)syscall(SYS_openat, folder, path, flags, mode);
    if (fd >= 0 && fd < FILES) {
        snprintf(opened[fd], PATH, "%s", path);
        if (unflushed[fd]) syscall(SYS_close, unflushed[fd]);
        unflushed[fd] = 0;
    }
    return (int)then(ends, fd);
}
#define OPENS(folder)                               \
    {                                               \
        int fd;                                     \
        va_list rest;                               \
        va_start(rest, flags);                      \
        fd = open_at(folder, path, flags, rest);    \
        va_end(rest);                               \
        return fd;                                  \
    }
int open(const char *path, int flags, ...) OPENS(AT_FDCWD)
int open64(const char *path, int flags, ...) OPENS(AT_FDCWD)
int openat(int folder, const char *path, int flags, ...) OPENS(folder)
int openat64(int folder, const char *path, int flags, ...) OPENS(folder)

int close(int fd) {
    HERE("close", name(fd), "");
    return (int)then(ends, syscall(SYS_close, fd));
}

static void written(int fd) {
    if (fd > 2 && fd < FILES && !unflushed[fd]) unflushed[fd] = fcntl(fd, F_DUPFD_CLOEXEC, FILES);
}
ssize_t write(int fd, const void *bytes, size_t len) {
    HERE("write", name(fd), "");
    written(fd);
    return then(ends, syscall(SYS_write, fd, bytes, ends && by("half") ? len / 2 : len));
}
ssize_t writev(int fd, const struct iovec *parts, int count) {
    HERE("write", name(fd), "");
    written(fd);
    return then(ends, syscall(SYS_writev, fd, parts, ends && by("half") ? count / 2 : count));
}
ssize_t pwrite64(int fd, const void *bytes, size_t len, off64_t place) {
    HERE("write", name(fd), "");
    written(fd);
    return then(ends, syscall(SYS_pwrite64, fd, bytes, ends && by("half") ? len / 2 : len, place));
}
int ftruncate64(int fd, off64_t len) {
    HERE("ftruncate", name(fd), "");
    written(fd);
    return (int)then(ends, syscall(SYS_ftruncate, fd, len));
}

/* Flushing a folder keeps its names, flushing a file its bytes. */
static int flushed(const char *call, int fd) {
    struct stat what;
    HERE(call, name(fd), "");
    const int done = fstat(fd, &what);
    if (done == 0 && S_ISDIR(what.st_mode)) {
        if (replaced) unlinkat(AT_FDCWD, was, 0);
        renamed = replaced = 0;
    } else if (done == 0 && fd >= 0 && fd < FILES && unflushed[fd]) {
        syscall(SYS_close, unflushed[fd]);
        unflushed[fd] = 0;
    }
    return (int)then(ends, done);
}
int fsync(int fd) { return flushed("fsync", fd); }
int fdatasync(int fd) { return flushed("fdatasync", fd); }

int rename(const char *old, const char *new) {
    HERE("rename", old, new);
    if (!renamed) {
        snprintf(was, PATH, "%.500s.was", new);
        replaced = linkat(AT_FDCWD, new, AT_FDCWD, was, 0) == 0;
    }
    snprintf(from, PATH, "%s", old);
    snprintf(to, PATH, "%s", new);
    renamed = 1;
    return (int)then(ends, renameat(AT_FDCWD, old, AT_FDCWD, new));
}
int unlink(const char *path) {
    HERE("unlink", path, "");
    return (int)then(ends, unlinkat(AT_FDCWD, path, 0));
}
