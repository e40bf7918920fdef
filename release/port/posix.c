/* System functions with the numbers of Linux, for macOS and for WASI. No proof covers this file. */
#define _GNU_SOURCE
#include "linux.h"
#include <errno.h>
#include <fcntl.h>
#include <stdio.h>
#include <stdlib.h>
#include <string.h>
#include <sys/stat.h>
#include <time.h>
#include <unistd.h>
#ifndef __wasi__
#include <signal.h>
#include <sys/file.h>
#endif

enum { MOST_AT_ONCE = 1 << 30 };

extern char **environ;

static int linux_number(int own) {
    static const struct {
        int own, number;
    } NUMBERS[] = {
        {EPERM, LINUX_EPERM},   {ENOENT, LINUX_ENOENT},   {EINTR, LINUX_EINTR},   {EIO, LINUX_EIO},
        {EBADF, LINUX_EBADF},   {EAGAIN, LINUX_EAGAIN},   {ENOMEM, LINUX_ENOMEM}, {EACCES, LINUX_EACCES},
        {EBUSY, LINUX_EBUSY},   {EEXIST, LINUX_EEXIST},   {EXDEV, LINUX_EXDEV},   {ENOTDIR, LINUX_ENOTDIR},
        {EISDIR, LINUX_EISDIR}, {EINVAL, LINUX_EINVAL},   {EMFILE, LINUX_EMFILE}, {ETXTBSY, LINUX_ETXTBSY},
        {EFBIG, LINUX_EFBIG},   {ENOSPC, LINUX_ENOSPC},   {ESPIPE, LINUX_ESPIPE}, {EROFS, LINUX_EROFS},
        {EPIPE, LINUX_EPIPE},   {ERANGE, LINUX_ERANGE},   {ENAMETOOLONG, LINUX_ENAMETOOLONG}, {ENOSYS, LINUX_ENOSYS},
        {ENOTEMPTY, LINUX_ENOTEMPTY}, {ELOOP, LINUX_ELOOP}, {EDQUOT, LINUX_EDQUOT},
    };
    for (size_t i = 0; i < sizeof NUMBERS / sizeof *NUMBERS; i++)
        if (NUMBERS[i].own == own) return NUMBERS[i].number;
    return 1000 + own;
}

/* The result of a call, with the error number of Linux if it failed. */
static int64_t answered(int64_t result) {
    if (result < 0) failed(linux_number(errno));
    return result;
}

int wokureti_os_open(const char *path, int flags, int mode) {
    int own = flags & LINUX_O_RDWR ? O_RDWR : flags & LINUX_O_WRONLY ? O_WRONLY : O_RDONLY;
    own |= (flags & LINUX_O_CREAT ? O_CREAT : 0) | (flags & LINUX_O_EXCL ? O_EXCL : 0);
    own |= (flags & LINUX_O_TRUNC ? O_TRUNC : 0) | (flags & LINUX_O_APPEND ? O_APPEND : 0);
    return (int)answered(open(path, own | O_CLOEXEC | O_NOCTTY, mode));
}

int wokureti_os_close(int file) {
    return (int)answered(close(file));
}

static size_t at_once(uint64_t size) {
    return size < MOST_AT_ONCE ? (size_t)size : MOST_AT_ONCE;
}

int64_t wokureti_os_read(int file, void *buffer, uint64_t size) {
    return answered(read(file, buffer, at_once(size)));
}

int64_t wokureti_os_write(int file, const void *data, uint64_t size) {
    return answered(write(file, data, at_once(size)));
}

int wokureti_os_isatty(int file) {
    return isatty(file);
}

int wokureti_os_clock_gettime(int clock, struct linux_timespec *time) {
    struct timespec own;
    int result = (int)answered(clock_gettime(clock == LINUX_CLOCK_MONOTONIC ? CLOCK_MONOTONIC : CLOCK_REALTIME, &own));
    if (!result) *time = (struct linux_timespec){own.tv_sec, own.tv_nsec};
    return result;
}

static uint16_t linux_kind(mode_t mode) {
    switch (mode & S_IFMT) {
    case S_IFDIR: return LINUX_S_IFDIR;
    case S_IFCHR: return LINUX_S_IFCHR;
    case S_IFBLK: return LINUX_S_IFBLK;
    case S_IFLNK: return LINUX_S_IFLNK;
    case S_IFREG: return LINUX_S_IFREG;
    }
    return S_ISFIFO(mode) ? LINUX_S_IFIFO : LINUX_S_IFSOCK;
}

static int is_null_device(const struct stat *own) {
    struct stat null;
    return S_ISCHR(own->st_mode) && !stat("/dev/null", &null) && null.st_rdev == own->st_rdev;
}

int wokureti_os_statx(int file, const char *path, int flags, int mask, struct linux_statx *found) {
    struct stat own;
    (void)mask;
    int result = !*path ? fstat(file, &own) : flags & LINUX_AT_SYMLINK_NOFOLLOW ? lstat(path, &own) : stat(path, &own);
    if (answered(result) < 0) return -1;
    memset(found, 0, sizeof *found);
    found->mask = LINUX_STATX_BASIC_STATS;
    found->block_size = (uint32_t)own.st_blksize;
    found->links = (uint32_t)own.st_nlink;
    found->user = own.st_uid;
    found->group = own.st_gid;
    found->mode = (uint16_t)(linux_kind(own.st_mode) | (own.st_mode & 07777));
    found->inode = own.st_ino;
    found->size = (uint64_t)own.st_size;
    found->blocks = (uint64_t)own.st_blocks;
    found->dev_major = (uint32_t)((uint64_t)own.st_dev >> 32);
    found->dev_minor = (uint32_t)own.st_dev;
    found->rdev_major = is_null_device(&own) ? LINUX_NULL_MAJOR : (uint32_t)((uint64_t)own.st_rdev >> 32);
    found->rdev_minor = is_null_device(&own) ? LINUX_NULL_MINOR : (uint32_t)own.st_rdev;
#ifdef __APPLE__
    found->modified = (struct linux_stamp){own.st_mtimespec.tv_sec, (uint32_t)own.st_mtimespec.tv_nsec, 0};
#else
    found->modified = (struct linux_stamp){own.st_mtim.tv_sec, (uint32_t)own.st_mtim.tv_nsec, 0};
#endif
    return 0;
}

int64_t wokureti_os_readlink(const char *path, char *buffer, uint64_t size) {
    return answered(readlink(path, buffer, (size_t)size));
}

int wokureti_os_ftruncate(int file, int64_t size) {
    return (int)answered(ftruncate(file, size));
}

/* fsync of macOS does not wait for the disk. */
int wokureti_os_fsync(int file) {
#ifdef F_FULLFSYNC
    if (!fcntl(file, F_FULLFSYNC)) return 0;
#endif
    return (int)answered(fsync(file));
}

int wokureti_os_fdatasync(int file) {
    return wokureti_os_fsync(file);
}

int wokureti_os_unlink(const char *path) {
    return (int)answered(unlink(path));
}

int wokureti_os_rename(const char *from, const char *to) {
    return (int)answered(rename(from, to));
}

#ifdef __wasi__
/* WASI has no owners, modes, locks and signals. */
int wokureti_os_chown(const char *path, uint32_t user, uint32_t group) {
    (void)path, (void)user, (void)group;
    return 0;
}

int wokureti_os_fchmod(int file, uint32_t mode) {
    (void)file, (void)mode;
    return 0;
}

int wokureti_os_flock(int file, int how) {
    (void)file, (void)how;
    return 0;
}

int64_t wokureti_os___sysv_signal(int number, int64_t handler) {
    (void)number, (void)handler;
    return 0;
}
#else
int wokureti_os_chown(const char *path, uint32_t user, uint32_t group) {
    return (int)answered(chown(path, user, group));
}

int wokureti_os_fchmod(int file, uint32_t mode) {
    return (int)answered(fchmod(file, (mode_t)mode));
}

int wokureti_os_flock(int file, int how) {
    int own = (how & LINUX_LOCK_SH ? LOCK_SH : 0) | (how & LINUX_LOCK_EX ? LOCK_EX : 0);
    return (int)answered(flock(file, own | (how & LINUX_LOCK_NB ? LOCK_NB : 0) | (how & LINUX_LOCK_UN ? LOCK_UN : 0)));
}

/* It is called once, when a program starts: SIGPIPE is ignored. */
int64_t wokureti_os___sysv_signal(int number, int64_t handler) {
    if (number == LINUX_SIGPIPE && handler == LINUX_SIG_IGN) signal(SIGPIPE, SIG_IGN);
    return 0;
}
#endif

int main(int count, char **arguments) {
    (void)count;
    start(arguments, environ);
#ifdef __wasi__
    if (getenv("PWD") && chdir(getenv("PWD"))) {
        fprintf(stderr, "%s: cannot enter the folder PWD, %s\n", arguments[0], getenv("PWD"));
        return 1;
    }
#endif
    return wokureti_main();
}
