/* Numbers and layouts of Linux on x86-64, as the compiled modules use them, and the functions that the files of this folder share. */
#pragma once
#include <stddef.h>
#include <stdint.h>

enum {
    LINUX_EPERM = 1,
    LINUX_ENOENT = 2,
    LINUX_EINTR = 4,
    LINUX_EIO = 5,
    LINUX_EBADF = 9,
    LINUX_EAGAIN = 11,
    LINUX_ENOMEM = 12,
    LINUX_EACCES = 13,
    LINUX_EBUSY = 16,
    LINUX_EEXIST = 17,
    LINUX_EXDEV = 18,
    LINUX_ENOTDIR = 20,
    LINUX_EISDIR = 21,
    LINUX_EINVAL = 22,
    LINUX_EMFILE = 24,
    LINUX_ETXTBSY = 26,
    LINUX_EFBIG = 27,
    LINUX_ENOSPC = 28,
    LINUX_ESPIPE = 29,
    LINUX_EROFS = 30,
    LINUX_EPIPE = 32,
    LINUX_ERANGE = 34,
    LINUX_ENAMETOOLONG = 36,
    LINUX_ENOSYS = 38,
    LINUX_ENOTEMPTY = 39,
    LINUX_ELOOP = 40,
    LINUX_EDQUOT = 122
};

enum { LINUX_O_WRONLY = 1, LINUX_O_RDWR = 2, LINUX_O_CREAT = 0100, LINUX_O_EXCL = 0200, LINUX_O_TRUNC = 01000, LINUX_O_APPEND = 02000 };
enum { LINUX_S_IFIFO = 0010000, LINUX_S_IFCHR = 0020000, LINUX_S_IFDIR = 0040000, LINUX_S_IFBLK = 0060000, LINUX_S_IFREG = 0100000, LINUX_S_IFLNK = 0120000, LINUX_S_IFSOCK = 0140000 };
enum { LINUX_LOCK_SH = 1, LINUX_LOCK_EX = 2, LINUX_LOCK_NB = 4, LINUX_LOCK_UN = 8 };
enum { LINUX_AT_SYMLINK_NOFOLLOW = 0x100, LINUX_STATX_BASIC_STATS = 0x7ff };
enum { LINUX_SIGPIPE = 13, LINUX_SIG_IGN = 1, LINUX_CLOCK_MONOTONIC = 1 };
/* The device /dev/null. */
enum { LINUX_NULL_MAJOR = 1, LINUX_NULL_MINOR = 3 };

struct linux_stamp {
    int64_t seconds;
    uint32_t nanoseconds;
    int32_t unused;
};

struct linux_statx {
    uint32_t mask, block_size;
    uint64_t attributes;
    uint32_t links, user, group;
    uint16_t mode, unused;
    uint64_t inode, size, blocks, attributes_mask;
    struct linux_stamp accessed, created, changed, modified;
    uint32_t rdev_major, rdev_minor, dev_major, dev_minor;
    uint64_t mount;
    uint32_t direct_alignment, direct_offset;
    uint64_t more[12];
};

struct linux_timespec {
    int64_t seconds, nanoseconds;
};

/* Sets the error number, and returns -1. */
int failed(int number);

/* Sets the arguments and the environment; both lists end with a null pointer. */
void start(char **arguments, char **environment);

/* The program's own main. */
int wokureti_main(void);
