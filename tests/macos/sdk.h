/* The part of macOS's C library that release/port calls, as Darwin's public headers declare it: tests/test_macos.py compiles and links those files without Apple's SDK. */
#pragma once

typedef __SIZE_TYPE__ size_t;
typedef __PTRDIFF_TYPE__ ptrdiff_t;
typedef __UINTPTR_TYPE__ uintptr_t;
typedef __INT32_TYPE__ int32_t;
typedef __INT64_TYPE__ int64_t;
typedef __UINT16_TYPE__ uint16_t;
typedef __UINT32_TYPE__ uint32_t;
typedef __UINT64_TYPE__ uint64_t;
typedef __UINT16_TYPE__ mode_t;
typedef long ssize_t;
typedef int64_t off_t;
#define PTRDIFF_MAX __PTRDIFF_MAX__

/* errno.h */
int *__error(void);
#define errno (*__error())
enum {
    EPERM = 1, ENOENT = 2, EINTR = 4, EIO = 5, EBADF = 9, ENOMEM = 12, EACCES = 13, EBUSY = 16, EEXIST = 17, EXDEV = 18, ENOTDIR = 20, EISDIR = 21, EINVAL = 22, EMFILE = 24,
    ETXTBSY = 26, EFBIG = 27, ENOSPC = 28, ESPIPE = 29, EROFS = 30, EPIPE = 32, ERANGE = 34, EAGAIN = 35, ELOOP = 62, ENAMETOOLONG = 63, ENOTEMPTY = 66, EDQUOT = 69, ENOSYS = 78
};

/* fcntl.h, sys/file.h */
enum { O_RDONLY = 0, O_WRONLY = 1, O_RDWR = 2, O_APPEND = 0x8, O_CREAT = 0x200, O_TRUNC = 0x400, O_EXCL = 0x800, O_NOCTTY = 0x20000, O_CLOEXEC = 0x1000000 };
#define F_FULLFSYNC 51
enum { LOCK_SH = 1, LOCK_EX = 2, LOCK_NB = 4, LOCK_UN = 8 };
int open(const char *path, int flags, ...);
int fcntl(int file, int command, ...);
int flock(int file, int how);

/* time.h */
struct timespec {
    long tv_sec, tv_nsec;
};
enum { CLOCK_REALTIME = 0, CLOCK_MONOTONIC = 6 };
int clock_gettime(unsigned clock, struct timespec *time);

/* sys/stat.h, with inodes of 64 bits */
struct stat {
    int32_t st_dev;
    mode_t st_mode;
    uint16_t st_nlink;
    uint64_t st_ino;
    uint32_t st_uid, st_gid;
    int32_t st_rdev;
    struct timespec st_atimespec, st_mtimespec, st_ctimespec, st_birthtimespec;
    off_t st_size;
    int64_t st_blocks;
    int32_t st_blksize;
    uint32_t st_flags, st_gen;
    int32_t st_lspare;
    int64_t st_qspare[2];
};
enum { S_IFMT = 0170000, S_IFIFO = 0010000, S_IFCHR = 0020000, S_IFDIR = 0040000, S_IFBLK = 0060000, S_IFREG = 0100000, S_IFLNK = 0120000, S_IFSOCK = 0140000 };
#define S_ISFIFO(mode) (((mode) & S_IFMT) == S_IFIFO)
#define S_ISCHR(mode) (((mode) & S_IFMT) == S_IFCHR)
#ifdef __x86_64__
#define WITH_64_BIT_INODES(name) __asm("_" #name "$INODE64")
#else
#define WITH_64_BIT_INODES(name)
#endif
int stat(const char *path, struct stat *found) WITH_64_BIT_INODES(stat);
int fstat(int file, struct stat *found) WITH_64_BIT_INODES(fstat);
int lstat(const char *path, struct stat *found) WITH_64_BIT_INODES(lstat);
int fchmod(int file, mode_t mode);

/* unistd.h, stdio.h */
int close(int file);
ssize_t read(int file, void *buffer, size_t size);
ssize_t write(int file, const void *data, size_t size);
int isatty(int file);
int ftruncate(int file, off_t size);
int fsync(int file);
int unlink(const char *path);
int rename(const char *from, const char *to);
int chown(const char *path, uint32_t user, uint32_t group);
ssize_t readlink(const char *path, char *buffer, size_t size);

/* signal.h */
enum { SIGPIPE = 13 };
#define SIG_IGN ((void (*)(int))1)
void (*signal(int number, void (*handler)(int)))(int);

/* stdlib.h, string.h */
void *malloc(size_t size);
void *realloc(void *address, size_t size);
void free(void *address);
size_t strlen(const char *text);
int strncmp(const char *one, const char *other, size_t size);
void *memcpy(void *to, const void *from, size_t size);
void *memset(void *to, int byte, size_t size);
