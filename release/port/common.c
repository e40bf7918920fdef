/* Error numbers and their texts, arguments and environment. No proof covers this file. */
#include "linux.h"
#include <string.h>

enum { MISSING = -1, TOO_LONG = -2 };

static int last_error;
static char **arguments, **environment;

/* The texts of glibc. */
static const struct {
    int number;
    const char *text;
} TEXTS[] = {
    {LINUX_EPERM, "Operation not permitted"},
    {LINUX_ENOENT, "No such file or directory"},
    {LINUX_EINTR, "Interrupted system call"},
    {LINUX_EIO, "Input/output error"},
    {LINUX_EBADF, "Bad file descriptor"},
    {LINUX_EAGAIN, "Resource temporarily unavailable"},
    {LINUX_ENOMEM, "Cannot allocate memory"},
    {LINUX_EACCES, "Permission denied"},
    {LINUX_EBUSY, "Device or resource busy"},
    {LINUX_EEXIST, "File exists"},
    {LINUX_EXDEV, "Invalid cross-device link"},
    {LINUX_ENOTDIR, "Not a directory"},
    {LINUX_EISDIR, "Is a directory"},
    {LINUX_EINVAL, "Invalid argument"},
    {LINUX_EMFILE, "Too many open files"},
    {LINUX_ETXTBSY, "Text file busy"},
    {LINUX_EFBIG, "File too large"},
    {LINUX_ENOSPC, "No space left on device"},
    {LINUX_ESPIPE, "Illegal seek"},
    {LINUX_EROFS, "Read-only file system"},
    {LINUX_EPIPE, "Broken pipe"},
    {LINUX_ERANGE, "Numerical result out of range"},
    {LINUX_ENAMETOOLONG, "File name too long"},
    {LINUX_ENOSYS, "Function not implemented"},
    {LINUX_ENOTEMPTY, "Directory not empty"},
    {LINUX_ELOOP, "Too many levels of symbolic links"},
    {LINUX_EDQUOT, "Disk quota exceeded"},
};

int failed(int number) {
    last_error = number;
    return -1;
}

int rattle_errno(void) {
    return last_error;
}

void rattle_set_errno(int number) {
    last_error = number;
}

static const char *text_of(int number) {
    for (size_t i = 0; i < sizeof TEXTS / sizeof *TEXTS; i++)
        if (TEXTS[i].number == number) return TEXTS[i].text;
    return "Unknown error";
}

int wokureti_os___xpg_strerror_r(int number, char *buffer, uint64_t size) {
    const char *text = text_of(number);
    size_t length = strlen(text);
    if (length >= size) return LINUX_ERANGE;
    memcpy(buffer, text, length + 1);
    return 0;
}

void start(char **given_arguments, char **given_environment) {
    arguments = given_arguments;
    environment = given_environment;
}

/* The entry at an index of a list, or null. */
static const char *entry_at(char **list, uint64_t index) {
    while (*list && index) {
        list++;
        index--;
    }
    return *list;
}

/* Copies a text without its final zero, and returns its length. If it does not fit, the buffer is full. */
static int64_t copy(const char *text, char *buffer, uint64_t size) {
    if (!text) return MISSING;
    size_t length = strlen(text);
    memcpy(buffer, text, length < size ? length : (size_t)size);
    return length <= size ? (int64_t)length : TOO_LONG;
}

int64_t rattle_arg(uint64_t index, char *buffer, uint64_t size) {
    return copy(entry_at(arguments, index), buffer, size);
}

int64_t rattle_env_at(uint64_t index, char *buffer, uint64_t size) {
    return copy(entry_at(environment, index), buffer, size);
}

int64_t rattle_env(const char *name, char *buffer, uint64_t size) {
    size_t length = strlen(name);
    for (char **entry = environment; *entry; entry++)
        if (!strncmp(*entry, name, length) && (*entry)[length] == '=') return copy(*entry + length + 1, buffer, size);
    return MISSING;
}
