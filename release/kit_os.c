/* Arguments, environment and error number of a program, for Linux systems with glibc that the kit has no archive for: those functions of its c/libos_c.a
 * that the programs call. Nothing here is proved. */
#include <errno.h>
#include <stddef.h>
#include <stdlib.h>

enum { MISSING = -1, TOO_LONG = -2 };

extern char **environ;

static size_t argument_count;
static char **arguments;

/* glibc passes the arguments of main to each function that runs before it. */
__attribute__((constructor)) static void keep_arguments(int count, char **words) {
    argument_count = count > 0 ? (size_t)count : 0;
    arguments = words;
}

/* Copies a text without its final zero, and returns its length. If it does not fit, the buffer is full. */
static ptrdiff_t copy(const char *text, char *buffer, size_t size) {
    size_t length = 0;
    if (text == NULL) return MISSING;
    while (text[length] != '\0' && length < size) {
        buffer[length] = text[length];
        length++;
    }
    return text[length] == '\0' ? (ptrdiff_t)length : TOO_LONG;
}

size_t rattle_arg_count(void) {
    return argument_count;
}

ptrdiff_t rattle_arg(size_t index, char *buffer, size_t size) {
    return copy(index < argument_count ? arguments[index] : NULL, buffer, size);
}

ptrdiff_t rattle_env(const char *name, char *buffer, size_t size) {
    return copy(getenv(name), buffer, size);
}

ptrdiff_t rattle_env_at(size_t index, char *buffer, size_t size) {
    char **entry = environ;
    while (entry != NULL && *entry != NULL && index != 0) {
        entry++;
        index--;
    }
    return copy(entry != NULL ? *entry : NULL, buffer, size);
}

int rattle_errno(void) {
    return errno;
}

void rattle_set_errno(int number) {
    errno = number;
}
