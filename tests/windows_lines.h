/* What clients/c/session.c uses of POSIX and Windows does not have: lines of any length, and streams of bytes. gcc includes it before that file. */
#include <fcntl.h>
#include <io.h>
#include <stdio.h>
#include <stdlib.h>

/* The C runtime reads it before main: files and standard streams are bytes. */
__attribute__((constructor)) static void use_bytes(void) {
    _fmode = _O_BINARY;
    for (int file = 0; file < 3; file++) _setmode(file, _O_BINARY);
}

static ssize_t getline(char **line, size_t *held, FILE *in) {
    size_t length = 0;
    for (int next; (next = fgetc(in)) != EOF;) {
        if (length + 2 > *held) {
            char *grown = realloc(*line, *held = 2 * length + 128);
            if (!grown) return -1;
            *line = grown;
        }
        (*line)[length++] = (char)next;
        if (next == '\n') break;
    }
    if (length) (*line)[length] = 0;
    return length ? (ssize_t)length : -1;
}
