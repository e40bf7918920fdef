/* System functions with the numbers of Linux, for Windows. No proof covers this file.
 *
 * Names are UTF-8, and both / and \ separate folders. A program splits a list of files at colons, so a drive in such a list is written with |, which no name on
 * Windows has: `--sources C:\a.ivf;D:\b.ivf` reaches the program as C|/a.ivf:D|/b.ivf. */
#define _WIN32_WINNT 0x0A00
#define WIN32_LEAN_AND_MEAN
#include "linux.h"
#include <stdlib.h>
#include <string.h>
#include <windows.h>
/* After windows.h. */
#include <shellapi.h>

enum { MOST_FILES = 256, MOST_AT_ONCE = 1 << 30, LONG_NAME = 240, CONSOLE_BYTES = 1024, TRIES = 20, PAUSE = 50 };
enum { NANOSECONDS = 1000000000, TICKS = 10000000, NANOSECONDS_A_TICK = 100 };
/* FileRenameInfoEx, which the headers of mingw-w64 10 leave out. */
static const FILE_INFO_BY_HANDLE_CLASS RENAME_INFO_EX = 22;
/* 1970 in ticks since 1601. */
static const int64_t EPOCH = 116444736000000000;
static const DWORD SHARED = FILE_SHARE_READ | FILE_SHARE_WRITE | FILE_SHARE_DELETE;
static const wchar_t LONG_PREFIX[] = L"\\\\?\\", SHARE_PREFIX[] = L"\\\\?\\UNC";
static const char *const STREAMS[] = {"/dev/stdin", "/dev/stdout", "/dev/stderr"};
static const char NULL_DEVICE[] = "/dev/null";

/* The open files; null if a number is free. */
static HANDLE files[MOST_FILES];

static int linux_number(DWORD error) {
    static const struct {
        DWORD own;
        int number;
    } NUMBERS[] = {
        {ERROR_FILE_NOT_FOUND, LINUX_ENOENT},       {ERROR_PATH_NOT_FOUND, LINUX_ENOENT},      {ERROR_BAD_NETPATH, LINUX_ENOENT},
        {ERROR_BAD_NET_NAME, LINUX_ENOENT},         {ERROR_INVALID_DRIVE, LINUX_ENOENT},       {ERROR_NOT_READY, LINUX_ENOENT},
        {ERROR_INVALID_NAME, LINUX_EINVAL},         {ERROR_BAD_PATHNAME, LINUX_EINVAL},        {ERROR_INVALID_PARAMETER, LINUX_EINVAL},
        {ERROR_ACCESS_DENIED, LINUX_EACCES},        {ERROR_SHARING_VIOLATION, LINUX_EACCES},   {ERROR_DELETE_PENDING, LINUX_EACCES},
        {ERROR_LOCK_VIOLATION, LINUX_EAGAIN},       {ERROR_IO_PENDING, LINUX_EAGAIN},          {ERROR_WRITE_PROTECT, LINUX_EROFS},
        {ERROR_INVALID_HANDLE, LINUX_EBADF},        {ERROR_NOT_ENOUGH_MEMORY, LINUX_ENOMEM},   {ERROR_OUTOFMEMORY, LINUX_ENOMEM},
        {ERROR_FILE_EXISTS, LINUX_EEXIST},          {ERROR_ALREADY_EXISTS, LINUX_EEXIST},      {ERROR_NOT_SAME_DEVICE, LINUX_EXDEV},
        {ERROR_DIRECTORY, LINUX_ENOTDIR},           {ERROR_TOO_MANY_OPEN_FILES, LINUX_EMFILE}, {ERROR_DISK_FULL, LINUX_ENOSPC},
        {ERROR_HANDLE_DISK_FULL, LINUX_ENOSPC},     {ERROR_NOT_ENOUGH_QUOTA, LINUX_EDQUOT},    {ERROR_FILE_TOO_LARGE, LINUX_EFBIG},
        {ERROR_BROKEN_PIPE, LINUX_EPIPE},           {ERROR_NO_DATA, LINUX_EPIPE},              {ERROR_PIPE_NOT_CONNECTED, LINUX_EPIPE},
        {ERROR_DIR_NOT_EMPTY, LINUX_ENOTEMPTY},     {ERROR_FILENAME_EXCED_RANGE, LINUX_ENAMETOOLONG}, {ERROR_CANT_RESOLVE_FILENAME, LINUX_ELOOP},
    };
    for (size_t i = 0; i < sizeof NUMBERS / sizeof *NUMBERS; i++)
        if (NUMBERS[i].own == error) return NUMBERS[i].number;
    return LINUX_EIO;
}

/* Sets the error number of the last call that failed. */
static int failed_here(void) {
    return failed(linux_number(GetLastError()));
}

/* The text in UTF-16, or null; the caller frees it. */
static wchar_t *wide(const char *text) {
    int length = MultiByteToWideChar(CP_UTF8, MB_ERR_INVALID_CHARS, text, -1, 0, 0);
    wchar_t *made = length ? malloc(sizeof *made * (size_t)length) : 0;
    if (made) MultiByteToWideChar(CP_UTF8, MB_ERR_INVALID_CHARS, text, -1, made, length);
    else failed(length ? LINUX_ENOMEM : LINUX_EINVAL);
    return made;
}

/* The text in UTF-8, or null; the caller frees it. */
static char *narrow(const wchar_t *text) {
    int length = WideCharToMultiByte(CP_UTF8, 0, text, -1, 0, 0, 0, 0);
    char *made = malloc((size_t)length);
    if (made) WideCharToMultiByte(CP_UTF8, 0, text, -1, made, length, 0, 0);
    else failed(LINUX_ENOMEM);
    return made;
}

/* A long name as Windows takes it: absolute, after a prefix. Takes the name, and returns it or another one. */
static wchar_t *prefixed(wchar_t *name) {
    DWORD size = GetFullPathNameW(name, 0, 0, 0);
    if (size < LONG_NAME || !wcsncmp(name, LONG_PREFIX, wcslen(LONG_PREFIX))) return name;
    wchar_t *made = malloc(sizeof *made * (size + wcslen(SHARE_PREFIX) + 1)), *full = made ? made + wcslen(SHARE_PREFIX) : 0;
    if (!made || !GetFullPathNameW(name, size, full, 0)) {
        failed(made ? linux_number(GetLastError()) : LINUX_ENOMEM);
        free(made);
        free(name);
        return 0;
    }
    int is_share = full[0] == L'\\' && full[1] == L'\\';
    const wchar_t *prefix = is_share ? SHARE_PREFIX : LONG_PREFIX;
    size_t length = wcslen(prefix), from = is_share ? 1 : 0;
    memmove(made + length, full + from, sizeof *made * (wcslen(full + from) + 1));
    memcpy(made, prefix, sizeof *made * length);
    free(name);
    return made;
}

/* The name of a file for Windows, which the caller frees; null if there is none. */
static wchar_t *name_of(const char *path) {
    wchar_t *name = wide(strcmp(path, NULL_DEVICE) ? path : "NUL");
    if (!name) return 0;
    if (name[0] && name[1] == L'|') name[1] = L':';
    for (wchar_t *at = name; *at; at++)
        if (*at == L'/') *at = L'\\';
    return prefixed(name);
}

static HANDLE handle_of(int file) {
    return file >= 0 && file < MOST_FILES ? files[file] : 0;
}

/* The least free number for an open file. */
static int add_file(HANDLE opened) {
    for (int file = 0; file < MOST_FILES; file++)
        if (!files[file]) {
            files[file] = opened;
            return file;
        }
    CloseHandle(opened);
    return failed(LINUX_EMFILE);
}

/* The number of the standard stream at a path, or -1. */
static int stream_at(const char *path) {
    for (int file = 0; file < 3; file++)
        if (!strcmp(path, STREAMS[file])) return file;
    return -1;
}

static int open_stream(int file) {
    HANDLE made;
    if (!DuplicateHandle(GetCurrentProcess(), handle_of(file), GetCurrentProcess(), &made, 0, FALSE, DUPLICATE_SAME_ACCESS)) return failed_here();
    return add_file(made);
}

static int is_folder(HANDLE opened) {
    FILE_BASIC_INFO known;
    return GetFileInformationByHandleEx(opened, FileBasicInfo, &known, sizeof known) && known.FileAttributes & FILE_ATTRIBUTE_DIRECTORY;
}

int wokureti_os_ftruncate(int file, int64_t size) {
    FILE_END_OF_FILE_INFO end;
    end.EndOfFile.QuadPart = size;
    return SetFileInformationByHandle(handle_of(file), FileEndOfFileInfo, &end, sizeof end) ? 0 : failed_here();
}

/* A folder can be opened for reading, as on Linux. */
static HANDLE open_named(const wchar_t *name, int flags) {
    DWORD access = flags & LINUX_O_RDWR ? GENERIC_READ | GENERIC_WRITE : flags & LINUX_O_WRONLY ? GENERIC_WRITE : GENERIC_READ;
    if (flags & LINUX_O_APPEND) access = (access & GENERIC_READ) | FILE_APPEND_DATA | SYNCHRONIZE;
    DWORD made = flags & LINUX_O_EXCL ? CREATE_NEW : flags & LINUX_O_CREAT ? OPEN_ALWAYS : OPEN_EXISTING;
    HANDLE opened = CreateFileW(name, access, SHARED, 0, made, FILE_ATTRIBUTE_NORMAL | FILE_FLAG_BACKUP_SEMANTICS, 0);
    if (opened == INVALID_HANDLE_VALUE) {
        DWORD error = GetLastError(), known = GetFileAttributesW(name);
        int is_refused_folder = known != INVALID_FILE_ATTRIBUTES && known & FILE_ATTRIBUTE_DIRECTORY && made != CREATE_NEW;
        failed(is_refused_folder ? LINUX_EISDIR : linux_number(error));
    } else if (access != GENERIC_READ && is_folder(opened)) {
        CloseHandle(opened);
        opened = INVALID_HANDLE_VALUE;
        failed(LINUX_EISDIR);
    }
    return opened;
}

int wokureti_os_open(const char *path, int flags, int mode) {
    (void)mode;
    if (stream_at(path) >= 0) return open_stream(stream_at(path));
    wchar_t *name = name_of(path);
    HANDLE opened = name ? open_named(name, flags) : INVALID_HANDLE_VALUE;
    free(name);
    if (opened == INVALID_HANDLE_VALUE) return -1;
    int file = add_file(opened);
    if (file >= 0 && flags & LINUX_O_TRUNC && GetFileType(opened) == FILE_TYPE_DISK && wokureti_os_ftruncate(file, 0)) {
        CloseHandle(opened);
        files[file] = 0;
        return -1;
    }
    return file;
}

int wokureti_os_close(int file) {
    if (!CloseHandle(handle_of(file))) return failed(LINUX_EBADF);
    files[file] = 0;
    return 0;
}

static DWORD at_once(uint64_t size) {
    return size < MOST_AT_ONCE ? (DWORD)size : MOST_AT_ONCE;
}

int64_t wokureti_os_read(int file, void *buffer, uint64_t size) {
    DWORD count = 0;
    if (ReadFile(handle_of(file), buffer, at_once(size), &count, 0)) return count;
    DWORD error = GetLastError();
    if (error == ERROR_BROKEN_PIPE || error == ERROR_HANDLE_EOF) return 0;
    return failed(is_folder(handle_of(file)) ? LINUX_EISDIR : linux_number(error));
}

/* How many bytes of a text in UTF-8 a console takes at once: whole characters, if there is one. */
static int whole_characters(const char *text, uint64_t size) {
    int count = size < CONSOLE_BYTES ? (int)size : CONSOLE_BYTES, last = count - 1;
    while (last > 0 && (text[last] & 0xc0) == 0x80) last--;
    unsigned char lead = (unsigned char)text[last];
    int length = lead >= 0xf0 ? 4 : lead >= 0xe0 ? 3 : lead >= 0xc0 ? 2 : 1;
    return last > 0 && count - last < length ? last : count;
}

static int64_t write_to_console(HANDLE console, const char *text, uint64_t size) {
    wchar_t characters[CONSOLE_BYTES];
    int count = size ? whole_characters(text, size) : 0;
    int length = MultiByteToWideChar(CP_UTF8, 0, text, count, characters, CONSOLE_BYTES);
    DWORD written;
    return WriteConsoleW(console, characters, (DWORD)length, &written, 0) ? count : failed_here();
}

int64_t wokureti_os_write(int file, const void *data, uint64_t size) {
    DWORD count = 0, mode;
    if (GetConsoleMode(handle_of(file), &mode)) return write_to_console(handle_of(file), data, size);
    return WriteFile(handle_of(file), data, at_once(size), &count, 0) ? (int64_t)count : failed_here();
}

int wokureti_os_isatty(int file) {
    DWORD mode;
    return GetConsoleMode(handle_of(file), &mode) != 0;
}

static int64_t ticks_of(FILETIME time) {
    return (int64_t)((uint64_t)time.dwHighDateTime << 32 | time.dwLowDateTime) - EPOCH;
}

int wokureti_os_clock_gettime(int clock, struct linux_timespec *time) {
    if (clock == LINUX_CLOCK_MONOTONIC) {
        LARGE_INTEGER now, second;
        QueryPerformanceCounter(&now);
        QueryPerformanceFrequency(&second);
        *time = (struct linux_timespec){now.QuadPart / second.QuadPart, now.QuadPart % second.QuadPart * NANOSECONDS / second.QuadPart};
    } else {
        FILETIME now;
        GetSystemTimePreciseAsFileTime(&now);
        *time = (struct linux_timespec){ticks_of(now) / TICKS, ticks_of(now) % TICKS * NANOSECONDS_A_TICK};
    }
    return 0;
}

static int describe_file(HANDLE opened, struct linux_statx *found) {
    BY_HANDLE_FILE_INFORMATION known;
    if (!GetFileInformationByHandle(opened, &known)) return failed_here();
    int is_dir = (known.dwFileAttributes & FILE_ATTRIBUTE_DIRECTORY) != 0, is_read_only = (known.dwFileAttributes & FILE_ATTRIBUTE_READONLY) != 0;
    int64_t modified = ticks_of(known.ftLastWriteTime);
    found->mode = is_dir ? LINUX_S_IFDIR | 0777 : LINUX_S_IFREG | (is_read_only ? 0444 : 0666);
    found->links = known.nNumberOfLinks;
    found->dev_minor = known.dwVolumeSerialNumber;
    found->inode = (uint64_t)known.nFileIndexHigh << 32 | known.nFileIndexLow;
    found->size = (uint64_t)known.nFileSizeHigh << 32 | known.nFileSizeLow;
    found->modified = (struct linux_stamp){modified / TICKS, (uint32_t)(modified % TICKS * NANOSECONDS_A_TICK), 0};
    return 0;
}

/* A console is a terminal; any other device is taken for the null device. */
static int describe(HANDLE opened, struct linux_statx *found) {
    DWORD mode;
    memset(found, 0, sizeof *found);
    found->mask = LINUX_STATX_BASIC_STATS;
    found->links = 1;
    switch (GetFileType(opened)) {
    case FILE_TYPE_CHAR:
        found->mode = LINUX_S_IFCHR | 0666;
        found->rdev_major = GetConsoleMode(opened, &mode) ? 4 : LINUX_NULL_MAJOR;
        found->rdev_minor = LINUX_NULL_MINOR;
        return 0;
    case FILE_TYPE_PIPE:
        found->mode = LINUX_S_IFIFO | 0666;
        found->inode = (uintptr_t)opened;
        return 0;
    case FILE_TYPE_DISK:
        return describe_file(opened, found);
    }
    return failed(LINUX_EBADF);
}

int wokureti_os_statx(int file, const char *path, int flags, int mask, struct linux_statx *found) {
    (void)mask;
    if (!*path || stream_at(path) >= 0) return describe(handle_of(*path ? stream_at(path) : file), found);
    wchar_t *name = name_of(path);
    if (!name) return -1;
    DWORD options = FILE_FLAG_BACKUP_SEMANTICS | (flags & LINUX_AT_SYMLINK_NOFOLLOW ? FILE_FLAG_OPEN_REPARSE_POINT : 0);
    HANDLE opened = CreateFileW(name, FILE_READ_ATTRIBUTES, SHARED, 0, OPEN_EXISTING, options, 0);
    free(name);
    if (opened == INVALID_HANDLE_VALUE) return failed_here();
    int result = describe(opened, found);
    CloseHandle(opened);
    return result;
}

/* The whole path that a symbolic link leads to. It begins with //?/, so it is absolute for the program. */
static int64_t target_of(const wchar_t *name, char *buffer, uint64_t size) {
    DWORD known = GetFileAttributesW(name);
    if (known == INVALID_FILE_ATTRIBUTES) return failed_here();
    if (!(known & FILE_ATTRIBUTE_REPARSE_POINT)) return failed(LINUX_EINVAL);
    wchar_t path[MAX_PATH * 4];
    HANDLE opened = CreateFileW(name, FILE_READ_ATTRIBUTES, SHARED, 0, OPEN_EXISTING, FILE_FLAG_BACKUP_SEMANTICS, 0);
    DWORD length = opened == INVALID_HANDLE_VALUE ? 0 : GetFinalPathNameByHandleW(opened, path, MAX_PATH * 4, 0);
    if (opened != INVALID_HANDLE_VALUE) CloseHandle(opened);
    if (!length || length >= MAX_PATH * 4) return failed(LINUX_EINVAL);
    char *text = narrow(path);
    size_t count = text ? strlen(text) : 0;
    for (size_t i = 0; i < count && i < size; i++) buffer[i] = text[i] == '\\' ? '/' : text[i];
    free(text);
    return text ? (int64_t)(count < size ? count : size) : -1;
}

int64_t wokureti_os_readlink(const char *path, char *buffer, uint64_t size) {
    wchar_t *name = name_of(path);
    int64_t result = name ? target_of(name, buffer, size) : -1;
    free(name);
    return result;
}

/* Owners and modes are those that Windows gives a new file. */
int wokureti_os_chown(const char *path, uint32_t user, uint32_t group) {
    (void)path, (void)user, (void)group;
    return 0;
}

int wokureti_os_fchmod(int file, uint32_t mode) {
    (void)file, (void)mode;
    return 0;
}

/* Windows has no such call for a folder. */
int wokureti_os_fsync(int file) {
    if (GetFileType(handle_of(file)) != FILE_TYPE_DISK) return failed(LINUX_EINVAL);
    return is_folder(handle_of(file)) || FlushFileBuffers(handle_of(file)) ? 0 : failed_here();
}

int wokureti_os_fdatasync(int file) {
    return wokureti_os_fsync(file);
}

/* Locks one byte far after the end of any file, since nobody else reads what is locked. */
int wokureti_os_flock(int file, int how) {
    OVERLAPPED place = {0};
    place.OffsetHigh = 0x7fffffff;
    if (how & LINUX_LOCK_UN) return UnlockFileEx(handle_of(file), 0, 1, 0, &place) ? 0 : failed_here();
    DWORD options = (how & LINUX_LOCK_EX ? LOCKFILE_EXCLUSIVE_LOCK : 0) | (how & LINUX_LOCK_NB ? LOCKFILE_FAIL_IMMEDIATELY : 0);
    return LockFileEx(handle_of(file), options, 0, 1, 0, &place) ? 0 : failed_here();
}

int wokureti_os_unlink(const char *path) {
    wchar_t *name = name_of(path);
    int result = !name ? -1 : DeleteFileW(name) ? 0 : failed_here();
    free(name);
    return result;
}

/* Replaces the file at a name as on Linux, also if it is open elsewhere. File systems without such a call fail. */
static int replace(const wchar_t *from, const wchar_t *to) {
    size_t size = sizeof(wchar_t) * wcslen(to);
    FILE_RENAME_INFO *given = calloc(1, sizeof *given + size);
    HANDLE opened = given ? CreateFileW(from, DELETE | SYNCHRONIZE, SHARED, 0, OPEN_EXISTING, FILE_FLAG_OPEN_REPARSE_POINT, 0) : INVALID_HANDLE_VALUE;
    int is_done = 0;
    if (opened != INVALID_HANDLE_VALUE) {
        given->Flags = FILE_RENAME_FLAG_REPLACE_IF_EXISTS | FILE_RENAME_FLAG_POSIX_SEMANTICS;
        given->FileNameLength = (DWORD)size;
        memcpy(given->FileName, to, size);
        is_done = SetFileInformationByHandle(opened, RENAME_INFO_EX, given, (DWORD)(sizeof *given + size)) != 0;
        CloseHandle(opened);
    }
    free(given);
    return is_done;
}

/* Other programs, such as a scanner of new files, keep a file open for a moment: then it is tried again for a second. */
static int rename_wide(const wchar_t *from, const wchar_t *to) {
    for (int tries = 0; tries < TRIES; tries++) {
        if (replace(from, to) || MoveFileExW(from, to, MOVEFILE_REPLACE_EXISTING | MOVEFILE_WRITE_THROUGH)) return 0;
        DWORD error = GetLastError();
        if (error != ERROR_ACCESS_DENIED && error != ERROR_SHARING_VIOLATION) return failed(linux_number(error));
        Sleep(PAUSE);
    }
    return failed(LINUX_EACCES);
}

int wokureti_os_rename(const char *from, const char *to) {
    wchar_t *one = name_of(from), *two = name_of(to);
    int result = one && two ? rename_wide(one, two) : -1;
    free(one);
    free(two);
    return result;
}

/* Windows has no SIGPIPE. */
int64_t wokureti_os___sysv_signal(int number, int64_t handler) {
    (void)number, (void)handler;
    return 0;
}

/* Whether a drive begins here, such as C:\ or C:/. */
static int is_drive(const char *text) {
    char letter = (char)(text[0] | 32);
    return letter >= 'a' && letter <= 'z' && text[1] == ':' && (text[2] == '\\' || text[2] == '/');
}

/* An argument as the program takes it: folders separated by /, and in a list of files drives with |, and : for ; between files. */
static void adapt(char *argument, int is_list) {
    int is_start = 1;
    for (char *at = argument; *at; at++) {
        if (is_list && is_start && is_drive(at)) at[1] = '|';
        is_start = is_list && *at == ';';
        if (*at == '\\') *at = '/';
        else if (is_start) *at = ':';
    }
}

/* The arguments in UTF-8, after which there is a null pointer; null without memory. */
static char **arguments_of(wchar_t **given, int count) {
    char **made = calloc((size_t)count + 1, sizeof *made);
    for (int i = 0; made && i < count; i++) {
        made[i] = narrow(given[i]);
        if (!made[i]) return 0;
        if (i) adapt(made[i], !strcmp(made[i - 1], "--sources") || !strncmp(made[i], "--sources=", strlen("--sources=")));
    }
    return made;
}

/* The variables of the environment, except those of Windows itself, whose names begin with =. */
static char **environment_of(const wchar_t *given) {
    size_t count = 0;
    for (const wchar_t *at = given; *at; at += wcslen(at) + 1) count++;
    char **made = calloc(count + 1, sizeof *made);
    count = 0;
    for (const wchar_t *at = given; made && *at; at += wcslen(at) + 1)
        if (*at != L'=' && (made[count] = narrow(at))) count++;
    return made;
}

int main(void) {
    static const DWORD STANDARD[] = {STD_INPUT_HANDLE, STD_OUTPUT_HANDLE, STD_ERROR_HANDLE};
    int count = 0;
    wchar_t **given = CommandLineToArgvW(GetCommandLineW(), &count), *variables = GetEnvironmentStringsW();
    char **arguments = given ? arguments_of(given, count) : 0, **environment = variables ? environment_of(variables) : 0;
    if (!arguments || !environment) return 1;
    for (int file = 0; file < 3; file++) {
        HANDLE stream = GetStdHandle(STANDARD[file]);
        files[file] = stream == INVALID_HANDLE_VALUE ? 0 : stream;
    }
    start(arguments, environment);
    return wokureti_main();
}
