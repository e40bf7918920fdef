/* Keeps a file open on Windows until standard input ends: hold PATH [delete]. Others may read and write it, and delete it only if that is said. */
#include <stdio.h>
#include <string.h>
#include <windows.h>

int wmain(int count, wchar_t **words) {
    DWORD shared = FILE_SHARE_READ | FILE_SHARE_WRITE | (count > 2 && !wcscmp(words[2], L"delete") ? FILE_SHARE_DELETE : 0);
    HANDLE file = count > 1 ? CreateFileW(words[1], GENERIC_READ, shared, 0, OPEN_EXISTING, 0, 0) : INVALID_HANDLE_VALUE;
    if (file == INVALID_HANDLE_VALUE) return 1;
    puts("open");
    fflush(stdout);
    while (getchar() != EOF) continue;
    return !CloseHandle(file);
}
