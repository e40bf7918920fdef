/* The entry of the library for Windows, which has nothing to begin or to end. */
int __stdcall DllMain(void *library, unsigned reason, void *reserved) {
    (void)library, (void)reason, (void)reserved;
    return 1;
}
