// Preloaded into a process, refuses the allocation whose number stands in REFUSE (the first is 1), and says so on standard
// error. It includes no header, so that a compiler without the system's headers serves.
char *getenv(const char *name);
long atol(const char *text);
long write(int file, const void *bytes, unsigned long count);
void *__libc_malloc(unsigned long size);
void *__libc_realloc(void *old, unsigned long size);

static int is_refused(void) {
    static const char said[] = "refused this allocation\n";
    static long count;
    const char *number = getenv("REFUSE");
    if (!number || ++count != atol(number))
        return 0;
    return write(2, said, sizeof said - 1) > 0;
}

void *malloc(unsigned long size) {
    return is_refused() ? 0 : __libc_malloc(size);
}

void *realloc(void *old, unsigned long size) {
    return is_refused() ? 0 : __libc_realloc(old, size);
}
