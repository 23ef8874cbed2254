// Preloaded into a process, lets its calls of read, write, pread and lseek fail whose numbers are FAIL, FAIL + EVERY, FAIL + 2 EVERY and so
// on (without EVERY, FAIL alone; the first is 1), with the error number ERROR, and says so on standard error, whose calls it leaves alone.
// Where PIECE is given, each call moves at most as many bytes. It includes no header, so that a compiler without the system's headers serves.
char *getenv(const char *name);
long atol(const char *text);
long syscall(long number, ...);
int *__errno_location(void);

enum { READ = 0, WRITE = 1, LSEEK = 8, PREAD = 17 };

static long said(const char *name) {
    const char *value = getenv(name);
    return value ? atol(value) : 0;
}

static int is_failed(int file) {
    static const char text[] = "failed this call\n";
    static long count;
    const long first = said("FAIL"), every = said("EVERY");
    if (file == 2 || !first || ++count < first)
        return 0;
    if (count != first && !(every && (count - first) % every == 0))
        return 0;
    syscall(WRITE, 2, text, sizeof text - 1);
    *__errno_location() = said("ERROR");
    return 1;
}

static unsigned long piece(int file, unsigned long count) {
    const unsigned long most = said("PIECE");
    return file != 2 && most && most < count ? most : count;
}

long read(int file, void *bytes, unsigned long count) {
    return is_failed(file) ? -1 : syscall(READ, file, bytes, piece(file, count));
}

long write(int file, const void *bytes, unsigned long count) {
    return is_failed(file) ? -1 : syscall(WRITE, file, bytes, piece(file, count));
}

long pread64(int file, void *bytes, unsigned long count, long at) {
    return is_failed(file) ? -1 : syscall(PREAD, file, bytes, piece(file, count), at);
}

long pread(int file, void *bytes, unsigned long count, long at) {
    return pread64(file, bytes, count, at);
}

long lseek64(int file, long at, int from) {
    return is_failed(file) ? -1 : syscall(LSEEK, file, at, from);
}

long lseek(int file, long at, int from) {
    return lseek64(file, at, from);
}
