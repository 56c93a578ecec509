// A library for LD_PRELOAD: each `write` of a program to standard output, or to its other files where SHORTEN_WRITES is 0, takes half of the bytes,
// and at least one. How many were shortened is written to standard error at the end. No header of the C library is needed.
typedef __SIZE_TYPE__ size;
extern long syscall(long, ...);
extern char *getenv(const char *);
extern long atol(const char *);
extern int dprintf(int, const char *, ...);
static long output, shortened;

__attribute__((constructor)) static void begin(void) { output = atol(getenv("SHORTEN_WRITES")); shortened = 0; }
static int is_short(int file, size length) { return length > 1 && (output ? file == 1 : file > 2); }

// 1 is the system call of `write`.
long write(int file, const void *bytes, size length) {
    if (!is_short(file, length)) return syscall(1, file, bytes, length);
    shortened++;
    return syscall(1, file, bytes, length / 2);
}
__attribute__((destructor)) static void end(void) { dprintf(2, "%ld\n", shortened); }
