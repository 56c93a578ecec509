// A library for LD_PRELOAD: each `read` of a program is interrupted, and gives no byte. Their number is written to standard error at the end. No header of
// the C library is needed.
typedef __SIZE_TYPE__ size;
extern int *__errno_location(void);
extern int dprintf(int, const char *, ...);
static long calls;

// 4 is EINTR.
long read(int file, void *bytes, size length) { calls++; *__errno_location() = 4; return -1; }
__attribute__((destructor)) static void end(void) { dprintf(2, "%ld\n", calls); }
