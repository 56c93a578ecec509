// A library for LD_PRELOAD: it counts the growths of memory of a program, and refuses the one whose number is in REFUSE_GROWTH.
// With 0 none is refused, and their number is written to standard error at the end. No header of the C library is needed.
typedef __SIZE_TYPE__ size;
extern void *__libc_malloc(size), *__libc_realloc(void *, size);
extern char *getenv(const char *);
extern long atol(const char *);
extern int dprintf(int, const char *, ...);
static long growths, refused;

__attribute__((constructor)) static void begin(void) { refused = atol(getenv("REFUSE_GROWTH")); growths = 0; }
void *malloc(size length) { return ++growths == refused ? 0 : __libc_malloc(length); }
void *realloc(void *old, size length) { return ++growths == refused ? 0 : __libc_realloc(old, length); }
__attribute__((destructor)) static void end(void) { if (refused == 0) dprintf(2, "%ld\n", growths); }
