#include "heap.h"

void *__real_malloc(size_t size);
void *__real_realloc(void *old, size_t size);
void __real_free(void *at);

static int counts;
static size_t growths, refused_growth;
static long live;

void heap_begin(size_t refused) {
    growths = 0;
    refused_growth = refused;
}

void heap_count(int does) {
    counts = does;
}

size_t heap_growths(void) {
    return growths;
}

long heap_live(void) {
    return live;
}

/* Whether a growth is refused. */
static int refuses(void) {
    return counts && ++growths == refused_growth;
}

void *__wrap_malloc(size_t size) {
    if (refuses()) return NULL;
    void *at = __real_malloc(size);
    if (counts && at) live++;
    return at;
}

void *__wrap_realloc(void *old, size_t size) {
    if (refuses()) return NULL;
    void *at = __real_realloc(old, size);
    if (counts && at && !old) live++;
    return at;
}

void __wrap_free(void *at) {
    if (counts && at) live--;
    __real_free(at);
}
