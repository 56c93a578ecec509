#include "mark_calls.h"
#include "heap.h"

#include <stdio.h>
#include <string.h>

enum { PAGES, MARKS, TEXT, PARTS };
enum { TEXT_ROOM = 64, PAGE_BYTES = 46 };

static const size_t UNSET = (size_t)-1;
static const size_t ITEM[PARTS] = {sizeof(struct boxglue_page), sizeof(struct boxglue_mark), 1};

/* What a call gives. The rooms and the counts are of items. */
struct marks_result {
    uint32_t status;
    struct output outputs[PARTS];
    size_t counts[PARTS];
    struct boxglue_mark_sizes sizes;
};

/* A call in which the growth of this number is refused, none for 0. */
static struct marks_result call_marks(const struct input *dvi, const struct fonts *fonts, const size_t rooms[PARTS], size_t refused) {
    struct marks_result result = {.sizes = {UNSET, UNSET, UNSET, -1, -1, -1}};
    for (int part = 0; part < PARTS; part++) result.outputs[part] = new_output(rooms[part] * ITEM[part]);
    heap_begin(refused);
    result.status = COUNTED(boxglue_marks(dvi->bytes, dvi->size, fonts->all, fonts->count, (struct boxglue_page *)result.outputs[PAGES].bytes, rooms[PAGES],
                                          (struct boxglue_mark *)result.outputs[MARKS].bytes, rooms[MARKS], result.outputs[TEXT].bytes, rooms[TEXT], &result.sizes));
    REQUIRE(heap_live() == 0, "marks: %ld blocks are not freed", heap_live());
    result.counts[PAGES] = result.sizes.pages, result.counts[MARKS] = result.sizes.marks, result.counts[TEXT] = result.sizes.text;
    return result;
}

static void free_marks(struct marks_result *result) {
    for (int part = 0; part < PARTS; part++) free_output(&result->outputs[part]);
}

/* Fails where a call wrote a byte or a size that its status leaves alone. */
static void require_tidy_marks(const struct marks_result *result, const char *when) {
    int is_written = result->status <= BOXGLUE_REFUSED, has_sizes = is_written || result->status == BOXGLUE_BUFFER_TOO_SMALL;
    for (int part = 0; part < PARTS; part++) {
        REQUIRE(has_sizes == (result->counts[part] != UNSET), "%s: status %u, and size %d is %zu", when, result->status, part, result->counts[part]);
        require_untouched(&result->outputs[part], is_written ? result->counts[part] * ITEM[part] : 0, when);
    }
}

static int are_equal_marks(const struct marks_result *one, const struct marks_result *other) {
    if (one->status != other->status || memcmp(one->counts, other->counts, sizeof one->counts)) return 0;
    for (int part = 0; part < PARTS; part++)
        if (memcmp(one->outputs[part].bytes, other->outputs[part].bytes, one->counts[part] * ITEM[part])) return 0;
    return one->sizes.num == other->sizes.num && one->sizes.den == other->sizes.den && one->sizes.mag == other->sizes.mag;
}

/* The rooms that always suffice. */
static void set_enough(const struct input *dvi, size_t rooms[PARTS]) {
    rooms[PAGES] = dvi->size / PAGE_BYTES, rooms[MARKS] = dvi->size, rooms[TEXT] = TEXT_ROOM;
}

/* A call with rooms that suffice. With exact rooms it gives the same, and with one item less in any part it says what is needed. */
static struct marks_result checked_marks(const struct input *dvi, const struct fonts *fonts) {
    size_t rooms[PARTS];
    set_enough(dvi, rooms);
    struct marks_result result = call_marks(dvi, fonts, rooms, 0);
    require_tidy_marks(&result, "marks");
    REQUIRE(result.status <= BOXGLUE_REFUSED, "with rooms by the size of the file the status is %u", result.status);
    struct marks_result exact = call_marks(dvi, fonts, result.counts, 0);
    require_tidy_marks(&exact, "exact rooms");
    REQUIRE(are_equal_marks(&result, &exact), "exact rooms give other marks");
    free_marks(&exact);
    for (int part = 0; part < PARTS; part++) {
        if (!result.counts[part]) continue;
        memcpy(rooms, result.counts, sizeof rooms);
        rooms[part]--;
        struct marks_result small = call_marks(dvi, fonts, rooms, 0);
        require_tidy_marks(&small, "too small");
        REQUIRE(small.status == BOXGLUE_BUFFER_TOO_SMALL && !memcmp(small.counts, result.counts, sizeof small.counts), "with too little room the status is %u", small.status);
        free_marks(&small);
    }
    return result;
}

/* Prints a text as a listing does: unchanged, or a backslash and two digits. */
static void print_text(const uint8_t *text, size_t size) {
    for (size_t at = 0; at < size; at++)
        if (text[at] >= 32 && text[at] <= 126 && text[at] != '\\') putchar(text[at]);
        else printf("\\%02x", text[at]);
    putchar('\n');
}

/* Fails where a mark has something that its kind does not have. */
static void require_zeros(const struct boxglue_mark *mark) {
    int is_glyph = mark->kind == BOXGLUE_GLYPH, is_rule = mark->kind == BOXGLUE_RULE, is_special = mark->kind == BOXGLUE_SPECIAL;
    REQUIRE(is_glyph || is_rule || is_special, "a mark is of kind %u", mark->kind);
    REQUIRE(is_glyph || (!mark->font && !mark->code), "a mark of kind %u has a font or a character", mark->kind);
    REQUIRE(is_rule || !mark->height, "a mark of kind %u has a height", mark->kind);
    REQUIRE(!is_special || !mark->width, "a special has a width");
    REQUIRE(is_special || (!mark->text_size && !mark->text_start), "a mark of kind %u has a text", mark->kind);
}

static void print_mark(const struct boxglue_mark *mark, const struct input *dvi) {
    require_zeros(mark);
    if (mark->kind == BOXGLUE_GLYPH) printf("glyph %d %d %d %d width %d\n", mark->font, mark->code, mark->h, mark->v, mark->width);
    if (mark->kind == BOXGLUE_RULE) printf("rule %d %d %d %d\n", mark->h, mark->v, mark->height, mark->width);
    if (mark->kind == BOXGLUE_SPECIAL) {
        REQUIRE(mark->text_start <= dvi->size && mark->text_size <= dvi->size - mark->text_start, "a text is not in the file");
        printf("special %d %d ", mark->h, mark->v);
        print_text(dvi->bytes + mark->text_start, mark->text_size);
    }
}

void print_marks(const struct input *dvi, const struct fonts *fonts) {
    struct marks_result result = checked_marks(dvi, fonts);
    const struct boxglue_page *pages = (const struct boxglue_page *)result.outputs[PAGES].bytes;
    const struct boxglue_mark *marks = (const struct boxglue_mark *)result.outputs[MARKS].bytes;
    size_t next = 0;
    printf("%u %d %d %d\n", result.status, result.sizes.num, result.sizes.den, result.sizes.mag);
    fwrite(result.outputs[TEXT].bytes, 1, result.sizes.text, stdout);
    for (size_t page = 0; page < result.sizes.pages; page++) {
        printf("page %zu counts", page + 1);
        for (int count = 0; count < 10; count++) printf(" %d", pages[page].counts[count]);
        putchar('\n');
        REQUIRE(pages[page].first_mark == next, "page %zu begins at mark %zu and not %zu", page + 1, pages[page].first_mark, next);
        next += pages[page].marks;
        REQUIRE(next <= result.sizes.marks, "page %zu has marks that are not there", page + 1);
        for (size_t mark = pages[page].first_mark; mark < next; mark++) print_mark(&marks[mark], dvi);
    }
    REQUIRE(next == result.sizes.marks, "%zu marks are on no page", result.sizes.marks - next);
    free_marks(&result);
}

void refuse_mark_growths(const struct input *dvi, const struct fonts *fonts) {
    size_t rooms[PARTS], all, refused_calls = 0;
    set_enough(dvi, rooms);
    struct marks_result whole = call_marks(dvi, fonts, rooms, 0);
    all = heap_growths();
    for (size_t refused = 1; refused <= all; refused++) {
        struct marks_result result = call_marks(dvi, fonts, rooms, refused);
        require_tidy_marks(&result, "a growth refused");
        REQUIRE(result.status == BOXGLUE_OUT_OF_MEMORY || are_equal_marks(&result, &whole), "growth %zu refused: status %u, and other marks", refused, result.status);
        refused_calls += result.status == BOXGLUE_OUT_OF_MEMORY;
        free_marks(&result);
    }
    free_marks(&whole);
    printf("growths %zu: nothing done %zu, a command refused 0, the device failed 0, no difference %zu\n", all, refused_calls, all - refused_calls);
}
