#include "item_calls.h"
#include "heap.h"
#include "random_inputs.h"

#include <stdio.h>
#include <stdlib.h>
#include <string.h>

static const struct boxglue_item_sizes UNSET = {99, 98};
static const char *const KINDS[] = {"", "glyph", "fontkern", "kern", "glue", "penalty", "rule", "special", "hbox", "vbox"};

/* What a call gives. */
struct items_result {
    uint32_t status;
    struct boxglue_item_sizes sizes;
    struct output items, text;
};

/* A number of two words. */
__extension__ typedef __int128 wide;

static wide number_of(struct boxglue_wide_dimen words) {
    return (wide)words.high * ((wide)1 << 64) + (wide)words.low;
}

static void print_wide(wide number) {
    char digits[48];
    size_t at = sizeof digits;
    int is_negative = number < 0;
    digits[--at] = '\0';
    do digits[--at] = (char)('0' + (int)(is_negative ? -(number % 10) : number % 10)); while (number /= 10);
    printf(" %s%s", is_negative ? "-" : "", digits + at);
}

static struct items_result call_items(struct boxglue_job *job, uint32_t register_number, size_t items, size_t text) {
    struct items_result result = {.sizes = UNSET, .items = new_output(items * sizeof(struct boxglue_item)), .text = new_output(text)};
    void *before = job->at;
    size_t growths = heap_growths();
    long live = heap_live();
    result.status = COUNTED(boxglue_job_items(job, register_number, (struct boxglue_item *)result.items.bytes, items, result.text.bytes, text, &result.sizes));
    REQUIRE(heap_growths() == growths && heap_live() == live, "items takes memory");
    REQUIRE(job->at == before, "items moves the job");
    int is_written = result.status == BOXGLUE_ACCEPTED, has_sizes = is_written || result.status == BOXGLUE_BUFFER_TOO_SMALL;
    REQUIRE(has_sizes || (result.sizes.items == UNSET.items && result.sizes.text == UNSET.text), "status %u writes the sizes", result.status);
    require_untouched(&result.items, is_written ? result.sizes.items * sizeof(struct boxglue_item) : 0, "items");
    require_untouched(&result.text, is_written ? result.sizes.text : 0, "texts of items");
    return result;
}

static void free_items(struct items_result *result) {
    free_output(&result->items);
    free_output(&result->text);
}

/* Fails unless a call with this much room has this status. */
static void require_status(struct boxglue_job *job, uint32_t register_number, size_t items, size_t text, uint32_t status) {
    struct items_result result = call_items(job, register_number, items, text);
    REQUIRE(result.status == status, "room for %zu items and %zu bytes: status %u and not %u", items, text, result.status, status);
    free_items(&result);
}

/* The items, after calls with too little room and for a register that there is not. */
static struct items_result exact_items(struct boxglue_job *job, uint32_t register_number) {
    struct items_result first = call_items(job, register_number, 0, 0);
    struct boxglue_item_sizes sizes = first.sizes;
    REQUIRE(first.status == (sizes.items ? BOXGLUE_BUFFER_TOO_SMALL : BOXGLUE_ACCEPTED), "without room the status is %u", first.status);
    free_items(&first);
    if (sizes.items) require_status(job, register_number, sizes.items - 1, sizes.text, BOXGLUE_BUFFER_TOO_SMALL);
    if (sizes.text) require_status(job, register_number, sizes.items, sizes.text - 1, BOXGLUE_BUFFER_TOO_SMALL);
    require_status(job, 32768, sizes.items, sizes.text, BOXGLUE_OUT_OF_RANGE);
    require_status(job, UINT32_MAX, 0, 0, BOXGLUE_OUT_OF_RANGE);
    struct items_result result = call_items(job, register_number, sizes.items, sizes.text);
    REQUIRE(result.status == BOXGLUE_ACCEPTED && !memcmp(&result.sizes, &sizes, sizeof sizes), "with exact room the status is %u", result.status);
    return result;
}

/* Fails where the rows are not those of a box: a box first, each other row at most one level deeper than the one before it, and texts one after the other. */
static void require_rows(const struct items_result *result) {
    const struct boxglue_item *items = (const struct boxglue_item *)result->items.bytes;
    uint64_t text = 0;
    for (size_t at = 0; at < result->sizes.items; at++) {
        const struct boxglue_item *item = &items[at];
        int is_box = item->kind == BOXGLUE_ITEM_HBOX || item->kind == BOXGLUE_ITEM_VBOX, follows_box = at && items[at - 1].kind >= BOXGLUE_ITEM_HBOX;
        REQUIRE(item->kind >= BOXGLUE_ITEM_GLYPH && item->kind <= BOXGLUE_ITEM_VBOX, "an item has the kind %u", item->kind);
        REQUIRE(at ? item->level && item->level <= items[at - 1].level + (uint32_t)follows_box : !item->level && is_box, "row %zu has level %u", at, item->level);
        REQUIRE(is_box == (item->ratio_den > 0) && item->setting <= 2, "row %zu has the setting %u", at, item->setting);
        REQUIRE(item->kind != BOXGLUE_ITEM_SPECIAL || item->text_start == text, "row %zu has its text at %llu", at, (unsigned long long)item->text_start);
        text += item->text_size;
    }
    REQUIRE(text == result->sizes.text, "the texts have %zu bytes", result->sizes.text);
}

void try_items(struct boxglue_job *job) {
    static const uint32_t LAST[] = {32767, 32768, UINT32_MAX};
    size_t chosen = below(12);
    uint32_t register_number = chosen < 9 ? (uint32_t)chosen : LAST[chosen - 9];
    if (register_number > 32767) {
        require_status(job, register_number, below(3), below(3), BOXGLUE_OUT_OF_RANGE);
        return;
    }
    struct items_result first = call_items(job, register_number, 0, 0);
    struct boxglue_item_sizes sizes = first.sizes;
    REQUIRE(first.status == (sizes.items ? BOXGLUE_BUFFER_TOO_SMALL : BOXGLUE_ACCEPTED), "without room the status is %u", first.status);
    free_items(&first);
    size_t items = below(2) ? sizes.items : below(sizes.items + 2), text = below(2) ? sizes.text : below(sizes.text + 2);
    struct items_result result = call_items(job, register_number, items, text);
    int fits = items >= sizes.items && text >= sizes.text;
    REQUIRE(result.status == (fits ? BOXGLUE_ACCEPTED : BOXGLUE_BUFFER_TOO_SMALL), "room for %zu of %zu items: status %u", items, sizes.items, result.status);
    REQUIRE(!memcmp(&result.sizes, &sizes, sizeof sizes), "a second call says other sizes");
    if (fits) require_rows(&result);
    free_items(&result);
}

static void print_item(const struct boxglue_item *item) {
    printf("%u %s", item->level, item->kind < sizeof KINDS / sizeof *KINDS ? KINDS[item->kind] : "?");
    print_wide(number_of(item->right));
    print_wide(number_of(item->down));
    print_wide(number_of(item->set_width));
    printf(" %d %d %d %d", item->width, item->height, item->depth, item->shift);
    printf(" %d %u %d %u", item->stretch, item->stretch_order, item->shrink, item->shrink_order);
    printf(" %u %u %lld/%lld", item->setting, item->setting_order, (long long)item->ratio_num, (long long)item->ratio_den);
    printf(" %u %u %d %u %llu\n", item->slot, item->code, item->penalty, item->running, (unsigned long long)item->text_size);
}

/* Prints a text as a listing does: unchanged, or a backslash and two digits. */
static void print_special(const uint8_t *text, size_t size) {
    for (size_t at = 0; at < size; at++)
        if (text[at] >= 32 && text[at] <= 126 && text[at] != '\\') putchar(text[at]);
        else printf("\\%02x", text[at]);
    putchar('\n');
}

/* Prints what an item shows on a page. */
static void print_shown(const struct boxglue_item *item, const struct items_result *result) {
    wide h = number_of(item->right), v = number_of(item->down);
    if (item->kind == BOXGLUE_ITEM_GLYPH) {
        printf("glyph %u %u", item->slot, item->code);
        print_wide(h), print_wide(v);
        putchar('\n');
    }
    long long height = (long long)item->height + item->depth;
    if (item->kind == BOXGLUE_ITEM_RULE && height > 0 && item->width > 0) {
        printf("rule");
        print_wide(h), print_wide(v);
        printf(" %lld %d\n", height, item->width);
    }
    if (item->kind == BOXGLUE_ITEM_SPECIAL) {
        REQUIRE(item->text_start <= result->sizes.text && item->text_size <= result->sizes.text - item->text_start, "a text is not in the buffer");
        printf("special");
        print_wide(h), print_wide(v);
        putchar(' ');
        print_special(result->text.bytes + item->text_start, item->text_size);
    }
}

void print_items(const struct input *script, const struct fonts *fonts, uint32_t register_number) {
    struct boxglue_job job = {0};
    require_status(&job, register_number, 1, 1, BOXGLUE_NO_JOB);
    REQUIRE(boxglue_job_new(&job, fonts->all, fonts->count) == BOXGLUE_ACCEPTED, "there is no job");
    uint32_t status = boxglue_job_commands(&job, script->bytes, script->size);
    REQUIRE(status == BOXGLUE_ACCEPTED, "the script has the status %u", status);
    struct items_result result = exact_items(&job, register_number), again = exact_items(&job, register_number);
    REQUIRE(!memcmp(result.items.bytes, again.items.bytes, result.items.room), "the items are others the second time");
    const struct boxglue_item *items = (const struct boxglue_item *)result.items.bytes;
    printf("%zu items, %zu bytes\n", result.sizes.items, result.sizes.text);
    for (size_t at = 0; at < result.sizes.items; at++) print_item(&items[at]);
    printf("shown\n");
    for (size_t at = 0; at < result.sizes.items; at++) print_shown(&items[at], &result);
    free_items(&result);
    free_items(&again);
    boxglue_job_free(&job);
}
