/* Sets a page in the font cmtt10 by typed calls: page METRICS OUT. It prints the width of the page's box and the end of the job, and writes the DVI file to OUT.
 *
 *     cc -o page page.c $(pkg-config --cflags --libs boxglue)
 */
#include <boxglue_typed.h>
#include <inttypes.h>
#include <stdio.h>
#include <string.h>

static const char TEXT[] = "Glue stretches and shrinks until the lines are as wide as hsize.";
static uint8_t metrics[1 << 17], dvi[1 << 16];

/* Sets the page. Each call returns 0 where its command was done, and then its reply is in the handle. */
static uint32_t set(struct boxglue_typed *page) {
    uint32_t status = boxglue_do_load(page, 0, "cmtt10", 0);
    if (!status) status = boxglue_do_use(page, 0);
    if (!status) status = boxglue_do_set_dimension(page, BOXGLUE_HSIZE, BOXGLUE_PT(200));
    if (!status) status = boxglue_do_vbox(page, BOXGLUE_NATURAL, 0, 0);
    if (!status) status = boxglue_do_par(page);
    if (!status) status = boxglue_do_text(page, TEXT, strlen(TEXT));
    if (!status) status = boxglue_do_end(page);
    if (!status) status = boxglue_do_end(page);
    if (!status) printf("%" PRId32 " sp wide\n", page->reply.box.width);
    if (!status) status = boxglue_do_ship(page, 0);
    if (!status) status = boxglue_do_finish(page);
    if (!status) printf("end: pages %" PRIu64 " bytes %" PRIu64 "\n", page->reply.count, page->reply.bytes);
    return status;
}

int main(int count, char **words) {
    FILE *file = count == 3 ? fopen(words[1], "rb") : NULL;
    if (!file) return fprintf(stderr, "usage: page METRICS OUT\n"), 2;
    struct boxglue_font font = {(const uint8_t *)"cmtt10", 6, metrics, fread(metrics, 1, sizeof metrics, file)};
    fclose(file);
    struct boxglue_typed page;
    size_t size = 0;
    uint32_t status = boxglue_typed_new(&page, &font, 1);
    if (!status) status = set(&page);
    if (!status) status = boxglue_job_take(&page.job, dvi, sizeof dvi, &size);
    boxglue_typed_free(&page);
    if (status) return (int)status; /* where something was refused, no file is written */
    file = fopen(words[2], "wb");
    return !file || fwrite(dvi, 1, size, file) != size || fclose(file) ? 2 : 0;
}
