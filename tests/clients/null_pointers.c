/* Calls of the library with null pointers of size 0, in what C99 and C++ have in common; tests/parts/library_callers.py compiles it in several languages, with
 * symbols of the library that refuse a null pointer (null_symbols.c). It prints the status and the sizes of each call. */
#include "boxglue.h"

#include <stdio.h>

static const uint8_t SCRIPT[] = "hbox into 0\nrule 1pt 1pt 0pt\nend\nship 0\n";

typedef uint32_t listing(const uint8_t *dvi, size_t dvi_size, const struct boxglue_font *fonts, size_t font_count, uint8_t *text, size_t text_room, size_t *size);

static void print_call(const char *call, uint32_t status, size_t first, size_t second) {
    printf("%s %u %u %u: %s\n", call, (unsigned)status, (unsigned)first, (unsigned)second, boxglue_status_text(status));
}

static void call_whole(const uint8_t *script, size_t script_size) {
    struct boxglue_lengths lengths = {0, 0};
    uint32_t status = boxglue_run(script, script_size, NULL, 0, NULL, 0, NULL, 0, &lengths);
    print_call("run", status, lengths.answers, lengths.dvi);
    struct boxglue_reply_sizes sizes = {0, 0};
    status = boxglue_run_replies(script, script_size, NULL, 0, NULL, 0, NULL, 0, &sizes);
    print_call("run_replies", status, sizes.replies, sizes.dvi);
}

static void call_readers(void) {
    struct boxglue_font_sizes sizes = {0, 0};
    struct boxglue_mark_sizes mark_sizes = {0, 0, 0, 0, 0, 0};
    size_t size = 0;
    listing *by_pointer = boxglue_list;
    uint32_t status = boxglue_list(NULL, 0, NULL, 0, NULL, 0, &size);
    print_call("list", status, size, 0);
    status = by_pointer(NULL, 0, NULL, 0, NULL, 0, &size);
    print_call("list by a pointer", status, size, 0);
    status = boxglue_paint(NULL, 0, NULL, 0, 1, 72, 40, 30, NULL, 0, &size);
    print_call("paint", status, size, 0);
    status = boxglue_fonts(NULL, 0, NULL, 0, NULL, 0, &sizes);
    print_call("fonts", status, sizes.fonts, sizes.text);
    status = boxglue_marks(NULL, 0, NULL, 0, NULL, 0, NULL, 0, NULL, 0, &mark_sizes);
    print_call("marks", status, mark_sizes.pages, mark_sizes.text);
}

static void call_job(void) {
    struct boxglue_job job = {NULL};
    size_t size = 0;
    uint32_t status = boxglue_job_new(&job, NULL, 0);
    print_call("new", status, 0, 0);
    status = boxglue_job_commands(&job, NULL, 0);
    print_call("commands", status, 0, 0);
    status = boxglue_job_run(&job, NULL, 0, NULL, 0, &size);
    print_call("job_run", status, size, 0);
    status = boxglue_job_answers(&job, NULL, 0, &size);
    print_call("answers", status, size, 0);
    status = boxglue_job_finish(&job);
    print_call("finish", status, 0, 0);
    status = boxglue_job_take(&job, NULL, 0, &size);
    print_call("take", status, size, 0);
    boxglue_job_free(&job);
}

int main(void) {
    call_whole(SCRIPT, sizeof SCRIPT - 1);
    call_whole(NULL, 0);
    call_readers();
    call_job();
    return 0;
}
