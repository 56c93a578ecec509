/* Tests of boxglue_typed.h: what a script cannot have is refused before anything is sent; null handles; long texts; and the replies of single calls. It is C99 and C++98. */
#include <stdio.h>
#include <stdlib.h>

/* How often the calls asked for memory, and whether they get none. */
static int asked, is_refused;

static void *counted(size_t size) {
    asked++;
    return is_refused ? NULL : malloc(size);
}
#define malloc counted
#include "boxglue_typed.h"
#undef malloc

#if BOXGLUE_VERSION_MAJOR != 1 || BOXGLUE_VERSION_MAJOR * 10000 + BOXGLUE_VERSION_MINOR * 100 + BOXGLUE_VERSION_PATCH != BOXGLUE_VERSION
#error "the numbers of the version are not those of BOXGLUE_VERSION"
#endif

static int failed;

static void expect(int is_right, const char *what, int line) {
    if (is_right) return;
    printf("line %d: %s\n", line, what);
    failed = 1;
}
#define EXPECT(is_right) expect(is_right, #is_right, __LINE__)
/* A call that is refused with a fault, at a place. */
#define FAULT(call, wanted, at) EXPECT((call) == BOXGLUE_OUT_OF_RANGE && page.fault == (wanted) && page.place == (at))
#define NUMBER(call) FAULT(call, BOXGLUE_FAULT_NUMBER, 0)
#define DIMENSION(call) FAULT(call, BOXGLUE_FAULT_DIMENSION, 0)

static struct boxglue_typed page;
static const boxglue_sp BIG = 1 << 30;

static void numbers_of_calls(void) {
    struct boxglue_glue glue = {0, BIG, 0, BOXGLUE_FIL, BOXGLUE_NORMAL};
    NUMBER(boxglue_do_use(&page, 256));
    NUMBER(boxglue_do_char(&page, -1));
    NUMBER(boxglue_do_penalty(&page, 500000001));
    NUMBER(boxglue_do_void(&page, 32768));
    NUMBER(boxglue_do_ship(&page, -1));
    NUMBER(boxglue_do_hbox(&page, BOXGLUE_NATURAL, 0, 32768));
    NUMBER(boxglue_do_count(&page, 10, 0));
    NUMBER(boxglue_do_set_number(&page, BOXGLUE_FIRSTLINES, 33));
    NUMBER(boxglue_do_set_number(&page, BOXGLUE_TOLERANCE, -500000001));
    NUMBER(boxglue_do_set_dimension(&page, (enum boxglue_dimension_parameter)7, 0));
    NUMBER(boxglue_do_load(&page, -1, "x", 0));
    NUMBER(boxglue_do_load(&page, 0, "x", 1 << 27));
    NUMBER(boxglue_do_load(&page, 0, "x", -1));
    DIMENSION(boxglue_do_kern(&page, BIG));
    DIMENSION(boxglue_do_kern(&page, -BIG));
    DIMENSION(boxglue_do_kern(&page, BOXGLUE_RUNNING));
    DIMENSION(boxglue_do_rule(&page, 0, BIG, 0));
    DIMENSION(boxglue_do_vbox(&page, BOXGLUE_TO, BIG, 0));
    DIMENSION(boxglue_do_vsplit(&page, 0, BIG, 1));
    DIMENSION(boxglue_do_box(&page, 0, BIG));
    DIMENSION(boxglue_do_set_dimension(&page, BOXGLUE_HSIZE, BIG));
    DIMENSION(boxglue_do_glue(&page, &glue));
    glue.plus = 0;
    glue.minus_order = 4;
    NUMBER(boxglue_do_set_glue(&page, BOXGLUE_PARFILLSKIP, &glue));
#ifndef __cplusplus /* whose enums hold no such numbers */
    glue.minus_order = BOXGLUE_NORMAL;
    NUMBER(boxglue_do_set_glue(&page, (enum boxglue_glue_parameter)4, &glue));
    NUMBER(boxglue_do_set_number(&page, (enum boxglue_number_parameter)8, 0));
#endif
}

/* A call that is sent, and refused because there is no font. */
#define NO_FONT(call) EXPECT((call) == BOXGLUE_REFUSED && page.reply.refusal == BOXGLUE_REFUSAL_NO_FONT && page.fault == BOXGLUE_FAULT_NONE)
#define SENT(call) EXPECT((call) == BOXGLUE_ACCEPTED && page.fault == BOXGLUE_FAULT_NONE)

/* The last numbers that a script may have are sent. The kerns are 0 together. */
static void limits_of_calls(void) {
    static const boxglue_sp MOST = (1 << 30) - 1;
    static const int32_t LEAST = -2147483647 - 1;
    char name[257];
    struct boxglue_glue glue = {MOST, MOST, -MOST, BOXGLUE_FILLL, BOXGLUE_NORMAL};
    memset(name, 'x', sizeof name);
    name[256] = 0;
    FAULT(boxglue_do_load(&page, 255, name, (1 << 27) - 1), BOXGLUE_FAULT_NAME, 0);
    name[255] = 0;
    NO_FONT(boxglue_do_load(&page, 255, name, (1 << 27) - 1));
    NO_FONT(boxglue_do_load(&page, 0, "x", 1));
    NO_FONT(boxglue_do_use(&page, 255));
    NO_FONT(boxglue_do_use(&page, 0));
    NO_FONT(boxglue_do_char(&page, 255));
    SENT(boxglue_do_kern(&page, MOST));
    SENT(boxglue_do_kern(&page, -MOST));
    SENT(boxglue_do_penalty(&page, 500000000));
    SENT(boxglue_do_penalty(&page, -500000000));
    SENT(boxglue_do_void(&page, 32767));
    SENT(boxglue_do_set_number(&page, BOXGLUE_FIRSTLINES, 32));
    SENT(boxglue_do_set_number(&page, BOXGLUE_FIRSTLINES, 0));
    SENT(boxglue_do_set_number(&page, BOXGLUE_TOLERANCE, -500000000));
    SENT(boxglue_do_set_number(&page, BOXGLUE_TOLERANCE, 500000000));
    SENT(boxglue_do_count(&page, 9, LEAST));
    SENT(boxglue_do_count(&page, 0, 2147483647));
    SENT(boxglue_do_set_glue(&page, BOXGLUE_PARFILLSKIP, &glue));
}

static void bytes_of_texts(void) {
    static const char inject[] = "a\nend\nship 0", wide[] = "na\xc3\xafve";
    size_t place = 7;
    FAULT(boxglue_do_text(&page, inject, sizeof inject - 1), BOXGLUE_FAULT_BYTE, 1);
    FAULT(boxglue_do_special(&page, wide, sizeof wide - 1), BOXGLUE_FAULT_BYTE, 2);
    FAULT(boxglue_do_text(&page, "a\0b", 3), BOXGLUE_FAULT_BYTE, 1);
    FAULT(boxglue_do_text(&page, "ab\x1f", 3), BOXGLUE_FAULT_BYTE, 2);
    FAULT(boxglue_do_special(&page, "a\x7f", 2), BOXGLUE_FAULT_BYTE, 1);
    FAULT(boxglue_do_load(&page, 0, "a b", 0), BOXGLUE_FAULT_BYTE, 1);
    FAULT(boxglue_do_load(&page, 0, "ab\nship", 0), BOXGLUE_FAULT_BYTE, 2);
    FAULT(boxglue_do_load(&page, 0, "", 0), BOXGLUE_FAULT_NAME, 0);
    EXPECT(boxglue_quote(inject, sizeof inject - 1, &place) == BOXGLUE_OUT_OF_RANGE && place == 1);
    EXPECT(boxglue_quote(wide, sizeof wide - 1, NULL) == BOXGLUE_OUT_OF_RANGE && boxglue_quote("a ~", 3, NULL) == BOXGLUE_ACCEPTED && boxglue_quote(NULL, 0, NULL) == BOXGLUE_ACCEPTED);
}

static void null_handles(void) {
    struct boxglue_glue glue = {0, 0, 0, 0, 0};
    struct boxglue_typed empty;
    memset(&empty, 0, sizeof empty);
    empty.job.at = NULL;
    boxglue_typed_free(NULL);
    boxglue_typed_free(&empty);
    EXPECT(boxglue_typed_new(NULL, NULL, 0) == BOXGLUE_NO_JOB && boxglue_do_finish(NULL) == BOXGLUE_NO_JOB && boxglue_do_finish(&empty) == BOXGLUE_NO_JOB);
    EXPECT(boxglue_do_text(NULL, "a", 1) == BOXGLUE_NO_JOB && boxglue_do_load(NULL, 0, "x", 0) == BOXGLUE_NO_JOB && boxglue_do_load(NULL, 0, "a b", 0) == BOXGLUE_NO_JOB);
    EXPECT(boxglue_do_kern(NULL, 1) == BOXGLUE_NO_JOB && boxglue_do_kern(&empty, 1) == BOXGLUE_NO_JOB && boxglue_do_glue(NULL, &glue) == BOXGLUE_NO_JOB);
    EXPECT(boxglue_do_hbox(NULL, BOXGLUE_NATURAL, 0, 0) == BOXGLUE_NO_JOB && boxglue_do_end(NULL) == BOXGLUE_NO_JOB && boxglue_do_ship(NULL, 0) == BOXGLUE_NO_JOB);
    EXPECT(boxglue_do_set_glue(NULL, BOXGLUE_LINESKIP, &glue) == BOXGLUE_NO_JOB && boxglue_do_set_number(NULL, BOXGLUE_TOLERANCE, 0) == BOXGLUE_NO_JOB);
}

/* Texts around the length from which they are copied, into memory that may be refused; and the longest special. */
static void long_texts(void) {
    static char text[70000];
    uint64_t line;
    size_t size;
    memset(text, 'x', sizeof text);
    EXPECT(asked == 0);
    for (size = 198; size < 204; size++) {
        asked = 0;
        EXPECT(boxglue_do_special(&page, text, size) == BOXGLUE_ACCEPTED && asked == (size > 200));
    }
    line = page.reply.line;
    is_refused = 1;
    EXPECT(boxglue_do_special(&page, text, 201) == BOXGLUE_OUT_OF_MEMORY);
    EXPECT(boxglue_do_special(&page, text, 200) == BOXGLUE_ACCEPTED && page.reply.line == line + 1);
    is_refused = 0;
    EXPECT(boxglue_do_special(&page, text, 65535) == BOXGLUE_ACCEPTED);
    EXPECT(boxglue_do_special(&page, text, 65536) == BOXGLUE_REFUSED && page.reply.refusal == BOXGLUE_REFUSAL_TOO_MUCH_SPECIAL);
    text[60000] = '\n';
    FAULT(boxglue_do_special(&page, text, 65536), BOXGLUE_FAULT_BYTE, 60000);
}

static void replies(void) {
    static const char script[] = "kern 1sp\n";
    size_t count = 0;
    struct boxglue_reply reply;
    EXPECT(boxglue_do_kern(&page, BOXGLUE_PT(3)) == BOXGLUE_ACCEPTED && page.reply.kind == BOXGLUE_REPLY_OK && page.fault == BOXGLUE_FAULT_NONE);
    EXPECT(boxglue_do_par(&page) == BOXGLUE_REFUSED && page.reply.refusal == BOXGLUE_REFUSAL_WRONG_MODE);
    EXPECT(boxglue_do_char(&page, 0) == BOXGLUE_REFUSED && page.reply.refusal == BOXGLUE_REFUSAL_NO_FONT);
    EXPECT(!strcmp(boxglue_refusal_name(page.reply.refusal), "NoFont"));
    EXPECT(BOXGLUE_PT(3.6) == 235929 && BOXGLUE_PT(-0.5) == -32768); /* 235929.6 is cut off */
    EXPECT(boxglue_job_run(&page.job, script, sizeof script - 1, &reply, 1, &count) == BOXGLUE_ACCEPTED && count == 1);
    EXPECT(boxglue_do_end(&page) == BOXGLUE_ACCEPTED && page.reply.kind == BOXGLUE_REPLY_PACKED && page.reply.box.width == BOXGLUE_PT(3) + 1);
    EXPECT(boxglue_do_measure(&page, 0) == BOXGLUE_ACCEPTED && page.reply.kind == BOXGLUE_REPLY_MEASURED && page.reply.box_kind == BOXGLUE_BOX_HORIZONTAL);
    EXPECT(boxglue_do_ship(&page, 0) == BOXGLUE_ACCEPTED && page.reply.kind == BOXGLUE_REPLY_SHIPPED && page.reply.count == 1);
    NUMBER(boxglue_do_ship(&page, 32768));
    EXPECT(page.reply.kind == BOXGLUE_REPLY_SHIPPED); /* that of the last command that was run */
    EXPECT(boxglue_do_finish(&page) == BOXGLUE_ACCEPTED && page.reply.kind == BOXGLUE_REPLY_END && page.reply.count == 1 && page.fault == BOXGLUE_FAULT_NONE);
}

/* The first and the last name of each kind, and numbers that are none. */
static void names(void) {
    static const uint32_t DVI = BOXGLUE_DVI_RANGE, TFM = BOXGLUE_TFM_LIG_KERN, REFUSAL = BOXGLUE_REFUSAL_TOO_MUCH_SPECIAL;
    EXPECT(!strcmp(boxglue_refusal_name(1), "OutOfMemory") && !strcmp(boxglue_refusal_name(REFUSAL), "TooMuchSpecial"));
    EXPECT(!strcmp(boxglue_bad_dvi_name(1), "Trailer") && !strcmp(boxglue_bad_dvi_name(DVI), "Range"));
    EXPECT(!strcmp(boxglue_bad_tfm_name(1), "TooShort") && !strcmp(boxglue_bad_tfm_name(TFM), "LigKern"));
    EXPECT(!strcmp(boxglue_refusal_name(0), "unknown") && !strcmp(boxglue_refusal_name(REFUSAL + 1), "unknown"));
    EXPECT(!strcmp(boxglue_bad_dvi_name(0), "unknown") && !strcmp(boxglue_bad_dvi_name(DVI + 1), "unknown"));
    EXPECT(!strcmp(boxglue_bad_tfm_name(0), "unknown") && !strcmp(boxglue_bad_tfm_name(TFM + 1), "unknown"));
    EXPECT(!strcmp(boxglue_status_text(BOXGLUE_ANSWERS_LOST + 1), "not a status of boxglue"));
}

/* A font without a name makes no job. */
static void bad_font_name(void) {
    static const uint8_t byte = 0;
    struct boxglue_font font = {&byte, 0, &byte, 0};
    struct boxglue_typed other;
    EXPECT(boxglue_typed_new(&other, &font, 1) == BOXGLUE_BAD_FONT_NAME && boxglue_do_kern(&other, 1) == BOXGLUE_NO_JOB);
    boxglue_typed_free(&other);
}

int main(void) {
    EXPECT(boxglue_typed_new(&page, NULL, 0) == BOXGLUE_ACCEPTED);
    EXPECT(boxglue_do_hbox(&page, BOXGLUE_NATURAL, 0, 0) == BOXGLUE_ACCEPTED);
    numbers_of_calls();
    limits_of_calls();
    bytes_of_texts();
    null_handles();
    long_texts();
    replies(); /* whose first one shows that none of the refused calls was sent */
    names();
    bad_font_name();
    boxglue_typed_free(&page);
    boxglue_typed_free(&page);
    EXPECT(boxglue_do_kern(&page, 1) == BOXGLUE_NO_JOB);
    EXPECT(!strcmp(BOXGLUE_VERSION_STRING, "1.2.0") || BOXGLUE_VERSION != 10200);
    return failed;
}
