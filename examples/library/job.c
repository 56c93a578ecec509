/* Runs a script in two pieces on a job that is kept, prints its answers as they come, and writes the DVI file to page.dvi where nothing was refused. */
#include <boxglue.h>
#include <stdio.h>
#include <string.h>

/* Prints the answers that were not printed yet. */
static void print_answers(struct boxglue_job *job) {
    uint8_t text[4096];
    size_t size; /* at status 4 what the buffer needs, and no answer is lost */
    if (boxglue_job_answers(job, text, sizeof text, &size) == BOXGLUE_ACCEPTED) fwrite(text, 1, size, stdout);
}

int main(void) {
    static const char *const pieces[] = {"hbox into 0\nrule 1pt 1pt 0pt\n", "end\nship 0\n"};
    static uint8_t dvi[4096];
    struct boxglue_job job = {0}; /* no copy is made of it, and each job is freed once */
    uint32_t status = boxglue_job_new(&job, NULL, 0);
    for (int at = 0; at < 2 && status == BOXGLUE_ACCEPTED; at++) {
        status = boxglue_job_commands(&job, pieces[at], strlen(pieces[at]));
        print_answers(&job);
    }
    if (status == BOXGLUE_ACCEPTED) status = boxglue_job_finish(&job);
    print_answers(&job);
    size_t size = 0;
    if (boxglue_job_take(&job, dvi, sizeof dvi, &size) != BOXGLUE_ACCEPTED) size = 0;
    boxglue_job_free(&job);
    if (status != BOXGLUE_ACCEPTED) return (int)status; /* where something was refused, no file is written */
    FILE *file = fopen("page.dvi", "wb");
    if (!file || fwrite(dvi, 1, size, file) != size || fclose(file)) return 1;
    return (int)status;
}
