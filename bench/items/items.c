/* Lists a galley of 100 paragraphs so many times: items METRICS COUNT. It prints how many rows there are. */
#include "boxglue.h"
#include <stdio.h>
#include <stdlib.h>

enum { PARAGRAPHS = 100, WORDS = 166 };

/* Writes the script of the galley. Returns its size. */
static size_t write_script(char *script) {
    char *at = script;
    at += sprintf(at, "font 0 x\nuse 0\nset hsize 300pt\nset firstsize 300pt\nset baselineskip 2pt\nset lineskiplimit -100pt\nvbox into 0\n");
    for (int paragraph = 0; paragraph < PARAGRAPHS; paragraph++) {
        at += sprintf(at, "par\ntext ");
        for (int word = 0; word < WORDS; word++) at += sprintf(at, "words ");
        at += sprintf(at, "\nend\n");
    }
    at += sprintf(at, "end\n");
    return (size_t)(at - script);
}

int main(int count, char **words) {
    static char script[1 << 20];
    static uint8_t metrics[1 << 16];
    struct boxglue_job job = {0};
    struct boxglue_item_sizes sizes = {0, 0};
    FILE *file = count == 3 ? fopen(words[1], "rb") : NULL;
    if (!file) return 1;
    struct boxglue_font font = {(const uint8_t *)"x", 1, metrics, fread(metrics, 1, sizeof metrics, file)};
    if (boxglue_job_new(&job, &font, 1) || boxglue_job_commands(&job, script, write_script(script))) return 2;
    boxglue_job_items(&job, 0, NULL, 0, NULL, 0, &sizes);
    struct boxglue_item *items = malloc(sizes.items * sizeof *items);
    for (int call = atoi(words[2]); items && call > 0; call--)
        if (boxglue_job_items(&job, 0, items, sizes.items, NULL, 0, &sizes)) return 3;
    printf("%zu\n", sizes.items);
    return 0;
}
