/* threads KIB SHEET..: eight threads with a stack of so many KiB each merge every sheet, all at once. Each has to get the
   same texts. Ends with 1 if that is not so, with 2 if nothing could be tried. */
#include "cssmin.h"

#include <pthread.h>
#include <stdio.h>
#include <stdlib.h>

enum { COUNT = 8, SIZE = 1 << 20, BUDGET = 20000 };

static int sheets;
static char **names;

struct work {
    uint8_t *sheet, *text;
    uint64_t sum;
};

static void add(struct work *work, uint64_t value) {
    work->sum = (work->sum ^ value) * 1099511628211u;
}

static void merge(struct work *work, const char *name) {
    struct cssmin_told told = {0, 0, 0, 0};
    FILE *file = fopen(name, "rb");
    if (!file) exit(2);
    size_t length = fread(work->sheet, 1, SIZE, file);
    fclose(file);
    uint32_t status = cssmin_min(work->sheet, length, BUDGET, work->text, length, &told);
    add(work, status);
    for (size_t i = 0; i < told.length; i++) add(work, work->text[i]);
}

static void *run(void *given) {
    struct work *work = given;
    for (int i = 0; i < sheets; i++) merge(work, names[i]);
    return NULL;
}

/* Runs all threads, and answers whether each got the same texts. */
static int run_all(struct work *works, size_t stack) {
    pthread_t threads[COUNT];
    pthread_attr_t how;
    if (pthread_attr_init(&how) || pthread_attr_setstacksize(&how, stack)) exit(2);
    for (int i = 0; i < COUNT; i++)
        if (pthread_create(&threads[i], &how, run, &works[i])) exit(2);
    for (int i = 0; i < COUNT; i++) pthread_join(threads[i], NULL);
    pthread_attr_destroy(&how);
    for (int i = 1; i < COUNT; i++)
        if (works[i].sum != works[0].sum) return 0;
    return 1;
}

int main(int count, char **words) {
    struct work works[COUNT];
    if (count < 3) return 2;
    size_t stack = strtoul(words[1], NULL, 10) << 10;
    names = words + 2;
    sheets = count - 2;
    for (int i = 0; i < COUNT; i++)
        if (!(works[i].sheet = malloc(SIZE)) || !(works[i].text = malloc(SIZE))) return 2;
    for (int i = 0; i < COUNT; i++) works[i].sum = 0;
    int are_same = run_all(works, stack);
    for (int i = 0; i < COUNT; i++) {
        free(works[i].sheet);
        free(works[i].text);
    }
    if (!are_same) fprintf(stderr, "threads got different texts\n");
    return are_same ? 0 : 1;
}
