/* calls SHEET..: the processor time of a call that merges a small sheet, and of one for each SHEET. Each is called for a
   fifth of a second, five times; the least of the five is printed, in microseconds a call. */
#include "cssmin.h"

#include <stdio.h>
#include <stdlib.h>
#include <time.h>

enum { SIZE = 1 << 20, ROUNDS = 5 };

static uint8_t sheet[SIZE], out[SIZE];

static double processor_time(void) {
    struct timespec time;
    clock_gettime(CLOCK_PROCESS_CPUTIME_ID, &time);
    return time.tv_sec + time.tv_nsec * 1e-9;
}

/* The seconds of a call, on average over those of one round. */
static double one_round(const uint8_t *bytes, size_t length) {
    struct cssmin_told told;
    double begun = processor_time(), took = 0;
    long calls = 0;
    while (took < 0.2) {
        if (cssmin_min(bytes, length, CSSMIN_NO_LIMIT, out, SIZE, &told) != CSSMIN_DONE) exit(1);
        calls++;
        took = processor_time() - begun;
    }
    return took / calls;
}

static void measure(const char *name, const uint8_t *bytes, size_t length) {
    double least = one_round(bytes, length);
    for (int i = 1; i < ROUNDS; i++) {
        double took = one_round(bytes, length);
        if (took < least) least = took;
    }
    printf("%-40s %8zu bytes %10.1f microseconds a call\n", name, length, least * 1e6);
}

int main(int count, char **names) {
    measure("a { color : red ; }", (const uint8_t *)"a { color : red ; }", 19);
    for (int i = 1; i < count; i++) {
        FILE *file = fopen(names[i], "rb");
        if (!file) {
            perror(names[i]);
            return 1;
        }
        size_t length = fread(sheet, 1, SIZE, file);
        fclose(file);
        measure(names[i], sheet, length);
    }
    return 0;
}
