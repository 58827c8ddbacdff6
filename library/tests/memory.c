/* memory: lets each allocation of a call fail in turn. The call then has to end with CSSMIN_NO_MEMORY, and to leave its
   buffers and what it tells; or, where it can do with less, to do all that it does otherwise. All memory has to be back
   after every call. Link with -Wl,--wrap=malloc,--wrap=realloc,--wrap=free. Ends with 1 if that is not so. */
#include "cssmin.h"

#include <stddef.h>
#include <stdio.h>
#include <string.h>

enum { SIZE = 512 };

void *__real_malloc(size_t);
void *__real_realloc(void *, size_t);
void __real_free(void *);

/* how many allocations come before the one that fails, below 0 if none does; whether it came; how many blocks are held */
static long left = -1;
static int failed;
static long held;

static int fails(void) {
    if (left-- != 0) return 0;
    failed = 1;
    return 1;
}

void *__wrap_malloc(size_t size) {
    void *block = fails() ? NULL : __real_malloc(size);
    held += block != NULL;
    return block;
}

void *__wrap_realloc(void *block, size_t size) {
    void *moved = fails() ? NULL : __real_realloc(block, size);
    held += block == NULL && moved != NULL;
    return moved;
}

void __wrap_free(void *block) {
    held -= block != NULL;
    __real_free(block);
}

static const char sheet[] =
    ".a{top:0}.b .c{left:0}.a{right:0}.d>.e{top:0;left:0}@media print{.f{top:0}.g{top:0}.f{left:0}}.h:not(.i){top:0}"
    "#j #j{color:red}.a{top:0}@font-face{src:url(x)}[k^=l]{top:1px}.m::before{content:\"n\"}";

/* what a call gives: its buffers, and what it tells */
struct given {
    uint8_t out[SIZE], report[SIZE];
    struct cssmin_told told;
};

typedef uint32_t (*call)(struct given *given);

#define SHEET (const uint8_t *)sheet, sizeof sheet - 1

static uint32_t min(struct given *given) {
    return cssmin_min(SHEET, CSSMIN_NO_LIMIT, given->out, SIZE, &given->told);
}

static uint32_t min_report(struct given *given) {
    return cssmin_min_report(SHEET, CSSMIN_NO_LIMIT, given->out, SIZE, given->report, SIZE, &given->told);
}

static uint32_t cmp(struct given *given) {
    return cssmin_cmp((const uint8_t *)"a>.b", 4, (const uint8_t *)"#c .d", 5, CSSMIN_NO_LIMIT, given->out, SIZE,
                      &given->told);
}

static uint32_t lint(struct given *given) {
    return cssmin_lint(SHEET, CSSMIN_NO_LIMIT, given->out, SIZE, &given->told);
}

static struct given nothing(void) {
    struct given given;
    memset(given.out, 'z', SIZE);
    memset(given.report, 'z', SIZE);
    given.told = (struct cssmin_told){77, 77, 77, 77};
    return given;
}

static int same(const struct given *one, const struct given *other) {
    return !memcmp(one->out, other->out, SIZE) && !memcmp(one->report, other->report, SIZE) &&
           one->told.length == other->told.length && one->told.report_length == other->told.report_length &&
           one->told.fault_kind == other->told.fault_kind && one->told.fault_at == other->told.fault_at;
}

/* What a call ends with if the allocation of this number, from 0, fails. */
static uint32_t with_failure(call of, long number, struct given *given) {
    *given = nothing();
    failed = 0;
    left = number;
    uint32_t status = of(given);
    left = -1;
    return status;
}

/* Whether a call ends as it has to, whichever allocation fails. */
static int holds(call of) {
    struct given wanted, given, untouched = nothing();
    long number = 0, refused = 0;
    if (with_failure(of, -1, &wanted) != CSSMIN_DONE) return 0;
    do {
        uint32_t status = with_failure(of, number++, &given);
        if (held != 0 || (status != CSSMIN_DONE && status != CSSMIN_NO_MEMORY)) return 0;
        if (!same(&given, status == CSSMIN_DONE ? &wanted : &untouched)) return 0;
        refused += status == CSSMIN_NO_MEMORY;
    } while (failed);
    return refused > 0;
}

int main(void) {
    static const call calls[] = {min, min_report, cmp, lint};
    for (int i = 0; i < 4; i++) {
        if (!holds(calls[i])) {
            fprintf(stderr, "call %d went wrong where memory was short\n", i);
            return 1;
        }
    }
    return 0;
}
