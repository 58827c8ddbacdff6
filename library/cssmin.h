/* cssmin for C: merges the rules of a style sheet where no page can tell.

   Link with -lcssmin (`pkg-config --cflags --libs cssmin`). The library needs the C library alone, and a processor of
   x86-64-v2.

   The comment of each call says what is proved of it, status by status, for callers that keep these rules. Nothing
   checks a caller.

   - `NAME, NAME_length` is a buffer of so many bytes. The length may be 0. The pointer is never null: give "" for an
     empty buffer.
   - `told` is never null.
   - A buffer that is written to overlaps no other buffer of the call, nor `told`. Inputs may overlap each other.
   - While a call runs, nobody else writes to its inputs, and nobody else uses what it writes to.
   - No call comes from a signal handler, nor from the forked child of a process with threads.

   A call keeps nothing when it ends, so calls may run in many threads at once. It takes memory by malloc and realloc, and
   gives all of it back by free. It needs at most 256 KiB of stack. This is tried, and not proved. */
#ifndef CSSMIN_H
#define CSSMIN_H

#include <stddef.h>
#include <stdint.h>

#ifdef __cplusplus
extern "C" {
#endif

/* What a call ends with. They are the exit statuses of the program, and one more. */
enum cssmin_status {
    CSSMIN_DONE = 0,
    CSSMIN_REFUSED = 3,   /* the sheet has a fault */
    CSSMIN_NO_MEMORY = 6, /* malloc or realloc gave none */
    CSSMIN_NO_ROOM = 12   /* a text is longer than its buffer */
};

/* Why a sheet is refused: `refused: TooLong at N` of the program, and so on. */
enum cssmin_fault {
    CSSMIN_TOO_LONG = 1,       /* it has more than 1,048,576 bytes */
    CSSMIN_NOT_UTF8 = 2,       /* it is not UTF-8 */
    CSSMIN_BAD_STRING = 3,     /* a newline is inside a string, without a backslash before it */
    CSSMIN_BAD_URL = 4,        /* a url has a code point that no url may have */
    CSSMIN_END_INSIDE = 5,     /* it ends inside a comment, a string, a url, an escape or an open bracket */
    CSSMIN_TOO_DEEP = 6,       /* more than 256 brackets are open at once */
    CSSMIN_NAMESPACE = 7,      /* a rule @namespace changes what every type selector means */
    CSSMIN_TOO_MANY_ITEMS = 8, /* it has more than 16,384 items */
    CSSMIN_TOO_MANY_PAIRS = 9  /* its style rules have more than 262,144 pairs of a selector and a declaration */
};

/* A budget is how many clauses may be learned for a pair of selectors before the search for an answer gives up. Pairs
   that it is spent on block a merge. With this one the search never gives up. Time has no bound by any budget. */
#define CSSMIN_NO_LIMIT UINT32_MAX

/* What a call tells. The comment of the call says which fields it sets at which status. All others stay. */
struct cssmin_told {
    size_t length;        /* of the text, in bytes */
    size_t report_length; /* of the report, in bytes */
    uint32_t fault_kind;  /* one of cssmin_fault */
    uint32_t fault_at;    /* where the fault is, in bytes from 0 */
};

/* The version of the library: 10,000 times its first number, 100 times the second, and the third. */
uint32_t cssmin_version(void);

/* Merges a sheet, as `cssmin min` does. A buffer `out` as long as the sheet is always long enough.

   CSSMIN_DONE       `out` begins with the text, and what follows it stays. `length` is that of the text. The text has
                     the same winners as the sheet on every legal page, and no more bytes.
   CSSMIN_REFUSED    `fault_kind` and `fault_at` are those of the first fault of the sheet. `out` stays.
   CSSMIN_NO_ROOM    `length` is that of the text, and `out` is shorter. `out` stays.
   CSSMIN_NO_MEMORY  `out` and `told` stay. */
uint32_t cssmin_min(const uint8_t *sheet, size_t sheet_length, uint32_t budget,
                    uint8_t *out, size_t out_length, struct cssmin_told *told);

/* The same, with the report of `cssmin min --report` in `report`.

   CSSMIN_DONE       As above. `report` begins with the report, what follows it stays, and `report_length` is its length.
   CSSMIN_REFUSED    As above. `report` stays.
   CSSMIN_NO_ROOM    `length` and `report_length` are those of both texts. One of the buffers is shorter than its text.
                     Both stay.
   CSSMIN_NO_MEMORY  `out`, `report` and `told` stay. */
uint32_t cssmin_min_report(const uint8_t *sheet, size_t sheet_length, uint32_t budget,
                           uint8_t *out, size_t out_length, uint8_t *report, size_t report_length,
                           struct cssmin_told *told);

/* Compares two selectors, as `cssmin cmp LEFT RIGHT` does.

   CSSMIN_DONE       `out` begins with the lines of the answer, and what follows them stays. `length` is theirs.
   CSSMIN_NO_ROOM    `length` is that of the lines, and `out` is shorter. `out` stays.
   CSSMIN_NO_MEMORY  `out` and `told` stay. */
uint32_t cssmin_cmp(const uint8_t *left, size_t left_length, const uint8_t *right, size_t right_length,
                    uint32_t budget, uint8_t *out, size_t out_length, struct cssmin_told *told);

/* Names what can go from a sheet, as `cssmin lint` does.

   CSSMIN_DONE       `out` begins with a line for each finding, and what follows them stays. `length` is theirs: 0 where
                     nothing is found.
   CSSMIN_REFUSED, CSSMIN_NO_ROOM and CSSMIN_NO_MEMORY as for cssmin_min, but that no length of `out` is always enough. */
uint32_t cssmin_lint(const uint8_t *sheet, size_t sheet_length, uint32_t budget,
                     uint8_t *out, size_t out_length, struct cssmin_told *told);

#ifdef __cplusplus
}
#endif

#endif
