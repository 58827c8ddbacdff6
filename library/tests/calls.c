/* calls [SHEET WANTED].. : tries each call at each of its statuses, and then compares what each SHEET is merged to with
   the file WANTED. Prints each line that went wrong. Ends with 1 if there is one. */
#include "cssmin.h"

#include <stdio.h>
#include <stdlib.h>
#include <string.h>

#define TEXT(s) (const uint8_t *)(s), sizeof(s) - 1
#define WANT(fact) want((fact), __LINE__, #fact)
#define UNTOLD 77

enum { SIZE = 1 << 20 };

static int wrong;
static uint8_t out[256], report[256];
static struct cssmin_told told;

static void want(int fact, int line, const char *text) {
    if (!fact) {
        wrong++;
        fprintf(stderr, "%s:%d: %s\n", __FILE__, line, text);
    }
}

/* Fills both buffers and all fields, so that a change shows. */
static void begin(void) {
    memset(out, 'z', sizeof out);
    memset(report, 'z', sizeof report);
    told = (struct cssmin_told){UNTOLD, UNTOLD, UNTOLD, UNTOLD};
}

/* Whether a buffer begins with a text, and is as it was from there on. */
static int holds(const uint8_t *buffer, const char *text) {
    size_t at = strlen(text);
    if (memcmp(buffer, text, at)) return 0;
    while (at < sizeof out)
        if (buffer[at++] != 'z') return 0;
    return 1;
}

static int tells(size_t length, size_t report_length, uint32_t kind, uint32_t at) {
    return told.length == length && told.report_length == report_length && told.fault_kind == kind && told.fault_at == at;
}

static void merges_a_sheet(void) {
    begin();
    WANT(cssmin_min(TEXT("a { color : red ; }"), CSSMIN_NO_LIMIT, out, 19, &told) == CSSMIN_DONE);
    WANT(holds(out, "a{color:red}") && tells(12, UNTOLD, UNTOLD, UNTOLD));
    begin();
    WANT(cssmin_min(TEXT(".a{top:0}.b{left:0}.a{top:0;right:0}"), CSSMIN_NO_LIMIT, out, 36, &told) == CSSMIN_DONE);
    WANT(holds(out, ".b{left:0}.a{top:0;right:0}") && tells(27, UNTOLD, UNTOLD, UNTOLD));
    begin();
    WANT(cssmin_min(TEXT(""), CSSMIN_NO_LIMIT, out, 0, &told) == CSSMIN_DONE);
    WANT(holds(out, "") && tells(0, UNTOLD, UNTOLD, UNTOLD));
}

static void wants_room_for_the_text_alone(void) {
    begin();
    WANT(cssmin_min(TEXT("a { color : red ; }"), CSSMIN_NO_LIMIT, out, 12, &told) == CSSMIN_DONE);
    WANT(holds(out, "a{color:red}") && tells(12, UNTOLD, UNTOLD, UNTOLD));
    begin();
    WANT(cssmin_min(TEXT("a { color : red ; }"), CSSMIN_NO_LIMIT, out, 11, &told) == CSSMIN_NO_ROOM);
    WANT(holds(out, "") && tells(12, UNTOLD, UNTOLD, UNTOLD));
}

/* A sheet is refused at the first byte of what is wrong (CSS Syntax 3, section 4). */
static void refuses_a_sheet(void) {
    static uint8_t long_sheet[SIZE + 1];
    begin();
    WANT(cssmin_min(TEXT("a { content: \"no end\n }"), CSSMIN_NO_LIMIT, out, 30, &told) == CSSMIN_REFUSED);
    WANT(holds(out, "") && tells(UNTOLD, UNTOLD, CSSMIN_BAD_STRING, 13));
    begin();
    WANT(cssmin_min(TEXT("a{}\377"), CSSMIN_NO_LIMIT, out, 30, &told) == CSSMIN_REFUSED);
    WANT(holds(out, "") && tells(UNTOLD, UNTOLD, CSSMIN_NOT_UTF8, 3));
    begin();
    WANT(cssmin_min(long_sheet, sizeof long_sheet, CSSMIN_NO_LIMIT, out, 0, &told) == CSSMIN_REFUSED);
    WANT(told.fault_kind == CSSMIN_TOO_LONG);
    begin();
    WANT(cssmin_min_report(TEXT("a{"), CSSMIN_NO_LIMIT, out, 2, report, 256, &told) == CSSMIN_REFUSED);
    WANT(holds(out, "") && holds(report, "") && tells(UNTOLD, UNTOLD, CSSMIN_END_INSIDE, 1));
    begin();
    WANT(cssmin_lint(TEXT("@namespace url(x);"), CSSMIN_NO_LIMIT, out, 256, &told) == CSSMIN_REFUSED);
    WANT(holds(out, "") && tells(UNTOLD, UNTOLD, CSSMIN_NAMESPACE, 0));
}

/* An `a` can have both classes, so neither rule of `.a` passes `.b`. */
static void reports(void) {
    const char *sheet = ".a{top:0}.b{top:1px}.a{top:2px}";
    const char *lines = "items 3 3\nbytes 31 31\nsteps 0\nblocked JoinSelUp 1 3 meet 2\nblocked JoinSelDown 1 3 meet 2\n";
    const uint8_t *bytes = (const uint8_t *)sheet;
    size_t length = strlen(lines);
    begin();
    WANT(cssmin_min_report(bytes, 31, CSSMIN_NO_LIMIT, out, 31, report, length, &told) == CSSMIN_DONE);
    WANT(holds(out, sheet) && holds(report, lines) && tells(31, length, UNTOLD, UNTOLD));
    begin();
    WANT(cssmin_min_report(bytes, 31, CSSMIN_NO_LIMIT, out, 31, report, length - 1, &told) == CSSMIN_NO_ROOM);
    WANT(holds(out, "") && holds(report, "") && tells(31, length, UNTOLD, UNTOLD));
    begin();
    WANT(cssmin_min_report(bytes, 31, CSSMIN_NO_LIMIT, out, 30, report, length, &told) == CSSMIN_NO_ROOM);
    WANT(holds(out, "") && holds(report, "") && tells(31, length, UNTOLD, UNTOLD));
}

static void compares_selectors(void) {
    begin();
    WANT(cssmin_cmp(TEXT("a:link"), TEXT("a:visited"), CSSMIN_NO_LIMIT, out, 9, &told) == CSSMIN_DONE);
    WANT(holds(out, "disjoint\n") && tells(9, UNTOLD, UNTOLD, UNTOLD));
    begin();
    WANT(cssmin_cmp(TEXT("a"), TEXT(".b"), CSSMIN_NO_LIMIT, out, 256, &told) == CSSMIN_DONE);
    WANT(holds(out, "overlap\nchild 0 pseudo none\n0 1 - x\n1 1 * a class=b\n"));
    begin();
    WANT(cssmin_cmp(TEXT("a"), TEXT("a,b"), CSSMIN_NO_LIMIT, out, 256, &told) == CSSMIN_DONE);
    WANT(holds(out, "outside 10\n") && tells(11, UNTOLD, UNTOLD, UNTOLD));
    begin();
    WANT(cssmin_cmp(TEXT("a:link"), TEXT("a:visited"), CSSMIN_NO_LIMIT, out, 8, &told) == CSSMIN_NO_ROOM);
    WANT(holds(out, "") && tells(9, UNTOLD, UNTOLD, UNTOLD));
}

static void finds_what_can_go(void) {
    begin();
    WANT(cssmin_lint(TEXT("#a #a{top:0}"), CSSMIN_NO_LIMIT, out, 256, &told) == CSSMIN_DONE);
    WANT(holds(out, "1:1 dead #a #a\n") && tells(15, UNTOLD, UNTOLD, UNTOLD));
    begin();
    WANT(cssmin_lint(TEXT("#a #a{top:0}"), CSSMIN_NO_LIMIT, out, 14, &told) == CSSMIN_NO_ROOM);
    WANT(holds(out, "") && tells(15, UNTOLD, UNTOLD, UNTOLD));
    begin();
    WANT(cssmin_lint(TEXT("a{top:0}"), CSSMIN_NO_LIMIT, out, 0, &told) == CSSMIN_DONE);
    WANT(holds(out, "") && tells(0, UNTOLD, UNTOLD, UNTOLD));
}

static size_t read_file(const char *name, uint8_t *bytes) {
    FILE *file = fopen(name, "rb");
    if (!file) {
        perror(name);
        exit(2);
    }
    size_t length = fread(bytes, 1, SIZE, file);
    fclose(file);
    return length;
}

static void merges_a_file(const char *name, const char *wanted) {
    static uint8_t sheet[SIZE], text[SIZE], same[SIZE];
    size_t length = read_file(name, sheet);
    uint32_t status = cssmin_min(sheet, length, CSSMIN_NO_LIMIT, text, length, &told);
    if (status == CSSMIN_DONE && told.length == read_file(wanted, same) && !memcmp(text, same, told.length)) return;
    wrong++;
    fprintf(stderr, "%s: status %u, or another text than %s\n", name, status, wanted);
}

int main(int count, char **words) {
    if (count % 2 == 0) return 2;
    WANT(cssmin_version() == WANTED_VERSION);
    merges_a_sheet();
    wants_room_for_the_text_alone();
    refuses_a_sheet();
    reports();
    compares_selectors();
    finds_what_can_go();
    for (int i = 1; i < count; i += 2) merges_a_file(words[i], words[i + 1]);
    return wrong ? 1 : 0;
}
