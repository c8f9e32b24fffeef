/* Order 14's calls, over the library or over the second port in C.

     sheet calls               refusals, every row as it was at them, and sheets in two groups: prints how many checks there were
     sheet text FILE ..        the lines of the sheet of these files, added in two groups and joined, the second begun at the middle one */
#include "spindle.h"
#include <stdio.h>
#include <stdlib.h>
#include <string.h>

typedef struct {
    SpindleTotals totals;
    uint64_t dual[SPINDLE_SHEET_PLACES], primal[SPINDLE_SHEET_PLACES];
    uint8_t skipped[SPINDLE_SHEET_FILES];
} Sheet;

static unsigned long checks, failures;

static void check(int holds, const char *what)
{
    checks++;
    if (!holds) {
        failures++;
        printf("not so: %s\n", what);
    }
}

static SpindleTotals add(Sheet *s, const uint8_t *file, size_t n)
{
    return spindle_sheet_add(s->totals, s->dual, SPINDLE_SHEET_PLACES, s->primal, SPINDLE_SHEET_PLACES, s->skipped, SPINDLE_SHEET_FILES,
                             file, n);
}
static SpindleTotals join(Sheet *s, const Sheet *t)
{
    return spindle_sheet_join(s->totals, s->dual, SPINDLE_SHEET_PLACES, s->primal, SPINDLE_SHEET_PLACES, s->skipped, SPINDLE_SHEET_FILES,
                              t->totals, t->dual, SPINDLE_SHEET_PLACES, t->primal, SPINDLE_SHEET_PLACES, t->skipped, SPINDLE_SHEET_FILES);
}
static int same(const Sheet *a, const Sheet *b)
{
    return !memcmp(a->dual, b->dual, sizeof a->dual) && !memcmp(a->primal, b->primal, sizeof a->primal)
           && !memcmp(a->skipped, b->skipped, sizeof a->skipped);
}
/* a refusal: its number, zeros, and no row changed */
static void refused(SpindleTotals t, uint32_t code, const Sheet *now, const Sheet *before, const char *what)
{
    SpindleTotals zeros;
    memset(&zeros, 0, sizeof zeros);
    zeros.code = code;
    check(!memcmp(&t, &zeros, sizeof t), what);
    check(same(now, before), what);
}

/* a trace of one search of the exponential cone that stopped at the start */
static size_t one_trace(uint8_t *bytes, size_t room, double dual, uint32_t tests)
{
    double v[3] = {0, 1, 1};
    SpindleCone cone = {.kind = SPINDLE_EXPONENTIAL};
    SpindleSettings settings = {1, 0.5, 0.0001};
    SpindleSteps steps = {.dual_step = dual, .dual_count = tests, .primal_step = 0.75, .primal_count = 2};
    size_t used = spindle_trace_create(bytes, room).length;
    return spindle_trace_append(bytes, room, used, cone, 0, settings, v, 3, v, 3, v, 3, v, 3, steps).length;
}

static int calls(void)
{
    static Sheet s, t, before;
    static uint8_t bytes[400], text[SPINDLE_SHEET_TEXT + 1], old[SPINDLE_SHEET_TEXT + 1];
    size_t n = one_trace(bytes, sizeof bytes, 0.125, 42);
    check(n > 20, "a trace");

    /* one file, and the same one skipped */
    s.totals = add(&s, bytes, n);
    check(s.totals.code == 0 && s.totals.files == 1 && s.totals.records == 1, "one file");
    check(s.dual[1024 - 3] == 1 && s.primal[1024 - 1] == 1, "exponents -3 and -1");
    check(s.totals.dual.size == 43 && s.totals.dual.file == 1 && s.totals.dual.at == 0, "the largest");
    s.totals = add(&s, bytes, n - 1);
    check(s.totals.code == 0 && s.totals.files == 2 && s.totals.records == 1 && s.skipped[1] == 1 && s.skipped[0] == 0,
          "a skipped file has its number");

    /* two groups; on a tie the earlier stays, and a later larger one moves up */
    t.totals = add(&t, bytes, n);
    before = s;
    s.totals = join(&s, &t);
    check(s.totals.code == 0 && s.totals.files == 3 && s.totals.records == 2 && s.totals.dual.file == 1, "a tie");
    check(s.dual[1021] == 2 && s.skipped[1] == 1 && s.skipped[2] == 0, "counts are summed");
    n = one_trace(bytes, sizeof bytes, 4.9e-324, 50);
    t.totals = add(&t, bytes, n);
    s = before;
    s.totals = join(&s, &t);
    check(s.totals.dual.size == 51 && s.totals.dual.file == 4 && s.dual[1] == 1, "the second's file number moves up");

    /* refusals in their order, and every row as it was */
    before = s;
    for (int k = 0; k < 5; k++) {
        size_t d = SPINDLE_SHEET_PLACES, p = SPINDLE_SHEET_PLACES, f = SPINDLE_SHEET_FILES;
        if (k == 0) d--;
        if (k == 1) p--;
        if (k == 2) f = s.totals.files - 1;
        if (k == 3) d = 0;
        if (k == 4) p = 0, f = 0;
        refused(spindle_sheet_add(s.totals, s.dual, d, s.primal, p, s.skipped, f, bytes, n), 2, &s, &before, "2 of add");
        refused(spindle_sheet_join(s.totals, s.dual, d, s.primal, p, s.skipped, f, t.totals, t.dual, SPINDLE_SHEET_PLACES, t.primal,
                                   SPINDLE_SHEET_PLACES, t.skipped, SPINDLE_SHEET_FILES),
                2, &s, &before, "2 of join, the first");
        if (k != 2)
            refused(spindle_sheet_join(s.totals, s.dual, SPINDLE_SHEET_PLACES, s.primal, SPINDLE_SHEET_PLACES, s.skipped,
                                       SPINDLE_SHEET_FILES, t.totals, t.dual, d, t.primal, p, t.skipped, f),
                    2, &s, &before, "2 of join, the second");
    }
    refused(spindle_sheet_add(s.totals, s.dual, SPINDLE_SHEET_PLACES, s.primal, SPINDLE_SHEET_PLACES, s.skipped, s.totals.files, bytes, n),
            8, &s, &before, "8 without a flag");
    Sheet u = t;
    u.totals.dual.file = u.totals.files + 1;
    refused(join(&s, &u), 9, &s, &before, "9: a largest behind the files");
    u.totals.records = UINT64_MAX;
    refused(join(&s, &u), 9, &s, &before, "9 before 8");
    u.totals.dual.file = u.totals.files;
    refused(join(&s, &u), 8, &s, &before, "8: records");
    u = t;
    u.totals.dual.file = 0;
    refused(join(&s, &u), 9, &s, &before, "9: a dual largest in file 0");
    u = t;
    u.totals.primal.file = 0;
    refused(join(&s, &u), 9, &s, &before, "9: a primal largest in file 0");

    /* one of size 0 is none, in whatever file, and is not moved up */
    u = t;
    u.totals.dual = u.totals.primal = (SpindleLargest){0, UINT64_MAX, 7};
    SpindleTotals joined = join(&s, &u);
    check(joined.code == 0 && joined.files == before.totals.files + 2, "a largest of size 0");
    check(!memcmp(&joined.dual, &before.totals.dual, sizeof(SpindleLargest))
              && !memcmp(&joined.primal, &before.totals.primal, sizeof(SpindleLargest)),
          "the first's largest");
    static Sheet none;
    joined = join(&none, &u);
    check(joined.code == 0 && joined.dual.size == 0 && joined.dual.file == 0 && joined.dual.at == 0 && joined.primal.file == 0,
          "none of either");
    s = before;
    u = t;
    u.totals.files = SPINDLE_SHEET_FILES;
    refused(join(&s, &u), 8, &s, &before, "8: 1,001 files and more");
    u = t;
    u.primal[2047] = UINT64_MAX;
    s.primal[2047] = before.primal[2047] = 1;
    refused(join(&s, &u), 8, &s, &before, "8: a count");
    s.primal[2047] = before.primal[2047] = 0;
    u.dual[0] = UINT64_MAX;
    s.dual[0] = before.dual[0] = 1;
    refused(join(&s, &u), 8, &s, &before, "8: a count of the dual side");
    s.dual[0] = before.dual[0] = 0;
    check(join(&s, &u).code == 0 && s.primal[2047] == UINT64_MAX, "the largest count");

    /* the text, and what lies behind it */
    memset(text, 0xa5, sizeof text);
    memcpy(old, text, sizeof text);
    s = before;
    s.primal[2047] = 0;
    SpindlePrinted short_one = spindle_sheet_text(text, SPINDLE_SHEET_TEXT - 1, s.totals, s.dual, SPINDLE_SHEET_PLACES, s.primal,
                                                  SPINDLE_SHEET_PLACES, s.skipped, SPINDLE_SHEET_FILES);
    check(short_one.code == 8 && short_one.length == 0 && !memcmp(text, old, sizeof text), "8: no room for every text");
    SpindleTotals many = s.totals;
    many.files = SPINDLE_SHEET_FILES + 1;
    static uint8_t flags[SPINDLE_SHEET_FILES + 1];
    check(spindle_sheet_text(text, 0, many, s.dual, SPINDLE_SHEET_PLACES, s.primal, SPINDLE_SHEET_PLACES, flags, sizeof flags).code == 9,
          "9: 1,001 files");
    check(
        spindle_sheet_text(text, 0, many, s.dual, SPINDLE_SHEET_PLACES, s.primal, SPINDLE_SHEET_PLACES, s.skipped, SPINDLE_SHEET_FILES).code
            == 2,
        "2 before 9");
    SpindlePrinted printed = spindle_sheet_text(text, sizeof text, s.totals, s.dual, SPINDLE_SHEET_PLACES, s.primal, SPINDLE_SHEET_PLACES,
                                                s.skipped, SPINDLE_SHEET_FILES);
    const char *lines = "skipped file 2\ndual records 3\ndual zero 0\ndual exp -3 2\ndual subnormal 1\ndual most 50 file 4 at 0\n"
                        "primal records 3\nprimal zero 0\nprimal exp -1 3\nprimal subnormal 0\nprimal most 2 file 1 at 0\n";
    check(printed.code == 0 && printed.length == strlen(lines) && !memcmp(text, lines, strlen(lines)), "the text");
    check(!memcmp(text + printed.length, old + printed.length, sizeof text - printed.length), "behind the text");

    /* 1,000 files, and one more */
    memset(&s, 0, sizeof s);
    for (int i = 0; i < SPINDLE_SHEET_FILES; i++) s.totals = add(&s, bytes, i % 2 ? n : 0);
    check(s.totals.code == 0 && s.totals.files == 1000 && s.totals.records == 500 && s.totals.dual.file == 2, "1,000 files");
    before = s;
    refused(add(&s, bytes, n), 8, &s, &before, "8: 1,001 files");
    printf("%lu\n", checks);
    return failures != 0;
}

static int text_of(char **files, int count)
{
    static Sheet groups[2];
    static uint8_t file[65537], text[SPINDLE_SHEET_TEXT];
    for (int i = 0; i < count; i++) {
        FILE *in = fopen(files[i], "rb");
        if (!in) return 2;
        size_t n = fread(file, 1, sizeof file, in);
        fclose(in);
        Sheet *s = &groups[2 * i >= count];
        s->totals = add(s, file, n);
        if (s->totals.code) return 1;
    }
    groups[0].totals = join(&groups[0], &groups[1]);
    Sheet *s = &groups[0];
    SpindlePrinted p = spindle_sheet_text(text, sizeof text, s->totals, s->dual, SPINDLE_SHEET_PLACES, s->primal, SPINDLE_SHEET_PLACES,
                                          s->skipped, SPINDLE_SHEET_FILES);
    return s->totals.code || p.code || fwrite(text, 1, p.length, stdout) != p.length;
}

int main(int argc, char **argv)
{
    if (argc == 2 && !strcmp(argv[1], "calls")) return calls();
    if (argc > 2 && !strcmp(argv[1], "text")) return text_of(argv + 2, argc - 2);
    fprintf(stderr, "usage: sheet calls | sheet text FILE ..\n");
    return 2;
}
