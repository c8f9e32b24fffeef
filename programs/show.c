/* show FILE [OFFSET]: the records of a trace for people; `spindle show` and `spindle csv` run it.

       show FILE                          every record of the trace
       show FILE OFFSET                   the one that begins at this byte, as replay's line `at OFFSET` names it
       show --edition E FILE [OFFSET]     the same of a file that lost its list and trailer: its records, from byte 0, by the layout of
                                          edition 1, 2 or 3. A whole trace tells its edition; with another E it is refused.
       show --csv FILE                    every record as a line of CSV, for spreadsheets; a vector's numbers stand in one field

   Each record is shown with what was recorded and with what its search gives now. A number is written so that reading it gives the same
   double; only a NaN's payload is not written.
   Exit status 0: all records that were shown are the same now; 1: one differs, or bytes behind the records were not shown; 2: bad usage,
   or the file cannot be read, or standard output not written; 3: the file is no trace, of another edition than E, or larger than any
   trace; or no record begins at OFFSET, or at byte 0 by the layout of edition E. */
#include <spindle.h>
#include <errno.h>
#include <stdio.h>
#include <stdlib.h>
#include <string.h>

enum { SAME = 0, DIFFERS = 1, USAGE = 2, REFUSED = 3 };

/* The largest trace: 4,096 records of kind 3 with 64 numbers, of edition 3, with flag 0; list and trailer. */
enum { RECORD = 8 + 12 + 4 + 8 * 32 + 8 + 4 + 16 + 4 * 8 * 64 + 24, LARGEST = 4096 * (RECORD + 8) + 20 };

/* One byte more, so that a larger file shows. */
static uint8_t bytes[LARGEST + 1];

static const char *called = "show";

static int usage(void)
{
    fputs("usage: spindle show [--edition E] FILE [OFFSET]\n", stderr);
    return USAGE;
}

/* Reads the whole file; what fails is told. */
static int read_file(const char *name, size_t *length)
{
    *length = 0;
    errno = 0;
    FILE *file = fopen(name, "rb");
    if (file) *length = fread(bytes, 1, sizeof bytes, file);
    if (!file || ferror(file)) {
        fprintf(stderr, "%s: %s: %s\n", called, name, strerror(errno));
        return USAGE;
    }
    fclose(file);
    if (*length > LARGEST) {
        fprintf(stderr, "%s: %s: too large: a trace has at most %d bytes\n", called, name, LARGEST);
        return REFUSED;
    }
    return SAME;
}

static void print_row(const char *name, const double *numbers, size_t n)
{
    printf("  %-9s", name);
    for (size_t i = 0; i < n; i++) printf(" %.17g", numbers[i]);
    printf("\n");
}

static const char *kind_name(uint32_t kind)
{
    switch (kind) {
    case SPINDLE_EXPONENTIAL: return "exponential cone";
    case SPINDLE_POWER: return "power cone";
    default: return "generalized power cone";
    }
}

static size_t exponents(SpindleCone cone) { return cone.kind == SPINDLE_EXPONENTIAL ? 0 : cone.kind == SPINDLE_POWER ? 1 : cone.dim1; }

static SpindleSteps search_now(const SpindleRecorded *record)
{
    double dual_point[64], primal_point[64];
    size_t n = record->cone.dim1 + record->cone.dim2;
    return spindle_step_length(record->cone, record->dz, n, record->ds, n, record->z, n, record->s, n, dual_point, n, primal_point, n,
                               record->settings);
}

static bool equal_bits(double a, double b) { return !memcmp(&a, &b, sizeof a); }

/* As a replay compares them: a search that is refused now differs, whatever was recorded. */
static bool same_now(const SpindleRecorded *record, SpindleSteps now)
{
    SpindleSteps then = record->steps;
    return now.code == SPINDLE_DONE && equal_bits(now.dual_step, then.dual_step) && equal_bits(now.primal_step, then.primal_step)
           && now.dual_count == then.dual_count && now.primal_count == then.primal_count;
}

static void print_steps(const char *name, SpindleSteps steps)
{
    printf("  %-9s dual step %.17g, tests %lu; primal step %.17g, tests %lu\n", name, steps.dual_step, (unsigned long)steps.dual_count,
           steps.primal_step, (unsigned long)steps.primal_count);
}

static void print_record(const SpindleRecorded *record, uint32_t edition, SpindleSteps now)
{
    size_t n = record->cone.dim1 + record->cone.dim2;
    printf("at %llu: %s, rule %lu", (unsigned long long)record->at, kind_name(record->cone.kind), (unsigned long)record->cone.rule);
    if (record->cone.kind == SPINDLE_GENERALIZED)
        printf(", dims %lu and %lu", (unsigned long)record->cone.dim1, (unsigned long)record->cone.dim2);
    printf("\n");
    if (exponents(record->cone)) print_row("exponents", record->cone.exps, exponents(record->cone));
    printf("  %-9s start %.17g, step %.17g, smallest %.17g%s", "settings", record->settings.start, record->settings.step,
           record->settings.smallest, record->flag ? "" : "\n");
    if (record->flag) printf(" (the default of edition %lu)\n", (unsigned long)edition);
    print_row("dz", record->dz, n);
    print_row("ds", record->ds, n);
    print_row("z", record->z, n);
    print_row("s", record->s, n);
    print_steps("recorded", record->steps);
    if (now.code != SPINDLE_DONE) {
        SpindleTrouble trouble = spindle_cone_trouble(record->cone);
        printf("  %-9s refused with %lu: %s\n", "now", (unsigned long)now.code, trouble.text[0] ? trouble.text : spindle_meaning(now.code));
    } else {
        print_steps("now", now);
    }
    printf("  %s\n", same_now(record, now) ? "the same" : "DIFFERS");
}

static void print_field(const double *numbers, size_t n)
{
    for (size_t i = 0; i < n; i++) printf("%s%.17g", i ? " " : "", numbers[i]);
}

static void print_csv_head(void)
{
    printf("offset,kind,dim1,dim2,rule,exponents,flag,start,step,smallest,dual_step,dual_count,primal_step,primal_count,dz,ds,z,s,"
           "now_code,now_dual_step,now_dual_count,now_primal_step,now_primal_count,same\n");
}

static void print_csv_record(const SpindleRecorded *record, SpindleSteps now)
{
    const double *vectors[4] = {record->dz, record->ds, record->z, record->s};
    SpindleSteps then = record->steps;
    printf("%llu,%lu,%lu,%lu,%lu,", (unsigned long long)record->at, (unsigned long)record->cone.kind, (unsigned long)record->cone.dim1,
           (unsigned long)record->cone.dim2, (unsigned long)record->cone.rule);
    print_field(record->cone.exps, exponents(record->cone));
    printf(",%lu,%.17g,%.17g,%.17g,%.17g,%lu,%.17g,%lu", (unsigned long)record->flag, record->settings.start, record->settings.step,
           record->settings.smallest, then.dual_step, (unsigned long)then.dual_count, then.primal_step, (unsigned long)then.primal_count);
    for (int v = 0; v < 4; v++) {
        printf(",");
        print_field(vectors[v], record->cone.dim1 + record->cone.dim2);
    }
    printf(",%lu,%.17g,%lu,%.17g,%lu,%s", (unsigned long)now.code, now.dual_step, (unsigned long)now.dual_count, now.primal_step,
           (unsigned long)now.primal_count, same_now(record, now) ? "yes" : "no");
    printf("\n");
}

/* Where the records of the file end, and their edition: the list of a whole trace, or the file's end where the caller names the edition. */
static int bounds(const char *name, size_t length, uint32_t named, uint32_t *edition, size_t *end)
{
    SpindleOpened opened = spindle_trace_open(bytes, length);
    if (opened.code == SPINDLE_DONE) {
        *edition = opened.edition;
        *end = length - 20 - 8 * (size_t)opened.records;
        if (!named || named == opened.edition) return SAME;
        fprintf(stderr, "%s: %s: a whole trace of edition %lu, not %lu\n", called, name, (unsigned long)opened.edition,
                (unsigned long)named);
        return REFUSED;
    }
    if (named) {
        *edition = named;
        *end = length;
        return SAME;
    }
    fprintf(stderr, "%s: %s: no whole trace; if it lost its end: spindle show --edition 3 FILE, or spindle rescue\n", called, name);
    return REFUSED;
}

static int show(const char *name, size_t length, uint32_t named, bool csv, const char *offset)
{
    uint32_t edition;
    size_t end, at = offset ? strtoull(offset, NULL, 10) : 0;
    int status = bounds(name, length, named, &edition, &end);
    if (status) return status;
    if (csv) print_csv_head();
    if (!csv && !offset && !end) printf("no records\n");
    while (at < end) {
        SpindleRecorded record = spindle_record_at(bytes, end, edition, at);
        if (record.code != SPINDLE_DONE) {
            fprintf(stderr, "%s: %s: no record of edition %lu begins at %llu; %llu bytes are left\n", called, name, (unsigned long)edition,
                    (unsigned long long)at, (unsigned long long)(end - at));
            return offset || !at ? REFUSED : DIFFERS;
        }
        SpindleSteps now = search_now(&record);
        if (!same_now(&record, now)) status = DIFFERS;
        if (csv)
            print_csv_record(&record, now);
        else
            print_record(&record, edition, now);
        if (offset) return status;
        at = record.next;
    }
    if (offset) {
        fprintf(stderr, "%s: %s: no record begins at %s\n", called, name, offset);
        return REFUSED;
    }
    return status;
}

int main(int words, char **word)
{
    uint32_t edition = 0;
    bool csv = words > 1 && !strcmp(word[1], "--csv");
    int at = csv ? 2 : 1;
    if (csv) called = "csv";
    if (words > 1 && !strcmp(word[1], "--edition")) {
        if (words > 2 && (strlen(word[2]) != 1 || word[2][0] < '1' || word[2][0] > '0' + SPINDLE_NEWEST_EDITION)) {
            fprintf(stderr, "show: no such edition: %s (1 to %d)\n", word[2], SPINDLE_NEWEST_EDITION);
            return USAGE;
        }
        if (words > 2) edition = (uint32_t)(word[2][0] - '0');
        at = 3;
    }
    if (words <= at || words > at + (csv ? 1 : 2)) return usage();
    const char *offset = words > at + 1 ? word[at + 1] : NULL;
    if (offset && (!*offset || strspn(offset, "0123456789") != strlen(offset))) {
        fprintf(stderr, "show: OFFSET is a number of bytes: %s is none\n", offset);
        return USAGE;
    }
    size_t length;
    int status = read_file(word[at], &length);
    if (!status) status = show(word[at], length, edition, csv, offset);
    if (fflush(stdout) || ferror(stdout)) {
        fprintf(stderr, "%s: standard output: %s\n", called, strerror(errno));
        return USAGE;
    }
    return status;
}
