/* Thinning through include/spindle.h, over libspindle.a or over oracle/traces.c and oracle/standin.c. See run.
   thin calls          traces of searches in which records stand again: what is kept, dropped and told, byte for byte, in both forms; two records that differ in
                       one bit of any byte; truncations, no room; 4,096 records, all equal and all different; that it replays as its records did
   thin files FOLDER   writes files there for the program thin, each beside the text that it must print and the trace that it must write
   thin measure        4,096 records of 64 numbers thinned in both forms, with the times
   Exit status 1: something did not hold; 2: bad usage, or a file cannot be written. */
#include <time.h>
#include "searches.h"

enum { CANARY = 0xA5, MOST = 4096, WIDEST = 2380, LARGE = MOST * (WIDEST + 8) + 20 };
static uint8_t many[LARGE], place[LARGE + 20], output[LARGE + 20];

static int filled(const uint8_t *from, size_t n, uint8_t byte)
{
    while (n--)
        if (*from++ != byte) return 0;
    return 1;
}
static void put(uint8_t *to, size_t n, uint64_t x)
{
    for (size_t i = 0; i < n; i++, x >>= 8) to[i] = (uint8_t)x;
}
static size_t length_of(const uint8_t *record) { return record[4] | record[5] << 8; }

/* list and trailer behind count records that end at `end`; the answer is the trace's length */
static size_t closed(uint8_t *trace, size_t end, uint32_t count, uint32_t edition)
{
    size_t at = 0;
    for (uint32_t i = 0; i < count; i++) {
        put(trace + end + 8 * (size_t)i, 8, at);
        at += length_of(trace + at);
    }
    uint8_t *trailer = trace + end + 8 * (size_t)count;
    put(trailer, 8, end);
    put(trailer + 8, 4, count);
    put(trailer + 12, 4, edition);
    memcpy(trailer + 16, "BACK", 4);
    return end + 8 * (size_t)count + 20;
}

/* both forms make this trace of n bytes, tell it so, leave a separate output alone behind it and clear what it frees of one buffer */
static int thins(const uint8_t *trace, size_t n, const uint8_t *want, size_t length, uint32_t kept, uint32_t dropped)
{
    memset(output, CANARY, n + 20);
    memcpy(place, trace, n);
    memset(place + n, CANARY, 20);
    SpindleThinned apart = spindle_thin(trace, n, output, n + 10), within = spindle_thin_in_place(place, n);
    return apart.code == 0 && apart.kept == kept && apart.dropped == dropped && apart.length == length && within.code == 0
           && within.kept == kept && within.dropped == dropped && within.length == length && !memcmp(output, want, length)
           && !memcmp(place, want, length) && filled(output + length, n + 20 - length, CANARY) && filled(place + length, n - length, 0)
           && filled(place + n, 20, CANARY);
}
/* neither form takes the bytes, whatever room there is, and nothing moves */
static int broken(const uint8_t *trace, size_t n)
{
    memset(output, CANARY, n + 20);
    memcpy(place, trace, n);
    SpindleThinned apart = spindle_thin(trace, n, output, n), none = spindle_thin(trace, n, output, 0),
                   within = spindle_thin_in_place(place, n);
    return apart.code == 9 && none.code == 9 && within.code == 9 && !apart.kept && !apart.dropped && !apart.length && !within.kept
           && !within.dropped && !within.length && filled(output, n + 20, CANARY) && !memcmp(place, trace, n);
}
static int no_room(const uint8_t *trace, size_t n, size_t room)
{
    memset(output, CANARY, n + 20);
    SpindleThinned r = spindle_thin(trace, n, output, room);
    return r.code == 8 && !r.kept && !r.dropped && !r.length && filled(output, n + 20, CANARY);
}

/* The trace of the records that `order` names, of the twelve of record_all, into `to`. */
static size_t trace_of(uint8_t *to, const size_t *order, uint32_t count, uint32_t edition)
{
    size_t end = 0;
    for (uint32_t i = 0; i < count; i++) {
        size_t length = begins[order[i] + 1] - begins[order[i]];
        memcpy(to + end, bytes + begins[order[i]], length);
        end += length;
    }
    return closed(to, end, count, edition);
}
/* .. and of the first of each kind among them */
static uint32_t firsts(size_t *kept, const size_t *order, uint32_t count)
{
    uint32_t n = 0;
    for (uint32_t i = 0; i < count; i++) {
        uint32_t k = 0;
        while (k < n && kept[k] != order[i]) k++;
        if (k == n) kept[n++] = order[i];
    }
    return n;
}

static uint32_t drawn_last = 12345;
static size_t drawn(size_t limit) { return (size_t)((drawn_last = drawn_last * 1664525u + 1013904223u) >> 8) % limit; }

static void calls(uint32_t edition)
{
    static uint8_t want[sizeof bytes], few[MOST * 200];
    size_t order[60], kept[RECORDS];
    uint64_t at[RECORDS];
    record_all(edition);
    for (size_t i = 0; i < RECORDS; i++) order[i] = i;
    expect(trace_of(changed, order, RECORDS, edition) == used && !memcmp(changed, bytes, used), "a trace by hand");
    expect(thins(bytes, used, bytes, used, RECORDS, 0), "nothing to drop");
    /* rows of the twelve, drawn with repetition; the empty one first */
    for (uint32_t turn = 0; turn < 300; turn++) {
        uint32_t count = turn < 60 ? turn : 1 + (uint32_t)drawn(60);
        size_t among = 1 + drawn(RECORDS);
        for (uint32_t i = 0; i < count; i++) order[i] = drawn(among);
        size_t n = trace_of(changed, order, count, edition);
        uint32_t left = firsts(kept, order, count);
        size_t length = trace_of(want, kept, left, edition);
        expect(thins(changed, n, want, length, left, count - left), "records that stand again");
        expect(thins(want, length, want, length, left, 0), "thinned again");
        expect(spindle_thin(changed, n, output, length).code == 0 && !memcmp(output, want, length), "just its room");
        expect(no_room(changed, n, length - 1) && no_room(changed, n, 0), "no room");
        SpindleReplayed p = spindle_replay(want, length, at, RECORDS);
        expect(p.code == 0 && p.records == left && p.same == left && p.differ == 0, "what was thinned replays the same");
    }
    /* two records that differ in one bit of one byte, at every place: either both are kept, or the bytes are no trace */
    for (size_t i = 0; i < RECORDS; i++) {
        size_t length = begins[i + 1] - begins[i];
        for (size_t by = 0; by < 8 * length; by++)
            for (int first = 0; first < 2; first++) {
                memcpy(changed, bytes + begins[i], length);
                memcpy(changed + length, bytes + begins[i], length);
                size_t n = closed(changed, 2 * length, 2, edition);
                changed[(first ? 0 : length) + by / 8] ^= (uint8_t)(1 << by % 8);
                if (spindle_trace_open(changed, n).code)
                    expect(broken(changed, n), "a bit that breaks the layout");
                else
                    expect(thins(changed, n, changed, n, 2, 0), "two records that differ in one bit");
            }
    }
    /* every truncation of a trace with equal records */
    for (uint32_t i = 0; i < 6; i++) order[i] = i % 3;
    size_t n = trace_of(changed, order, 6, edition);
    for (size_t cut = 0; cut < n; cut++) expect(broken(changed, cut), "a trace cut at a byte");
    memcpy(changed + n, changed, n);
    expect(broken(changed, 2 * n), "a trace and bytes behind it");

    /* the limit: all equal, all different, and pairs */
    SpindleCone cone = cones[2];
    cone.dim1 = cone.dim2 = 1;
    cone.exps[0] = 1.0;
    double x[2] = {0, 0};
    size_t small = spindle_trace_create(want, sizeof want).length;
    want[small - 8] = (uint8_t)edition;
    small = spindle_trace_append(want, sizeof want, small, cone, 1, spindle_house_settings(1.0), x, 2, x, 2, x, 2, x, 2,
                                 (SpindleSteps){0, 0, 0, 0, 0})
                .length
            - 28;
    for (uint32_t alike = 1; alike <= MOST; alike *= 64) {
        for (uint32_t i = 0; i < MOST; i++) {
            memcpy(many + i * small, want, small);
            put(many + (i + 1) * small - 4, 4, i / alike); /* the primal count */
        }
        for (uint32_t k = 0; k < MOST / alike; k++) memcpy(few + k * small, many + k * alike * small, small);
        n = closed(many, MOST * small, MOST, edition);
        size_t length = closed(few, MOST / alike * small, MOST / alike, edition);
        expect(thins(many, n, few, length, MOST / alike, MOST - MOST / alike), "4,096 records");
    }
}

/* ---- files for the program */

static void all_of(const char *folder, const char *name, const uint8_t *input, size_t n)
{
    char text[100];
    SpindleThinned r = spindle_thin(input, n, output, sizeof output);
    if (r.code)
        snprintf(text, sizeof text, "refused %u\n", (unsigned)r.code);
    else
        snprintf(text, sizeof text, "length %u\nkept %u\ndropped %u\n", (unsigned)r.length, (unsigned)r.kept, (unsigned)r.dropped);
    keep(folder, name, "in", input, n);
    keep(folder, name, "text", text, strlen(text));
    if (!r.code) keep(folder, name, "out", output, r.length);
}
static void files(const char *folder)
{
    size_t order[60];
    char name[40];
    record_all(NEWEST);
    all_of(folder, "none", bytes, used);
    for (uint32_t count = 0; count <= 40; count++) {
        for (uint32_t i = 0; i < count; i++) order[i] = drawn(1 + count / 4);
        snprintf(name, sizeof name, "drawn-%u", (unsigned)count);
        all_of(folder, name, changed, trace_of(changed, order, count, NEWEST));
    }
    all_of(folder, "cut", bytes, used - 1);
    all_of(folder, "nothing", bytes, 0);
    /* the largest file that is taken, all of its records equal; then 65,536 bytes that are no trace, and one more */
    size_t end = 0;
    uint32_t count = 0;
    while (end + begins[1] + 8 * (count + 1) + 20 <= 65536) {
        memcpy(many + end, bytes, begins[1]);
        end += begins[1];
        count++;
    }
    all_of(folder, "full", many, closed(many, end, count, NEWEST));
    memset(many, 0, 65537);
    keep(folder, "largest", "in", many, 65536);
    keep(folder, "largest", "text", "refused 9\n", 10);
    keep(folder, "too-large", "in", many, 65537);
    keep(folder, "too-large", "text", "refused 8\n", 10);
}

/* ---- times */

static void measure(void)
{
    SpindleCone c = cones[2];
    double x[64] = {0};
    c.dim1 = c.dim2 = 32;
    for (int i = 0; i < 32; i++) c.exps[i] = 1.0 / 32;
    size_t n = spindle_trace_create(many, sizeof many).length, length = 0;
    n = spindle_trace_append(many, sizeof many, n, c, 0, (SpindleSettings){1.0, 0.8, 0.0001}, x, 64, x, 64, x, 64, x, 64,
                             (SpindleSteps){0, 0, 0, 0, 0})
            .length;
    length = n - 28;
    for (uint32_t alike = 1; alike <= MOST; alike *= 64) {
        for (uint32_t i = MOST; i--;) {
            if (i) memcpy(many + i * length, many, length);
            put(many + (i + 1) * length - 4, 4, i / alike);
        }
        n = closed(many, MOST * length, MOST, NEWEST);
        clock_t from = clock();
        SpindleThinned r = spindle_thin(many, n, output, sizeof output);
        double apart = (double)(clock() - from) / CLOCKS_PER_SEC;
        memcpy(place, many, n);
        from = clock();
        SpindleThinned q = spindle_thin_in_place(place, n);
        double within = (double)(clock() - from) / CLOCKS_PER_SEC;
        expect(r.code == 0 && q.code == 0 && r.kept == MOST / alike && q.kept == r.kept && !memcmp(place, output, r.length),
               "a full trace thinned");
        printf("thin: %u records of 64 numbers, %zu bytes, %u kept: %.3f s, in place %.3f s\n", (unsigned)MOST, n, (unsigned)r.kept, apart,
               within);
    }
}

int main(int argc, char **argv)
{
    if (argc == 2 && !strcmp(argv[1], "calls")) {
        for (uint32_t edition = 1; edition <= NEWEST; edition++) calls(edition);
        if (!failures) printf("%ld", checks);
        return failures != 0;
    }
    if (argc == 3 && !strcmp(argv[1], "files")) {
        files(argv[2]);
        return failures != 0;
    }
    if (argc == 2 && !strcmp(argv[1], "measure")) {
        measure();
        return failures != 0;
    }
    fprintf(stderr, "usage: thin calls | files FOLDER | measure\n");
    return 2;
}
