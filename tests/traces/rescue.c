/* Rescue through include/spindle.h, over libspindle.a or over oracle/traces.c and oracle/standin.c. See run.
   rescue calls          a trace of searches of the three kinds, cut at every byte, its list and trailer changed in every byte, a record broken in front of whole
                         ones, 4,097 records, no room: what is kept, dropped and told, byte for byte, and that it replays the same and is right when rescued again
   rescue files FOLDER   writes files there for the program rescue, each beside the text that it must print and the trace that it must write
   Exit status 1: something did not hold; 2: bad usage, or a file cannot be written. */
#include "searches.h"

enum { CANARY = 0xA5, MOST = 4096, SMALL = 132 /* a record of kind 3 with both dims 1 and flag 1, in edition 3; 4 less in the others */ };
static uint8_t output[MOST * (SMALL + 8) + 40], again[sizeof output], many[(MOST + 1) * SMALL];

static int untouched(const uint8_t *from, size_t n)
{
    while (n--)
        if (*from++ != CANARY) return 0;
    return 1;
}

/* the rescue of n bytes keeps so many records, which end at `end`, and leaves a good trace of them */
static int rescues(const uint8_t *input, size_t n, uint32_t given, uint32_t kept, size_t end, bool right)
{
    size_t length = end + 8 * (size_t)kept + 20;
    memset(output, CANARY, length + 20);
    SpindleRescued r = spindle_rescue(input, n, output, length + 20, given);
    SpindleOpened o = spindle_trace_open(output, length);
    return r.code == 0 && r.kept == kept && r.dropped == (right ? 0 : n - end) && r.length == length && r.right == right
           && !memcmp(output, input, end) && o.code == 0 && o.records == kept && untouched(output + length, 20);
}
/* .. which is right when it is rescued again, into just its room, whatever edition that caller names */
static int settled(size_t length, uint32_t kept)
{
    memset(again, CANARY, length + 20);
    SpindleRescued r = spindle_rescue(output, length, again, length, 0);
    return r.code == 0 && r.kept == kept && r.dropped == 0 && r.length == length && r.right && !memcmp(again, output, length)
           && untouched(again + length, 20);
}
static int refused(const uint8_t *input, size_t n, size_t room, uint32_t given, uint32_t code)
{
    memset(output, CANARY, room + 20);
    SpindleRescued r = spindle_rescue(input, n, output, room, given);
    return r.code == code && r.kept == 0 && r.dropped == 0 && r.length == 0 && !r.right && untouched(output, room + 20);
}
static uint32_t whole(size_t n)
{
    uint32_t kept = 0;
    while (kept < RECORDS && begins[kept + 1] <= n) kept++;
    return kept;
}

static uint32_t edition_of(const uint8_t *trace, size_t n) { return spindle_trace_open(trace, n).edition; }
static bool alike(uint32_t a, uint32_t b) { return rule_bytes(a) == rule_bytes(b); } /* the layouts of two editions */

static void calls(uint32_t edition)
{
    uint64_t at[RECORDS];
    record_all(edition);
    for (size_t n = 0; n <= used; n++) {
        uint32_t kept = whole(n);
        size_t length = begins[kept] + 8 * (size_t)kept + 20;
        expect(rescues(bytes, n, edition, kept, begins[kept], n == used) && edition_of(output, length) == edition, "a trace cut at a byte");
        SpindleReplayed p = spindle_replay(output, length, at, RECORDS);
        expect(p.code == 0 && p.records == kept && p.same == kept, "what was rescued replays the same");
        expect(settled(length, kept), "rescued again");
        expect(refused(bytes, n, length - 1, edition, 8) && refused(bytes, n, 19, edition, 8), "no room");
        /* the caller's edition is needed where the input has none, and then another edition is 9, before 8 */
        for (uint32_t given = 0; given <= NEWEST + 1; given++) {
            bool unknown = given < 1 || given > NEWEST;
            if (n == used)
                expect(rescues(bytes, n, given, kept, begins[kept], true) && !memcmp(output, bytes, used),
                       "a good trace keeps its edition");
            else if (unknown)
                expect(refused(bytes, n, length, given, 9) && refused(bytes, n, 0, given, 9), "another edition");
            else if (alike(given, edition))
                expect(rescues(bytes, n, given, kept, begins[kept], false) && edition_of(output, length) == given, "the caller's edition");
            else
                expect(rescues(bytes, n, given, 0, 0, false) && edition_of(output, 20) == given,
                       "the caller's edition has another layout: nothing is kept");
        }
        expect(n == used || refused(bytes, n, length, UINT32_MAX, 9), "the largest number for an edition");
    }
    /* list and trailer broken: all records are kept, and the very same trace comes out. Before the last eight bytes its edition is still there, whatever the
       caller names; in them it is the caller's, but where the edition turns into another one: that is a good trace, or its records have another layout */
    memcpy(changed, bytes, used);
    for (size_t i = begins[RECORDS]; i < used; i++)
        for (int by = 1; by < 256; by++) {
            changed[i] ^= (uint8_t)by;
            if (i == used - 8 && changed[i] >= 1 && changed[i] <= NEWEST) {
                if (alike(changed[i], edition))
                    expect(rescues(changed, used, edition, RECORDS, begins[RECORDS], true) && !memcmp(output, changed, used),
                           "the other edition");
                else
                    expect(rescues(changed, used, edition, 0, 0, false) && edition_of(output, 20) == changed[i],
                           "an edition of another layout");
            } else
                expect(rescues(changed, used, i < used - 8 ? 0 : edition, RECORDS, begins[RECORDS], false) && !memcmp(output, bytes, used),
                       "a changed byte of list or trailer");
            changed[i] ^= (uint8_t)by;
        }
    /* the last eight bytes alone, behind bytes that are no record: the edition is theirs; seven of them are none */
    memset(again, 1, 30);
    memcpy(again + 30, bytes + used - 8, 8);
    for (size_t from = 0; from <= 30; from++) {
        memcpy(changed + used, again + from, 38 - from);
        for (uint32_t given = 0; given <= NEWEST; given++)
            expect(rescues(changed + used, 38 - from, given, 0, 0, false) && edition_of(output, 20) == edition,
                   "an edition and BACK alone");
    }
    expect(refused(again + 31, 7, 20, 0, 9), "seven bytes");
    /* the last records were lost, and power came back: what follows the first bad record is not searched, whole records neither */
    for (uint32_t i = 0; i < RECORDS; i++) {
        changed[begins[i] + 3] ^= 1;
        expect(rescues(changed, used, 0, i, begins[i], false), "a bad record in front of whole ones");
        changed[begins[i] + 3] ^= 1;
    }
    memcpy(changed + used, bytes, used);
    expect(rescues(changed, 2 * used, 0, RECORDS, begins[RECORDS], false), "a trace and bytes behind it");
    /* any rule is kept as it is */
    if (edition >= 3) {
        uint32_t rule = 0x42415053;
        memcpy(changed + begins[4] + 20, &rule, 4);
        expect(rescues(changed, used, 0, RECORDS, begins[RECORDS], true) && !memcmp(output, changed, used),
               "a rule that is none, in a good trace");
        expect(rescues(changed, used - 1, edition, RECORDS, begins[RECORDS], false) && !memcmp(output, changed, used),
               "a rule that is none, in a cut one");
    }
    /* bits of a NaN are bytes as others are */
    for (size_t i = 0; i < 8; i++) changed[begins[2] - 100 + i] = (uint8_t)(0xF0 + i);
    expect(rescues(changed, used, 0, RECORDS, begins[RECORDS], true) && !memcmp(output, changed, used),
           "a NaN of any bits, in a good trace");
    expect(rescues(changed, used - 1, edition, RECORDS, begins[RECORDS], false) && !memcmp(output, changed, used),
           "a NaN of any bits, in a cut one");

    /* the limit */
    SpindleCone cone = {3, 1, 1, SPINDLE_RULE_1, {1.0}};
    double x[2] = {0, 0};
    size_t small = SMALL - 4 + rule_bytes(edition);
    used = spindle_trace_create(bytes, sizeof bytes).length;
    bytes[used - 8] = (uint8_t)edition;
    used = spindle_trace_append(bytes, sizeof bytes, used, cone, 1, spindle_house_settings(1.0), x, 2, x, 2, x, 2, x, 2,
                                (SpindleSteps){0, 0, 0, 0, 0})
               .length;
    expect(used == small + 28, "the length of a small record");
    for (size_t i = 0; i <= MOST; i++) memcpy(many + i * small, bytes, small);
    for (size_t n = MOST - 1; n <= MOST + 1; n++) {
        uint32_t kept = n < MOST ? (uint32_t)n : MOST;
        expect(rescues(many, n * small, edition, kept, kept * small, false), "4,095 to 4,097 records");
        expect(settled(kept * (small + 8) + 20, kept), "4,095 to 4,097 records, rescued again");
    }
}

/* ---- files for the program */

static const char NOTHING[] = "rescue: no record would be kept: OUT is left as it was\n";

/* as the program does that is told the newest edition: where bytes are there and no record of them is kept, it says so and writes nothing */
static void all_of(const char *folder, const char *name, const uint8_t *input, size_t n, const char *text)
{
    SpindleRescued r = spindle_rescue(input, n, output, sizeof output, NEWEST);
    keep(folder, name, "in", input, n);
    if (r.kept == 0 && r.dropped > 0) {
        keep(folder, name, "text", NOTHING, sizeof NOTHING - 1);
        return;
    }
    keep(folder, name, "text", text, strlen(text));
    keep(folder, name, "out", output, r.length);
}
static void files(const char *folder)
{
    char name[40], text[80];
    /* traces of the older editions, cut: the program has to be told theirs, and would keep nothing by the newest one's layout */
    for (uint32_t edition = 1; edition < NEWEST; edition++) {
        record_all(edition);
        snprintf(name, sizeof name, "edition-%u", (unsigned)edition);
        all_of(folder, name, bytes, 400, "kept 0\ndropped 400\nrebuilt\n");
        SpindleRescued r = spindle_rescue(bytes, 400, output, sizeof output, edition);
        keep(folder, name, "kept", output, r.length);
    }
    record_all(NEWEST);
    /* one record of each kind */
    memset(changed, 0, sizeof changed);
    SpindleRescued three = spindle_rescue(bytes, begins[3], changed, sizeof changed, NEWEST);
    for (size_t n = 0; n <= three.length; n++) {
        uint32_t kept = whole(n < begins[3] ? n : begins[3]);
        bool right = n == three.length;
        snprintf(name, sizeof name, "cut-%zu", n);
        snprintf(text, sizeof text, "kept %u\ndropped %zu\n%s\n", (unsigned)kept, right ? 0 : n - begins[kept],
                 right ? "right" : "rebuilt");
        all_of(folder, name, changed, n, text);
    }
    all_of(folder, "whole", bytes, used, "kept 12\ndropped 0\nright\n");
    /* the largest file, and one above it; as many records as fit, so that the trace is longer than its file */
    memset(many, 0, sizeof many);
    all_of(folder, "zeros", many, 65536, "kept 0\ndropped 65536\nrebuilt\n");
    keep(folder, "too-large", "in", many, 65537);
    keep(folder, "too-large", "text", "refused 8\n", 10);
    size_t n = 0;
    while (n + begins[1] <= 65536) {
        memcpy(many + n, bytes, begins[1]);
        n += begins[1];
    }
    snprintf(text, sizeof text, "kept %zu\ndropped %zu\nrebuilt\n", n / begins[1], 65536 - n);
    all_of(folder, "full", many, 65536, text);
}

int main(int argc, char **argv)
{
    if (argc == 2 && !strcmp(argv[1], "calls")) {
        for (uint32_t edition = 1; edition <= NEWEST; edition++) calls(edition);
        if (!failures) printf("%ld", checks);
        return failures != 0;
    }
    if (argc == 3 && !strcmp(argv[1], "files")) {
        files(argv[2]);
        return failures != 0;
    }
    fprintf(stderr, "usage: rescue calls | files FOLDER\n");
    return 2;
}
