/* Replay through include/spindle.h, over libspindle.a or over oracle/traces.c and oracle/standin.c. See run.
   replay calls          searches of the three kinds recorded and replayed, in a trace of each edition: all the same; each changed step or count differs, at its
                         offset alone; what a search refuses differs, a rule that is none too; what a library before 0.6.0 answered to a trial that
                         is undecided now; the other edition's default step, and its layout; no room, bytes that are no trace, and places that must
                         not move
   replay files FOLDER   writes traces there for the program replay, each beside the text that it must print
   Exit status 1: something did not hold; 2: bad usage, or a file cannot be written. */
#include <inttypes.h>
#include "searches.h"

enum { PLACES = RECORDS + 2 };
static const uint64_t CANARY = UINT64_C(0xA5A5A5A5A5A5A5A5);
static uint64_t at[PLACES];

/* Two records of one search, whose primal trials are 2^-42 times the step inside the wall: within the margin of document 02's Order 5. First what a library before
   that answered, which took the start; then what is answered now: none of 14 trials passes. The dual side passes at the start by both. */
static void record_old_and_new(void)
{
    static const SpindleSteps answers[2] = {{0, 1, 1, 1, 1}, {0, 1, 14, 1, 0}};
    SpindleCone cone = cones[0];
    double z[3] = {-1, 0, 1}, dz[3] = {0, 0, 0}, s[3] = {0, 1, 1}, ds[3] = {-0x1p-42, 0, 0};
    used = spindle_trace_create(changed, sizeof changed).length;
    for (int i = 0; i < 2; i++) {
        SpindleWritten w =
            spindle_trace_append(changed, sizeof changed, used, cone, 1, spindle_house_settings(1.0), dz, 3, ds, 3, z, 3, s, 3, answers[i]);
        expect(w.code == 0, "an append");
        used = w.length;
    }
}

/* ---- the calls */

static void fill(void)
{
    for (size_t i = 0; i < PLACES; i++) at[i] = CANARY;
}
static int untouched(size_t from)
{
    for (size_t i = from; i < PLACES; i++)
        if (at[i] != CANARY) return 0;
    return 1;
}
/* the replay of `changed` finds these offsets and no other */
static int finds(const uint64_t *offsets, uint32_t differ)
{
    fill();
    SpindleReplayed r = spindle_replay(changed, used, at, PLACES);
    return r.code == 0 && r.records == RECORDS && r.same == RECORDS - differ && r.differ == differ && untouched(differ)
           && (!differ || !memcmp(at, offsets, 8 * differ));
}
static int refused(size_t n, size_t places, uint32_t code)
{
    fill();
    SpindleReplayed r = spindle_replay(changed, n, at, places);
    return r.code == code && r.records == 0 && r.same == 0 && r.differ == 0 && untouched(0);
}

/* whether the search of record i gives what it holds, if this step is the default one */
static int same_with(uint32_t i, double step)
{
    SpindleRecorded k = spindle_trace_record(bytes, used, i);
    size_t m = k.cone.dim1 + k.cone.dim2;
    double dual[64], primal[64];
    if (k.flag) k.settings.step = step;
    SpindleSteps s = spindle_step_length(k.cone, k.dz, m, k.ds, m, k.z, m, k.s, m, dual, m, primal, m, k.settings);
    return s.code == 0 && s.dual_step == k.steps.dual_step && s.dual_count == k.steps.dual_count && s.primal_step == k.steps.primal_step
           && s.primal_count == k.steps.primal_count;
}
/* the same records in a trace of another edition: of 1 and 2 those differ whose search by default had the other step; edition 3 has another layout */
static void other_edition(uint32_t edition)
{
    uint64_t those[RECORDS];
    uint32_t differ = 0;
    memcpy(changed, bytes, used);
    for (uint32_t i = 0; i < RECORDS; i++) {
        expect(same_with(i, edition == 1 ? 0.8 : 0.5), "the edition's own step, passed outright");
        if (!same_with(i, edition == 1 ? 0.5 : 0.8)) those[differ++] = begins[i];
    }
    for (uint32_t other = 0; other < 256; other++) {
        changed[used - 8] = (uint8_t)other;
        if (other == edition)
            expect(finds(0, 0), "its own edition");
        else if (other >= 1 && other < 3 && edition < 3)
            expect(differ > 0 && finds(those, differ), "another edition has another default step");
        else
            expect(refused(used, PLACES, 9), "another edition, or one of another layout");
    }
}
/* the rule of a record of edition 3, 20 bytes behind its begin: 1 and 2 replay the same, every other differs, whatever answers it holds */
static void other_rule(void)
{
    static const uint32_t rules[] = {0, 1, 2, 3, 255, 256, 257, 258, 65536, 65537, 1u << 31, UINT32_MAX};
    for (size_t i = 0; i < RECORDS; i++)
        for (size_t k = 0; k < sizeof rules / sizeof *rules; k++) {
            memcpy(changed, bytes, used);
            memcpy(changed + begins[i] + 20, &rules[k], 4); /* little-endian as the machine */
            uint64_t here = begins[i];
            if (rules[k] == 1 || rules[k] == 2)
                expect(finds(0, 0), "either rule: the same");
            else {
                expect(finds(&here, 1), "no rule: the record differs");
                memset(changed + begins[i + 1] - 24, 0, 24);
                expect(finds(&here, 1), "no rule: zeros do not agree with a refusal's");
            }
        }
}
/* a search of a generalized cone of this sum, recorded under rule 1 and then under rule 2: whether it was done, and replays the same */
static void sum_at(double sum, bool first, bool second)
{
    SpindleCone cone = {3, 2, 1, SPINDLE_RULE_1, {0.5, sum - 0.5}};
    double z[3] = {1, 1, 0.25}, s[3] = {1, 1, 0.25}, dz[3] = {-1, 0, 1}, ds[3] = {0, -1, 2}, dual[3], primal[3];
    SpindleSteps steps = {0, 1, 1, 1, 1};
    size_t begin = 0;
    used = spindle_trace_create(changed, sizeof changed).length;
    for (uint32_t rule = 1; rule <= 2; rule++) {
        cone.rule = rule;
        SpindleSteps now = spindle_step_length(cone, dz, 3, ds, 3, z, 3, s, 3, dual, 3, primal, 3, spindle_house_settings(1.0));
        expect(now.code == ((rule == 1 ? first : second) ? 0 : 1), "a sum at a limit");
        if (now.code == 0) steps = now;
        SpindleWritten w =
            spindle_trace_append(changed, sizeof changed, used, cone, 1, spindle_house_settings(1.0), dz, 3, ds, 3, z, 3, s, 3, steps);
        expect(w.code == 0, "an append of it");
        if (rule == 1) begin = w.length - 28;
        used = w.length;
    }
    uint64_t those[2];
    uint32_t differ = 0;
    if (!first) those[differ++] = 0;
    if (!second) those[differ++] = begin;
    fill();
    SpindleReplayed r = spindle_replay(changed, used, at, PLACES);
    expect(r.code == 0 && r.records == 2 && r.differ == differ && r.same == 2 - differ && !memcmp(at, those, 8 * differ)
               && untouched(differ),
           "a sum at a limit, replayed under both rules");
}
static void sums(void)
{
    static const double far = 0x1p-40, near = 0x1p-50;
    sum_at(1, true, true);
    for (int side = -1; side <= 1; side += 2) {
        sum_at(1 + side * near, true, true);
        sum_at(nextafter(1 + side * near, 1 + side), true, false);
        sum_at(1 + side * far, true, false);
        sum_at(nextafter(1 + side * far, 1 + side), false, false);
    }
}

static void calls(uint32_t edition)
{
    record_all(edition);
    other_edition(edition);
    memcpy(changed, bytes, used);
    expect(finds(0, 0), "what was recorded replays the same");
    fill();
    expect(spindle_replay(bytes, used, at, 0).same == RECORDS && untouched(0), "no place is needed where nothing differs");

    static const size_t back[4] = {24, 16, 12, 4}; /* dual step, dual count, primal step, primal count */
    for (size_t i = 0; i < RECORDS; i++)
        for (size_t k = 0; k < 4; k++)
            for (size_t byte = 0; byte < (k % 2 ? 4 : 6); byte++) {
                memcpy(changed, bytes, used);
                changed[begins[i + 1] - back[k] + byte] ^= 1;
                uint64_t here = begins[i];
                expect(finds(&here, 1), "a changed step or count differs, and it alone");
            }

    /* kind 2 out of range, a start that is NaN, a vector that is not finite, a smallest step of 0: each is refused by its search */
    memcpy(changed, bytes, used);
    double wrong[4] = {1.5, NAN, INFINITY, 0};
    size_t behind = rule_bytes(edition);
    memcpy(changed + begins[1] + behind + 20, &wrong[0], 8);
    memcpy(changed + begins[3] + behind + 20, &wrong[1], 8);
    memcpy(changed + begins[5] + behind + 48, &wrong[2], 8);
    memcpy(changed + begins[6] + behind + 40, &wrong[3], 8);
    uint64_t those[4] = {begins[1], begins[3], begins[5], begins[6]};
    expect(finds(those, 4), "what a search refuses differs");
    for (size_t places = 0; places < 4; places++) expect(refused(used, places, 8), "no room for the offsets");
    fill();
    expect(spindle_replay(changed, used, at, 4).differ == 4 && !memcmp(at, those, sizeof those) && untouched(4),
           "just room for the offsets");

    if (edition >= 3) other_rule();
    size_t all = used;
    sums();
    record_old_and_new();
    fill();
    SpindleReplayed old = spindle_replay(changed, used, at, PLACES);
    expect(old.code == 0 && old.records == 2 && old.same == 1 && old.differ == 1 && at[0] == 0 && untouched(1),
           "the old record differs, the new one does not");
    used = all;

    memcpy(changed, bytes, used);
    for (size_t n = 0; n < used; n++) expect(refused(n, PLACES, 9), "a cut trace");
    changed[0] ^= 1;
    expect(refused(used, 0, 9), "a broken trace");
    used = spindle_trace_create(changed, sizeof changed).length;
    fill();
    SpindleReplayed none = spindle_replay(changed, used, at, 0);
    expect(none.code == 0 && none.records == 0 && none.same == 0 && none.differ == 0, "the empty trace");
}

/* ---- files for the program */

static void pair(const char *folder, const char *name, const uint8_t *trace, size_t n, const char *text)
{
    keep(folder, name, "trace", trace, n);
    keep(folder, name, "text", text, strlen(text));
}
static void files(const char *folder)
{
    char text[200];
    snprintf(text, sizeof text, "records %d\nsame %d\ndiffer 0\n", RECORDS, RECORDS);
    record_all(1);
    pair(folder, "edition-1", bytes, used, text);
    record_all(2);
    pair(folder, "edition-2", bytes, used, text);
    bytes[used - 8] = 3; /* their layout is another */
    pair(folder, "edition-2-as-3", bytes, used, "refused 9\n");
    record_all(NEWEST);
    pair(folder, "same", bytes, used, text);
    memcpy(changed, bytes, used);
    changed[begins[3] - 4] ^= 1;
    changed[begins[RECORDS] - 24] ^= 1;
    snprintf(text, sizeof text, "records %d\nsame %d\ndiffer 2\nat %zu\nat %zu\n", RECORDS, RECORDS - 2, begins[2], begins[RECORDS - 1]);
    pair(folder, "two-differ", changed, used, text);
    /* rule 2 turned into rule 1 replays the same, into rule 3 it differs */
    memcpy(changed, bytes, used);
    changed[begins[8] + 20] = 1;
    changed[begins[9] + 20] = 3;
    snprintf(text, sizeof text, "records %d\nsame %d\ndiffer 1\nat %zu\n", RECORDS, RECORDS - 1, begins[9]);
    pair(folder, "other-rules", changed, used, text);
    pair(folder, "cut", bytes, used - 1, "refused 9\n");
    pair(folder, "none", bytes, 0, "refused 9\n");
    memset(changed, 0, sizeof changed);
    pair(folder, "largest", changed, 65536, "refused 9\n");
    pair(folder, "too-large", changed, 65537, "refused 8\n");
    used = spindle_trace_create(changed, sizeof changed).length;
    pair(folder, "empty", changed, used, "records 0\nsame 0\ndiffer 0\n");
    record_old_and_new();
    pair(folder, "before-order-5", changed, used, "records 2\nsame 1\ndiffer 1\nat 0\n");
    /* as many records as 65,536 bytes have room for, the largest trace that the program takes */
    uint32_t count = 0;
    for (begins[0] = 0, used = spindle_trace_create(bytes, 65536).length;; count++) {
        SpindleCone cone = {3, 1, 1, SPINDLE_RULE_2, {1.0}};
        double x[2] = {0, 0};
        SpindleWritten w = spindle_trace_append(bytes, 65536, used, cone, 1, spindle_house_settings(1.0), x, 2, x, 2, x, 2, x, 2,
                                                (SpindleSteps){0, 0, 0, 0, 0});
        if (w.code) break;
        used = w.length;
    }
    size_t room = 60 + 16 * (size_t)count;
    char *all = malloc(room);
    if (!all) exit(2);
    uint64_t *offsets = malloc(8 * (size_t)count + 8);
    if (!offsets) exit(2);
    SpindleReplayed r = spindle_replay(bytes, used, offsets, count);
    size_t end = (size_t)snprintf(all, room, "records %" PRIu32 "\nsame %" PRIu32 "\ndiffer %" PRIu32 "\n", r.records, r.same, r.differ);
    for (uint32_t i = 0; i < r.differ; i++) end += (size_t)snprintf(all + end, room - end, "at %" PRIu64 "\n", offsets[i]);
    pair(folder, "many", bytes, used, all);
    free(offsets);
    free(all);
}

int main(int argc, char **argv)
{
    if (argc == 2 && !strcmp(argv[1], "calls")) {
        for (uint32_t edition = 1; edition <= NEWEST; edition++) calls(edition);
        if (!failures) printf("%ld", checks);
        return failures != 0;
    }
    if (argc == 3 && !strcmp(argv[1], "files")) {
        files(argv[2]);
        return failures != 0;
    }
    fprintf(stderr, "usage: replay calls | files FOLDER\n");
    return 2;
}
