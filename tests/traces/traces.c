/* Traces through include/spindle.h, over libspindle.a or over oracle/traces.c. See run.
   traces calls        records of the three kinds written and read back, every refusal, the limit of 4,096 records, and bytes that must not move
   traces play FILE    plays the rows of calls of FILE, and prints each answer and what the whole buffer then holds
   traces puts FILE    plays the rows of puts of FILE, and prints each answer, the buffer, what a seal of every number of bytes does, and the record at every place
   traces judge FILE   opens each byte string of FILE, where it asks for them also all truncations and all single-byte changes of it, reads the records and
                       rescues and thins it: a line for each
   traces measure      4,096 records of 64 numbers appended, read and rescued, with the times; 256, 1,024 and 4,096 records put, sealed and read; and the
                       stack of each call
   Exit status 1: something did not hold; 2: bad usage or a bad file. */
#include "../check.h"
#include <inttypes.h>
#include <math.h>
#include <stddef.h>
#include <stdlib.h>
#include <time.h>
#include <ucontext.h>

enum { PLACES = 64, CANARY = 0xA5, MOST = 4096 };

static int same(const double *a, const double *b, size_t n) { return !memcmp(a, b, 8 * n); }
static int zeros(const double *a, size_t n)
{
    for (size_t i = 0; i < n; i++)
        if (bits_of(a[i])) return 0;
    return 1;
}
static size_t exponents(const SpindleCone *c) { return c->kind == 3 ? c->dim1 : c->kind == 2; }

/* Every place that the record's kind does not use is +0. */
static int padded(const SpindleRecorded *r)
{
    size_t n = r->cone.dim1 + r->cone.dim2, e = exponents(&r->cone);
    return zeros(r->cone.exps + e, 32 - e) && zeros(r->dz + n, PLACES - n) && zeros(r->ds + n, PLACES - n) && zeros(r->z + n, PLACES - n)
           && zeros(r->s + n, PLACES - n);
}

/* Two records, bit for bit; the bytes between a struct's fields may be anything. */
static int same_record(const SpindleRecorded *a, const SpindleRecorded *b)
{
    const SpindleSteps *p = &a->steps, *q = &b->steps;
    return !memcmp(a, b, offsetof(SpindleRecorded, steps)) && p->code == q->code && p->dual_count == q->dual_count
           && p->primal_count == q->primal_count && bits_of(p->dual_step) == bits_of(q->dual_step)
           && bits_of(p->primal_step) == bits_of(q->primal_step);
}

/* ---- a fixed course of calls */

/* the trace stands between two rows of canaries */
enum { ROOM = 4000, GUARD = 64 };
static uint8_t lent[GUARD + ROOM + GUARD], old[sizeof lent];
static uint8_t *const trace = lent + GUARD;
static size_t used;
static double dz[PLACES], ds[PLACES], z[PLACES], s[PLACES];

static SpindleWritten append(SpindleCone cone, uint32_t flag, SpindleSettings settings, size_t n, SpindleSteps steps)
{
    return spindle_trace_append(trace, ROOM, used, cone, flag, settings, dz, n, ds, n, z, n, s, n, steps);
}
static void refused(SpindleWritten w, uint32_t code, const char *what)
{
    expect(w.code == code && w.length == 0 && !memcmp(lent, old, sizeof lent), what);
}
static int untouched(size_t from)
{
    for (size_t i = 0; i < sizeof lent; i++)
        if ((i < GUARD || i >= GUARD + from) && lent[i] != CANARY) return 0;
    return 1;
}

static uint32_t edition_now = SPINDLE_NEWEST_EDITION; /* of the trace at hand */
static double default_step(void) { return edition_now == 1 ? 0.8 : 0.5; }
static uint32_t rule_of(const SpindleCone *cone) { return edition_now < 3 ? 1 : cone->rule; }

static void read_back(uint32_t i, size_t at, const SpindleCone *cone, uint32_t flag, const SpindleSettings *settings, size_t n,
                      const SpindleSteps *steps)
{
    SpindleRecorded r = spindle_trace_record(trace, used, i);
    expect(r.code == 0 && r.flag == flag && r.at == at && r.cone.kind == cone->kind, "a record's head");
    SpindleRecorded same_place = spindle_record_at(trace, used, edition_now, at);
    expect(same_record(&r, &same_place), "the record at its place is the record of its number");
    expect(r.cone.dim1 == (cone->kind == 3 ? cone->dim1 : 3) && r.cone.dim2 == (cone->kind == 3 ? cone->dim2 : 0), "a record's dims");
    expect(r.cone.rule == rule_of(cone), "a record's rule");
    expect(same(r.cone.exps, cone->exps, exponents(cone)), "a record's exponents");
    expect(bits_of(r.settings.start) == bits_of(settings->start), "a record's start");
    expect(bits_of(r.settings.step) == bits_of(flag ? default_step() : settings->step), "a record's step setting");
    expect(bits_of(r.settings.smallest) == bits_of(flag ? 0.0001 : settings->smallest), "a record's smallest step");
    expect(same(r.dz, dz, n) && same(r.ds, ds, n) && same(r.z, z, n) && same(r.s, s, n), "a record's vectors");
    expect(padded(&r), "places that the kind does not use");
    expect(r.steps.code == 0 && r.steps.dual_count == steps->dual_count && r.steps.primal_count == steps->primal_count,
           "a record's counts");
    expect(bits_of(r.steps.dual_step) == bits_of(steps->dual_step) && bits_of(r.steps.primal_step) == bits_of(steps->primal_step),
           "a record's steps");
}

static const SpindleCone cones[3] = {{1, 7, 9, 1, {0}}, {2, 0, 0, 1, {0.3, 4.0}}, {3, 2, 3, 1, {0.25, 0.75, 9.0}}};
static const SpindleSettings settings = {1.0, 0.7, 1e-5};
static const SpindleSteps steps[3] = {{99, 1, 2, 0.8, 0.0}, {0, 3, 4, 5e-324, 1.5}, {0, UINT32_MAX, 0, 1.7976931348623157e308, 0.64}};

static void written_and_read(void)
{
    memset(lent, CANARY, sizeof lent);
    memcpy(old, lent, sizeof lent);
    refused(spindle_trace_create(trace, 0), 8, "create in no byte");
    refused(spindle_trace_create(trace, 19), 8, "create in 19 bytes");
    expect(spindle_trace_create(trace, 20).code == 0 && untouched(20), "create in 20 bytes");
    memset(lent, CANARY, sizeof lent);
    SpindleWritten w = spindle_trace_create(trace, ROOM);
    used = w.length;
    expect(w.code == 0 && used == 20 && untouched(20), "create");
    expect(spindle_trace_record(trace, used, 0).code == 9, "no record in the empty trace");

    for (int i = 0; i < PLACES; i++) {
        dz[i] = -1.0 - i;
        ds[i] = i == 0 ? INFINITY : 0.5 * i;
        z[i] = i == 1 ? (double)NAN : 1e300 * i;
        s[i] = i == 2 ? -0.0 : 3.25 - i;
    }
    const uint32_t flags[6] = {0, 1, 0, 1, 0, 1};
    const size_t numbers[3] = {3, 3, 5}, sizes[6] = {172, 164, 252, 156, 180, 236};
    size_t at[6], where = 0;
    for (int k = 0; k < 6; k++) {
        w = append(cones[k % 3], flags[k], settings, numbers[k % 3], steps[k % 3]);
        at[k] = where;
        where += sizes[k];
        expect(w.code == 0 && w.length == where + 8 * (k + 1) + 20 && untouched(w.length), "append");
        used = w.length;
        for (int j = 0; j <= k; j++) read_back(j, at[j], &cones[j % 3], flags[j], &settings, numbers[j % 3], &steps[j % 3]);
    }
    SpindleOpened o = spindle_trace_open(trace, used);
    expect(o.code == 0 && o.edition == 3 && o.records == 6, "open");
    SpindleRecorded none = spindle_trace_record(trace, used, 6);
    expect(none.code == 9 && none.at == 0 && none.next == 0 && none.flag == 0 && none.cone.kind == 0 && none.cone.dim1 == 0
               && none.cone.dim2 == 0,
           "no record 6");
    expect(none.cone.rule == 0, "no record 6: no rule");
    expect(padded(&none) && zeros(&none.settings.start, 3), "no record 6: zeros");
    expect(none.steps.dual_count == 0 && none.steps.primal_count == 0 && zeros(&none.steps.dual_step, 2), "no record 6: no steps");
    expect(spindle_trace_record(trace, used, UINT32_MAX).code == 9, "no record of the largest number");
    memcpy(old, lent, sizeof lent);
    spindle_trace_open(trace, used);
    expect(!memcmp(lent, old, sizeof lent), "reading changes nothing");
}

/* a trace keeps its edition: in edition 1 flag 1 means its 0.8, whatever is handed in beside it; another edition is 9 */
static void every_edition(void)
{
    for (edition_now = 1; edition_now <= SPINDLE_NEWEST_EDITION; edition_now++) {
        used = spindle_trace_create(trace, ROOM).length;
        expect(trace[12] == 3 && !trace[13] && !trace[14] && !trace[15], "a new trace is of edition 3");
        for (uint32_t edition = 0; edition < 256; edition++) {
            trace[12] = (uint8_t)edition;
            SpindleOpened o = spindle_trace_open(trace, used);
            if (edition >= 1 && edition <= 3)
                expect(o.code == 0 && o.edition == edition, "an edition that is known");
            else {
                memcpy(old, lent, sizeof lent);
                expect(o.code == 9 && o.edition == 0, "another edition");
                refused(append(cones[0], 1, settings, 3, steps[0]), 9, "append to another edition");
            }
        }
        trace[12] = (uint8_t)edition_now;
        for (uint32_t k = 0; k < 6; k++) {
            size_t at = used - 20 - 8 * k, n = k % 3 == 2 ? 5 : 3;
            SpindleWritten w = append(cones[k % 3], k % 2, settings, n, steps[k % 3]);
            used = w.length;
            SpindleOpened o = spindle_trace_open(trace, used);
            expect(w.code == 0 && o.code == 0 && o.edition == edition_now && o.records == k + 1, "append keeps the edition");
            read_back(k, at, &cones[k % 3], k % 2, &settings, n, &steps[k % 3]);
        }
    }
    edition_now = SPINDLE_NEWEST_EDITION;
}

/* any rule can be kept in a trace of edition 3, and comes back; in one of edition 1 or 2 rule 1 alone, all others are 9, and no byte moves */
static void every_rule(void)
{
    static const uint32_t rules[] = {1, 2, 0, 3, 255, 256, 257, 65536, 65537, 1u << 31, UINT32_MAX - 1, UINT32_MAX};
    enum { RULES = sizeof rules / sizeof *rules };
    for (edition_now = 1; edition_now <= SPINDLE_NEWEST_EDITION; edition_now++)
        for (int kind = 0; kind < 3; kind++)
            for (uint32_t flag = 0; flag < 2; flag++) {
                size_t n = kind == 2 ? 5 : 3, at[RULES];
                memset(lent, CANARY, sizeof lent);
                used = spindle_trace_create(trace, ROOM).length;
                trace[12] = (uint8_t)edition_now;
                uint32_t kept = 0;
                for (int i = 0; i < RULES; i++) {
                    SpindleCone c = cones[kind];
                    c.rule = rules[i];
                    memcpy(old, lent, sizeof lent);
                    SpindleWritten w = append(c, flag, settings, n, steps[kind]);
                    if (edition_now < 3 && rules[i] != 1) {
                        refused(w, 9, "a rule that the edition has no place for");
                        refused(spindle_trace_append(trace, used, used, c, flag, settings, dz, n, ds, n, z, n, s, n, steps[kind]), 9,
                                "such a rule before no room");
                        continue;
                    }
                    expect(w.code == 0 && untouched(w.length), "a rule that the edition has a place for");
                    at[kept] = used - 20 - 8 * kept;
                    used = w.length;
                    kept++;
                }
                expect(kept == (edition_now < 3 ? 1 : RULES), "all rules in edition 3, one in the others");
                for (uint32_t i = 0; i < kept; i++) {
                    SpindleCone c = cones[kind];
                    c.rule = rules[i];
                    read_back(i, at[i], &c, flag, &settings, n, &steps[kind]);
                }
            }
    edition_now = SPINDLE_NEWEST_EDITION;
}

static void refusals(void)
{
    memcpy(old, lent, sizeof lent);
    const uint32_t kinds[3] = {0, 4, UINT32_MAX}, dims[3] = {0, 33, UINT32_MAX};
    for (int i = 0; i < 3; i++) {
        SpindleCone c = cones[0];
        c.kind = kinds[i];
        refused(append(c, 0, settings, 3, steps[1]), 9, "a kind");
        c = cones[2];
        c.dim1 = dims[i];
        refused(append(c, 0, settings, 5, steps[1]), 9, "dim1");
        c = cones[2];
        c.dim2 = dims[i];
        refused(append(c, 0, settings, 5, steps[1]), 9, "dim2");
    }
    SpindleCone wraps = cones[2];
    wraps.dim1 = UINT32_MAX;
    wraps.dim2 = 4;
    refused(append(wraps, 0, settings, 3, steps[1]), 9, "dims whose sum wraps to 3");
    refused(append(cones[0], 2, settings, 3, steps[1]), 9, "flag 2");
    refused(append(cones[0], 256, settings, 3, steps[1]), 9, "flag 256");
    for (int k = 0; k < 4; k++) {
        size_t n[4] = {3, 3, 3, 3};
        n[k] = 4;
        refused(spindle_trace_append(trace, ROOM, used, cones[0], 0, settings, dz, n[0], ds, n[1], z, n[2], s, n[3], steps[1]), 9,
                "one vector of 4 for 3");
        n[k] = 0;
        refused(spindle_trace_append(trace, ROOM, used, cones[0], 0, settings, dz, n[0], ds, n[1], z, n[2], s, n[3], steps[1]), 9,
                "one vector of none for 3");
    }
    refused(append(cones[2], 0, settings, 3, steps[1]), 9, "vectors of 3 for 5");
    const double odd[5] = {NAN, -0.0, -1.0, INFINITY, -INFINITY};
    for (int i = 0; i < 5; i++) {
        SpindleSteps t = steps[1];
        t.dual_step = odd[i];
        refused(append(cones[0], 0, settings, 3, t), 9, "a dual step");
        t = steps[1];
        t.primal_step = odd[i];
        refused(append(cones[0], 0, settings, 3, t), 9, "a primal step");
    }
    const size_t lengths[8] = {0, 19, 20, used - 1, used + 1, ROOM + 1, SIZE_MAX - 7, SIZE_MAX};
    for (int i = 0; i < 8; i++) {
        refused(spindle_trace_append(trace, ROOM, lengths[i], cones[0], 0, settings, dz, 3, ds, 3, z, 3, s, 3, steps[0]), 9,
                "another length than the trace's");
    }
    size_t need = used + 172 + 8;
    refused(spindle_trace_append(trace, used - 1, used, cones[0], 0, settings, dz, 3, ds, 3, z, 3, s, 3, steps[0]), 9,
            "used above the slice");
    refused(spindle_trace_append(trace, used, used, cones[0], 2, settings, dz, 3, ds, 3, z, 3, s, 3, steps[0]), 9, "9 before 8");
    for (size_t room = used; room < need; room++) {
        refused(spindle_trace_append(trace, room, used, cones[0], 0, settings, dz, 3, ds, 3, z, 3, s, 3, steps[0]), 8, "too little room");
    }
    SpindleWritten w = spindle_trace_append(trace, need, used, cones[0], 0, settings, dz, 3, ds, 3, z, 3, s, 3, steps[0]);
    expect(w.code == 0 && w.length == need && spindle_trace_open(trace, need).records == 7 && untouched(need), "exactly the room");

    /* a list at 2^64 - 1, and one that a wrapping sum would take for good */
    const uint8_t far[20] = {255, 255, 255, 255, 255, 255, 255, 255, 0, 0, 0, 0, 1, 0, 0, 0, 'B', 'A', 'C', 'K'};
    const uint8_t wrapping[20] = {248, 255, 255, 255, 255, 255, 255, 255, 1, 0, 0, 0, 1, 0, 0, 0, 'B', 'A', 'C', 'K'};
    memcpy(trace, far, 20);
    expect(spindle_trace_open(trace, 20).code == 9, "a list at 2^64 - 1");
    memcpy(trace, wrapping, 20);
    expect(spindle_trace_open(trace, 20).code == 9, "a list and a count whose sum wraps");
    memcpy(old, lent, sizeof lent);
    used = 20;
    refused(append(cones[0], 0, settings, 3, steps[0]), 9, "an append to it");
}

/* A trace of so many equal records, made from one: 4,096 appends would take most of the test's time. */
static size_t many(uint8_t *to, const uint8_t *record, size_t size, uint32_t count)
{
    for (uint32_t i = 0; i < count; i++) {
        memcpy(to + i * size, record, size);
        uint64_t at = i * size;
        memcpy(to + count * size + 8 * i, &at, 8); /* little-endian as the machine */
    }
    uint64_t list = count * size;
    uint32_t edition = SPINDLE_NEWEST_EDITION;
    uint8_t *trailer = to + (size + 8) * count;
    memcpy(trailer, &list, 8);
    memcpy(trailer + 8, &count, 4);
    memcpy(trailer + 12, &edition, 4);
    memcpy(trailer + 16, "BACK", 4);
    return (size + 8) * count + 20;
}

static void the_limit(void)
{
    used = spindle_trace_create(trace, ROOM).length;
    SpindleWritten w = append(cones[1], 1, settings, 3, steps[1]);
    const size_t size = 164, room = 4100 * (size + 8);
    uint8_t *big = malloc(room), *before = malloc(room);
    expect(w.code == 0 && w.length == size + 28, "one record");
    memset(big, CANARY, room);
    size_t n = many(big, trace, size, MOST - 1);
    SpindleOpened o = spindle_trace_open(big, n);
    expect(o.code == 0 && o.records == MOST - 1, "4,095 records");
    w = spindle_trace_append(big, room, n, cones[1], 1, settings, dz, 3, ds, 3, z, 3, s, 3, steps[1]);
    many(before, trace, size, MOST);
    expect(w.code == 0 && w.length == MOST * (size + 8) + 20 && !memcmp(big, before, w.length) && big[w.length] == CANARY, "4,096 records");
    n = w.length;
    memcpy(before, big, room);
    w = spindle_trace_append(big, room, n, cones[1], 1, settings, dz, 3, ds, 3, z, 3, s, 3, steps[1]);
    expect(w.code == 8 && w.length == 0 && !memcmp(big, before, room), "4,096 records already");
    w = spindle_trace_append(big, room, n, cones[1], 2, settings, dz, 3, ds, 3, z, 3, s, 3, steps[1]);
    expect(w.code == 9 && w.length == 0 && !memcmp(big, before, room), "9 before 4,096 records already");
    SpindleRecorded r = spindle_trace_record(big, n, MOST - 1);
    expect(r.code == 0 && r.at == (MOST - 1) * size && r.cone.kind == 2, "record 4,095");
    expect(spindle_trace_record(big, n, MOST).code == 9, "no record 4,096");
    n = many(big, trace, size, MOST + 1);
    expect(spindle_trace_open(big, n).code == 9 && spindle_trace_record(big, n, 0).code == 9, "4,097 records");
    free(big);
    free(before);
}

/* ---- recording as searches are made */

enum { PUTS = 6, LINEAR = 1160 }; /* six records: 172 + 164 + 252 + 156 + 180 + 236 bytes, in editions 1 and 2 less */

static SpindleWritten put(uint8_t *b, size_t room, size_t at, uint32_t edition, int k)
{
    static const size_t numbers[3] = {3, 3, 5};
    size_t n = numbers[k % 3];
    return spindle_record_put(b, room, at, edition, cones[k % 3], k & 1, settings, dz, n, ds, n, z, n, s, n, steps[k % 3]);
}

static void recorded_as_made(void)
{
    static uint8_t made[ROOM];
    memset(lent, CANARY, sizeof lent);
    size_t n = spindle_trace_create(made, ROOM).length, at[PUTS + 1] = {0};
    for (int k = 0; k < PUTS; k++) {
        static const size_t numbers[3] = {3, 3, 5};
        size_t m = numbers[k % 3];
        n = spindle_trace_append(made, ROOM, n, cones[k % 3], k & 1, settings, dz, m, ds, m, z, m, s, m, steps[k % 3]).length;
        SpindleWritten w = put(trace, ROOM, at[k], SPINDLE_NEWEST_EDITION, k);
        at[k + 1] = w.length;
        expect(w.code == 0 && untouched(w.length), "a put");
        for (int j = 0; j <= k; j++) {
            SpindleRecorded r = spindle_record_at(trace, at[k + 1], SPINDLE_NEWEST_EDITION, at[j]),
                            q = spindle_trace_record(made, n, (uint32_t)j);
            expect(r.code == 0 && r.at == at[j] && r.next == at[j + 1] && same_record(&r, &q), "a record that was put, read at its place");
        }
    }
    expect(at[PUTS] == LINEAR, "the place behind six records");
    /* bytes that were never sealed: every truncation keeps the records that are whole in it, and drops the rest */
    static uint8_t saved[ROOM], whole[ROOM];
    for (size_t cut = 0; cut <= at[PUTS]; cut++) {
        uint32_t kept = 0;
        while (kept < PUTS && at[kept + 1] <= cut) kept++;
        SpindleRescued r = spindle_rescue(trace, cut, saved, ROOM, SPINDLE_NEWEST_EDITION);
        memcpy(whole, trace, at[kept]);
        SpindleWritten w = spindle_trace_seal(whole, ROOM, at[kept], SPINDLE_NEWEST_EDITION);
        expect(r.code == 0 && !r.right && r.kept == kept && r.dropped == cut - at[kept], "records without a seal, rescued");
        expect(w.code == 0 && w.length == r.length && !memcmp(whole, saved, r.length), "the rescued trace is the sealed one");
        memcpy(old, lent, sizeof lent);
        if (cut != at[kept]) refused(spindle_trace_seal(trace, ROOM, cut, SPINDLE_NEWEST_EDITION), 9, "a seal behind a cut record");
    }
    /* 9, then 8: nothing is written */
    const size_t need = at[PUTS] + 8 * PUTS + 20;
    for (uint32_t edition = 0; edition < 6; edition++) {
        if (edition - 1 < 3) continue;
        refused(spindle_trace_seal(trace, need - 1, at[PUTS], edition), 9, "a seal of no edition");
        refused(put(trace, 10, 0, edition, 0), 9, "a put of no edition");
        expect(spindle_record_at(trace, at[PUTS], edition, 0).code == 9, "a record of no edition");
    }
    refused(spindle_trace_seal(trace, need - 1, at[PUTS], SPINDLE_NEWEST_EDITION), 8, "a seal without room");
    refused(spindle_trace_seal(trace, at[PUTS] - 1, at[PUTS], SPINDLE_NEWEST_EDITION), 9, "a seal above the slice");
    refused(put(trace, at[1] - 1, 0, SPINDLE_NEWEST_EDITION, 0), 8, "a put without room");
    refused(put(trace, ROOM, ROOM - at[1] + 1, SPINDLE_NEWEST_EDITION, 0), 8, "a put with a byte too few");
    refused(put(trace, ROOM, ROOM, SPINDLE_NEWEST_EDITION, 0), 8, "a put at the slice's end");
    refused(put(trace, ROOM, ROOM + 1, SPINDLE_NEWEST_EDITION, 0), 9, "a put above the slice");
    refused(put(trace, ROOM, SIZE_MAX, SPINDLE_NEWEST_EDITION, 0), 9, "a put at the largest place");
    SpindleCone second = cones[2];
    second.rule = 2;
    refused(spindle_record_put(trace, 10, 0, 2, second, 0, settings, dz, 5, ds, 5, z, 5, s, 5, steps[2]), 9,
            "a rule that edition 2 does not keep");
    SpindleRecorded none = spindle_record_at(trace, at[PUTS], SPINDLE_NEWEST_EDITION, 1), zero = {.code = 9};
    expect(same_record(&none, &zero), "no record at a place: zeros");
    expect(spindle_record_at(trace, at[PUTS], SPINDLE_NEWEST_EDITION, at[PUTS]).code == 9, "no record behind the last");
    expect(spindle_record_at(trace, at[PUTS], SPINDLE_NEWEST_EDITION, SIZE_MAX).code == 9, "no record at the largest place");
    expect(spindle_record_at(trace, at[1] - 1, SPINDLE_NEWEST_EDITION, 0).code == 9, "no record where it is cut");
    /* sealed: the trace that create and appends made */
    SpindleWritten w = spindle_trace_seal(trace, need, at[PUTS], SPINDLE_NEWEST_EDITION);
    expect(w.code == 0 && w.length == need && w.length == n && !memcmp(trace, made, n) && untouched(n),
           "put, put, .., seal is create and appends");
    expect(spindle_record_at(trace, n, SPINDLE_NEWEST_EDITION, at[PUTS]).code == 9, "the list is no record");
    /* nothing put is the empty trace, in each edition */
    for (uint32_t edition = 1; edition <= 3; edition++) {
        w = spindle_trace_seal(trace, 20, 0, edition);
        SpindleOpened o = spindle_trace_open(trace, 20);
        expect(w.code == 0 && w.length == 20 && o.code == 0 && o.records == 0 && o.edition == edition, "nothing put, sealed");
        refused((memcpy(old, lent, sizeof lent), spindle_trace_seal(trace, 19, 0, edition)), 8, "nothing put, no room");
    }
    /* as many records as a trace may have, and one more */
    size_t size = at[1], room = (MOST + 1) * (size + 8) + 20, place = 0;
    uint8_t *big = malloc(room);
    for (int i = 0; i <= MOST; i++) place = put(big, room, place, SPINDLE_NEWEST_EDITION, 0).length;
    expect(place == (MOST + 1) * size && spindle_trace_seal(big, room, place, SPINDLE_NEWEST_EDITION).code == 9,
           "4,097 records are not sealed");
    w = spindle_trace_seal(big, room, place - size, SPINDLE_NEWEST_EDITION);
    expect(w.code == 0 && w.length == MOST * (size + 8) + 20 && spindle_trace_open(big, w.length).records == MOST,
           "4,096 records are sealed");
    free(big);
}

/* ---- files: 64-bit words, and bytes */

static FILE *file;
static int word(uint64_t *w) { return fread(w, 8, 1, file) == 1; }
static void early(void)
{
    fprintf(stderr, "traces: the file ends too early\n");
    exit(2);
}
static uint64_t next(void)
{
    uint64_t w;
    if (!word(&w)) early();
    return w;
}
static double number(void)
{
    uint64_t b = next();
    double x;
    memcpy(&x, &b, 8);
    return x;
}

/* A row of words as the number that it spells, modulo 2^61 - 1: 2^64 is 8 there. */
#define MODULUS ((UINT64_C(1) << 61) - 1)
static uint64_t rest(uint64_t x)
{
    x = (x & MODULUS) + (x >> 61);
    return x >= MODULUS ? x - MODULUS : x;
}
static uint64_t more(uint64_t told, uint64_t w) { return rest((((told << 3) & MODULUS) | told >> 58) + rest(w)); }
static uint64_t more_row(uint64_t told, const double *row, size_t n)
{
    for (size_t i = 0; i < n; i++) told = more(told, bits_of(row[i]));
    return told;
}

/* What a call is handed: cone, flag, settings, four lengths and vectors, steps. */
typedef struct {
    SpindleCone cone;
    uint32_t flag;
    SpindleSettings settings;
    uint64_t n[4];
    double row[4][PLACES + 8];
    SpindleSteps steps;
} Call;
static Call call(void)
{
    Call c;
    c.cone.kind = (uint32_t)next();
    c.cone.dim1 = (uint32_t)next();
    c.cone.dim2 = (uint32_t)next();
    c.cone.rule = (uint32_t)next();
    for (int i = 0; i < 32; i++) c.cone.exps[i] = number();
    c.flag = (uint32_t)next();
    c.settings.start = number();
    c.settings.step = number();
    c.settings.smallest = number();
    for (int k = 0; k < 4; k++) {
        c.n[k] = next();
        for (uint64_t i = 0; i < c.n[k]; i++) c.row[k][i] = number();
    }
    c.steps.code = 7;
    c.steps.dual_step = number();
    c.steps.dual_count = (uint32_t)next();
    c.steps.primal_step = number();
    c.steps.primal_count = (uint32_t)next();
    return c;
}

/* A row is the room, the edition that the trace gets once it is created, and the calls, each with used, all ones for the trace's own length. */
static void play(void)
{
    uint64_t room;
    while (word(&room)) {
        uint8_t *b = malloc(room + GUARD);
        memset(b, CANARY, room + GUARD);
        SpindleWritten w = spindle_trace_create(b, room);
        uint64_t length = w.length;
        printf("%" PRIu32 " %" PRIu64, w.code, w.length);
        uint32_t edition = (uint32_t)next();
        if (w.code == 0) {
            printf(" %" PRIu32, spindle_trace_open(b, w.length).edition);
            memcpy(b + 12, &edition, 4); /* the empty trace is its trailer: list, count, edition, BACK */
        }
        for (uint64_t left = next(); left; left--) {
            uint64_t front = next();
            Call c = call();
            w = spindle_trace_append(b, room, front == UINT64_MAX ? length : front, c.cone, c.flag, c.settings, c.row[0], c.n[0], c.row[1],
                                     c.n[1], c.row[2], c.n[2], c.row[3], c.n[3], c.steps);
            if (w.code == 0) length = w.length;
            printf(" %" PRIu32 " %" PRIu64, w.code, w.length);
        }
        uint64_t told = 0;
        for (uint64_t i = 0; i < room; i++) told = more(told, b[i]);
        for (uint64_t i = room; i < room + GUARD; i++)
            if (b[i] != CANARY) printf(" (a byte behind the slice was written)");
        printf(" %" PRIx64 "\n", told);
        free(b);
    }
}

/* A record's values, as one number. */
static uint64_t told_of(const SpindleRecorded *r)
{
    size_t m = r->cone.dim1 + r->cone.dim2;
    uint64_t told = more(more(more(more(more(0, r->cone.kind), r->cone.dim1), r->cone.dim2), r->cone.rule), r->flag);
    told = more_row(more_row(told, r->cone.exps, exponents(&r->cone)), &r->settings.start, 3);
    told = more_row(more_row(more_row(more_row(told, r->dz, m), r->ds, m), r->z, m), r->s, m);
    told = more(more(told, bits_of(r->steps.dual_step)), r->steps.dual_count);
    return more(more(told, bits_of(r->steps.primal_step)), r->steps.primal_count);
}

/* A row is the room, the edition, and the puts, each with its place, all ones for the one behind the last record. Behind the answers and the buffer stand,
   each as one number, what a seal of each number of bytes answers and leaves, up to above the room, and which record begins at each place. */
static void puts_of(void)
{
    uint64_t room;
    while (word(&room)) {
        uint8_t *b = malloc(room + GUARD), *copy = malloc(room + GUARD);
        memset(b, CANARY, room + GUARD);
        uint32_t edition = (uint32_t)next();
        uint64_t place = 0, told = 0;
        for (uint64_t left = next(); left; left--) {
            uint64_t at = next();
            Call c = call();
            SpindleWritten w = spindle_record_put(b, room, at == UINT64_MAX ? place : at, edition, c.cone, c.flag, c.settings, c.row[0],
                                                  c.n[0], c.row[1], c.n[1], c.row[2], c.n[2], c.row[3], c.n[3], c.steps);
            if (w.code == 0) place = w.length;
            printf("%" PRIu32 " %" PRIu64 " ", w.code, w.length);
        }
        for (uint64_t i = 0; i < room; i++) told = more(told, b[i]);
        printf("%" PRIx64, told);
        told = 0;
        for (uint64_t k = 0; k <= room + 2; k++) {
            memcpy(copy, b, room + GUARD);
            SpindleWritten w = spindle_trace_seal(copy, room, k == room + 2 ? UINT64_MAX : k, edition);
            told = more(more(told, w.code), w.length);
            uint64_t bytes = 0;
            for (uint64_t i = 0; w.code == 0 && i < room; i++) bytes = more(bytes, copy[i]);
            if (w.code == 0) told = more(told, bytes);
            if (w.code && memcmp(copy, b, room)) printf(" (a refused seal wrote)");
            for (uint64_t i = room; i < room + GUARD; i++)
                if (copy[i] != CANARY) printf(" (a byte behind the slice was written)");
        }
        printf(" %" PRIx64, told);
        told = 0;
        for (uint64_t k = 0; k <= room + 2; k++) {
            uint64_t at = k == room + 2 ? UINT64_MAX : k;
            SpindleRecorded r = spindle_record_at(b, room, edition, at);
            told = r.code ? more(told, r.code) : more(more(more(told, r.at), r.next), told_of(&r));
            if (!padded(&r)) printf(" (places that the kind does not use are not zero)");
        }
        printf(" %" PRIx64 "\n", told);
        free(b);
        free(copy);
    }
}

static void judge(const uint8_t *bytes, size_t n)
{
    SpindleOpened o = spindle_trace_open(bytes, n);
    if (o.code) {
        SpindleRecorded r = spindle_trace_record(bytes, n, 0);
        printf("%s", o.code == 9 && o.edition == 0 && o.records == 0 && r.code == 9 ? "9" : "neither 0 nor 9");
        return;
    }
    printf("%" PRIu32 " %" PRIu32, o.edition, o.records);
    for (uint32_t i = 0; i < o.records; i++) {
        SpindleRecorded r = spindle_trace_record(bytes, n, i);
        printf(" %" PRIu64 " %" PRIx64 "%s", r.at, told_of(&r),
               r.code == 0 && padded(&r) ? "" : " (places that the kind does not use are not zero)");
    }
    printf("%s", spindle_trace_record(bytes, n, o.records).code == 9 ? "" : " (one record more than there are)");
}
/* what a rescue of the bytes reports and leaves, its caller naming the edition that their sum modulo 5 is, and that a byte less of room is refused */
static void save(const uint8_t *bytes, size_t n)
{
    static uint8_t output[8192];
    memset(output, CANARY, sizeof output);
    uint32_t given = 0;
    for (size_t i = 0; i < n; i++) given += bytes[i];
    given %= 5;
    SpindleRescued r = spindle_rescue(bytes, n, output, sizeof output, given);
    if (r.code == 9) {
        int left = r.kept == 0 && r.dropped == 0 && r.length == 0 && !r.right;
        for (size_t i = 0; i < sizeof output; i++) left &= output[i] == CANARY;
        printf(" rescued 9%s", left ? "" : " (and something told or left)");
        return;
    }
    uint64_t told = 0;
    for (uint64_t i = 0; i < r.length + 8; i++) told = more(told, output[i]);
    printf(" rescued %" PRIu32 " %" PRIu64 " %d %d %" PRIu64 " %" PRIx64, r.kept, r.dropped, r.right, output[r.length - 8], r.length, told);
    uint8_t first = output[0] = 0x5A;
    SpindleRescued no = spindle_rescue(bytes, n, output, r.length - 1, given);
    int refused = no.code == 8 && no.kept == 0 && no.dropped == 0 && no.length == 0 && !no.right && output[0] == first;
    printf("%s", r.code == 0 && refused ? "" : " (refused, or taken without room)");
}
/* what a thinning reports and leaves, that a byte less of room is refused, and that it is the same within one buffer, the rest of which is cleared */
static void drop(const uint8_t *bytes, size_t n)
{
    static uint8_t output[8192], place[8192];
    memset(output, CANARY, sizeof output);
    memcpy(place, bytes, n);
    SpindleThinned r = spindle_thin(bytes, n, output, sizeof output), in = spindle_thin_in_place(place, n);
    int held = in.code == r.code && in.kept == r.kept && in.dropped == r.dropped && in.length == r.length;
    if (r.code) {
        held &= r.code == 9 && r.kept == 0 && r.dropped == 0 && r.length == 0 && !memcmp(place, bytes, n)
                && spindle_thin(bytes, n, output, 0).code == 9;
        for (size_t i = 0; i < sizeof output; i++) held &= output[i] == CANARY;
        printf(" thinned 9%s\n", held ? "" : " (and something told or left)");
        return;
    }
    uint64_t told = 0;
    for (uint64_t i = 0; i < r.length + 8; i++) told = more(told, output[i]);
    printf(" thinned %" PRIu32 " %" PRIu32 " %" PRIu64 " %" PRIx64, r.kept, r.dropped, r.length, told);
    held &= !memcmp(place, output, r.length);
    for (size_t i = r.length; i < n; i++) held &= place[i] == 0;
    uint8_t first = output[0] = 0x5A;
    SpindleThinned no = spindle_thin(bytes, n, output, r.length - 1);
    held &= no.code == 8 && no.kept == 0 && no.dropped == 0 && no.length == 0 && output[0] == first;
    printf("%s\n", held ? "" : " (taken without room, or not the same in place)");
}

/* A string is its length, 1 if it is to be cut and changed, too, and its bytes. */
static void all(const uint8_t *bytes, size_t n)
{
    judge(bytes, n);
    save(bytes, n);
    drop(bytes, n);
}
static void judge_all(void)
{
    uint64_t n;
    while (word(&n)) {
        uint64_t changed = next();
        uint8_t *b = malloc(n + 1);
        if (fread(b, 1, n, file) != n) early();
        all(b, n);
        for (uint64_t m = 0; changed && m < n; m++) all(b, m);
        b[n] = 0;
        if (changed) all(b, n + 1);
        for (uint64_t i = 0; changed && i < n; i++) {
            for (int by = 1; by < 256; by++) {
                b[i] ^= (uint8_t)by;
                all(b, n);
                b[i] ^= (uint8_t)by;
            }
        }
        free(b);
    }
}

/* ---- a full trace */

static double seconds(clock_t from) { return (double)(clock() - from) / CLOCKS_PER_SEC; }

static void fill(void)
{
    SpindleCone c = {3, 32, 32, SPINDLE_RULE_2, {0}};
    for (int i = 0; i < 32; i++) c.exps[i] = 1.0 / 32;
    const size_t room = MOST * (size_t)2388 + 20;
    uint8_t *b = malloc(room);
    size_t n = spindle_trace_create(b, room).length;
    clock_t from = clock();
    for (int i = 0; i < MOST; i++) {
        SpindleWritten w = spindle_trace_append(b, room, n, c, 0, settings, dz, 64, ds, 64, z, 64, s, 64, steps[1]);
        if (w.code) break;
        n = w.length;
    }
    double filled = seconds(from);
    from = clock();
    uint32_t records = spindle_trace_open(b, n).records;
    double opened = seconds(from);
    from = clock();
    long wrong = 0;
    for (uint32_t i = 0; i < records; i++) wrong += spindle_trace_record(b, n, i).at != i * (uint64_t)2380;
    double read = seconds(from);
    expect(records == MOST && n == room && wrong == 0, "a full trace");
    printf("full: %" PRIu32 " records of 64 numbers, %zu bytes: appended one by one in %.3f s, ", records, n, filled);
    uint8_t *saved = malloc(room);
    from = clock();
    SpindleRescued r = spindle_rescue(b, n - 1, saved, room, SPINDLE_NEWEST_EDITION);
    double rescued = seconds(from);
    expect(r.code == 0 && r.kept == MOST && !memcmp(saved, b, n), "a full trace rescued");
    free(saved);
    printf("opened in %.6f s, all read one by one in %.3f s, rescued in %.3f s\n", opened, read, rescued);
    free(b);
}

/* n records of 3 numbers put, sealed and read one by one, in nanoseconds each; then the same by append and record */
static void growth(void)
{
    const size_t room = MOST * (size_t)180 + 20;
    uint8_t *b = malloc(room);
    for (int n = 256; n <= MOST; n *= 4) {
        const int rounds = 16 * MOST / n;
        long wrong = 0;
        size_t length = 0;
        clock_t from = clock();
        for (int round = 0; round < rounds; round++) {
            size_t at = 0;
            for (int i = 0; i < n; i++) at = put(b, room, at, SPINDLE_NEWEST_EDITION, 0).length;
            length = spindle_trace_seal(b, room, at, SPINDLE_NEWEST_EDITION).length;
        }
        double written_in = seconds(from);
        from = clock();
        for (int round = 0; round < rounds; round++) {
            uint64_t at = 0;
            for (int i = 0; i < n; i++) {
                SpindleRecorded r = spindle_record_at(b, length, SPINDLE_NEWEST_EDITION, at);
                wrong += r.code != 0;
                at = r.next;
            }
        }
        double read_in = seconds(from);
        from = clock();
        size_t m = spindle_trace_create(b, room).length;
        for (int i = 0; i < n; i++) m = spindle_trace_append(b, room, m, cones[0], 0, settings, dz, 3, ds, 3, z, 3, s, 3, steps[0]).length;
        double appended_in = seconds(from);
        from = clock();
        for (int i = 0; i < n; i++) wrong += spindle_trace_record(b, m, (uint32_t)i).code != 0;
        double numbered_in = seconds(from);
        expect(wrong == 0 && m == length, "records that were put, sealed and read");
        printf(
            "%d records: put and sealed in %.0f ns each, read at their places in %.0f ns each; appended in %.0f, read by number in %.0f\n",
            n, 1e9 * written_in / rounds / n, 1e9 * read_in / rounds / n, 1e9 * appended_in / n, 1e9 * numbered_in / n);
    }
    free(b);
}

/* ---- the stack of a call, arguments and answer included: a painted one of its own */

enum { STACK = 1 << 17, CALLS = 14 };
static uint8_t painted[STACK] __attribute__((aligned(64)));
static ucontext_t outside, inside;
static int chosen;
static const SpindleCone widest = {3, 32, 32, SPINDLE_RULE_2, {0}};
static SpindleWritten written;
static SpindleOpened opened;

__attribute__((noinline)) static void create_once(void) { written = spindle_trace_create(trace, ROOM); }
__attribute__((noinline)) static void append_once(void) { written = append(widest, 0, settings, 64, steps[1]); }
__attribute__((noinline)) static void open_once(void) { opened = spindle_trace_open(trace, used); }
__attribute__((noinline)) static void record_once(void)
{
    if (spindle_trace_record(trace, used, 0).code) failures++;
}
__attribute__((noinline)) static void rescue_once(void)
{
    if (spindle_rescue(trace, used, old, sizeof old, SPINDLE_NEWEST_EDITION).code) failures++;
}
__attribute__((noinline)) static void thin_once(void)
{
    if (spindle_thin(trace, used, old, sizeof old).code) failures++;
}
__attribute__((noinline)) static void thin_in_place_once(void)
{
    if (spindle_thin_in_place(trace, used).code) failures++;
}
static uint64_t places[4][SPINDLE_SHEET_PLACES], differing[4096];
static uint8_t flags[2][SPINDLE_SHEET_FILES], lines[SPINDLE_SHEET_TEXT];
static SpindleTotals sheet;
__attribute__((noinline)) static void replay_once(void)
{
    if (spindle_replay(trace, used, differing, 4096).code) failures++;
}
__attribute__((noinline)) static void add_once(void)
{
    sheet = spindle_sheet_add((SpindleTotals){0}, places[0], SPINDLE_SHEET_PLACES, places[1], SPINDLE_SHEET_PLACES, flags[0],
                              SPINDLE_SHEET_FILES, trace, used);
}
__attribute__((noinline)) static void join_once(void)
{
    sheet = spindle_sheet_join(sheet, places[0], SPINDLE_SHEET_PLACES, places[1], SPINDLE_SHEET_PLACES, flags[0], SPINDLE_SHEET_FILES,
                               (SpindleTotals){0}, places[2], SPINDLE_SHEET_PLACES, places[3], SPINDLE_SHEET_PLACES, flags[1],
                               SPINDLE_SHEET_FILES);
}
__attribute__((noinline)) static void text_once(void)
{
    if (spindle_sheet_text(lines, sizeof lines, sheet, places[0], SPINDLE_SHEET_PLACES, places[1], SPINDLE_SHEET_PLACES, flags[0],
                           SPINDLE_SHEET_FILES)
            .code)
        failures++;
}

/* the record that was measured stands at the front of `old` */
__attribute__((noinline)) static void put_once(void)
{
    if (spindle_record_put(old, sizeof old, 0, SPINDLE_NEWEST_EDITION, widest, 0, settings, dz, 64, ds, 64, z, 64, s, 64, steps[1]).code)
        failures++;
}
__attribute__((noinline)) static void at_once(void)
{
    if (spindle_record_at(old, sizeof old, SPINDLE_NEWEST_EDITION, 0).code) failures++;
}
__attribute__((noinline)) static void seal_once(void)
{
    if (spindle_trace_seal(old, sizeof old, 2380, SPINDLE_NEWEST_EDITION).code) failures++;
}

static void chosen_call(void)
{
    static void (*const once[CALLS])(void) = {create_once, append_once, open_once, record_once, rescue_once, thin_once, thin_in_place_once,
                                              replay_once, add_once,    join_once, text_once,   put_once,    at_once,   seal_once};
    if (chosen < CALLS) once[chosen]();
}
static size_t stack_of(int call)
{
    chosen = call;
    memset(painted, CANARY, STACK);
    getcontext(&inside);
    inside.uc_stack.ss_sp = painted;
    inside.uc_stack.ss_size = STACK;
    inside.uc_link = &outside;
    makecontext(&inside, chosen_call, 0);
    swapcontext(&outside, &inside);
    size_t i = 0;
    while (i < STACK && painted[i] == CANARY) i++;
    return STACK - i;
}

static void stacks(void)
{
    size_t empty = stack_of(CALLS), bytes[CALLS];
    for (int call = 0; call < CALLS; call++) {
        bytes[call] = stack_of(call) - empty;
        used = written.length;
    }
    expect(written.code == 0 && opened.code == 0 && opened.records == 1 && sheet.code == 0 && sheet.records == 1, "the measured calls");
    printf("stack bytes of a call: create %zu, append %zu, open %zu, record %zu, rescue %zu, thin %zu, thin in place %zu, replay %zu, "
           "sheet add %zu, join %zu, text %zu, put %zu, record at %zu, seal %zu\n",
           bytes[0], bytes[1], bytes[2], bytes[3], bytes[4], bytes[5], bytes[6], bytes[7], bytes[8], bytes[9], bytes[10], bytes[11],
           bytes[12], bytes[13]);
}

int main(int argc, char **argv)
{
    const char *job = argc > 1 ? argv[1] : "";
    if (argc == 2 && !strcmp(job, "calls")) {
        written_and_read();
        refusals();
        the_limit();
        every_edition();
        every_rule();
        recorded_as_made();
        printf("%ld\n", checks);
        return failures != 0;
    }
    if (argc == 2 && !strcmp(job, "measure")) {
        stacks();
        fill();
        growth();
        return failures != 0;
    }
    if (argc == 3 && (!strcmp(job, "play") || !strcmp(job, "puts") || !strcmp(job, "judge"))) {
        file = fopen(argv[2], "rb");
        if (!file) {
            fprintf(stderr, "traces: cannot read %s\n", argv[2]);
            return 2;
        }
        if (!strcmp(job, "play"))
            play();
        else if (!strcmp(job, "puts"))
            puts_of();
        else
            judge_all();
        return 0;
    }
    fprintf(stderr, "usage: traces calls | play FILE | puts FILE | judge FILE | measure\n");
    return 2;
}
