/* A trace of searches that were made: what the tests of the tools over traces begin with. */
#include "../check.h"
#include <math.h>
#include <stdlib.h>

enum { RECORDS = 12, NEWEST = SPINDLE_NEWEST_EDITION };

static uint8_t bytes[70000], changed[sizeof bytes];
static size_t used, begins[RECORDS + 1]; /* begins[RECORDS]: where the last record ends */

/* ---- a trace of searches that were made */

/* what flag 1 means in a trace of the edition: in edition 1 what callers got who passed no settings before Order 8, later what they get now */
static SpindleSettings by_default(uint32_t edition)
{
    return edition == 1 ? (SpindleSettings){1.0, 0.8, 0.0001} : spindle_house_settings(1.0);
}

/* how many bytes stand between a record's dim2 and its exponents: edition 3 has the rule there */
static inline size_t rule_bytes(uint32_t edition) { return edition < 3 ? 0 : 4; }

static const SpindleCone cones[3] = {
    {1, 0, 0, SPINDLE_RULE_1, {0}}, {2, 0, 0, SPINDLE_RULE_1, {0.3}}, {3, 2, 3, SPINDLE_RULE_1, {0.25, 0.75}}};

/* of the three kinds in turn, three told their settings and three by default; where the edition keeps it, the second six are under rule 2 */
static void record(uint32_t edition, size_t i)
{
    SpindleCone cone = cones[i % 3];
    if (edition >= 3 && i >= 6) cone.rule = SPINDLE_RULE_2;
    size_t n = cone.kind == 3 ? 5 : 3;
    double z[5], s[5], dz[5], ds[5], dual[5], primal[5];
    expect(spindle_unit_initialization(cone, z, n, s, n) == 0, "a starting point");
    for (size_t k = 0; k < n; k++) {
        dz[k] = ((double)k - 1.5) * (1.0 + (double)i);
        ds[k] = (1.25 - (double)k) * (0.5 + (double)i);
    }
    uint32_t flag = i / 3 % 2;
    SpindleSettings settings = flag ? by_default(edition) : (SpindleSettings){0.9, 0.7, 1e-5};
    SpindleSteps steps = spindle_step_length(cone, dz, n, ds, n, z, n, s, n, dual, n, primal, n, settings);
    expect(steps.code == 0, "a search");
    SpindleWritten w = spindle_trace_append(bytes, sizeof bytes, used, cone, flag, settings, dz, n, ds, n, z, n, s, n, steps);
    expect(w.code == 0, "an append");
    begins[i + 1] = begins[i] + (w.length - used - 8);
    used = w.length;
}
/* the edition stands in four bytes, eight before the end; append keeps it */
static void record_all(uint32_t edition)
{
    used = spindle_trace_create(bytes, sizeof bytes).length;
    expect(bytes[used - 8] == NEWEST, "a new trace is of the newest edition");
    bytes[used - 8] = (uint8_t)edition;
    for (size_t i = 0; i < RECORDS; i++) record(edition, i);
    SpindleOpened o = spindle_trace_open(bytes, used);
    expect(o.code == 0 && o.edition == edition && o.records == RECORDS, "append keeps the edition");
}

/* ---- files for the programs */

static void keep(const char *folder, const char *name, const char *kind, const void *from, size_t n)
{
    char path[4096];
    snprintf(path, sizeof path, "%s/%s.%s", folder, name, kind);
    FILE *f = fopen(path, "wb");
    if (!f || fwrite(from, 1, n, f) != n || fclose(f)) exit(2);
}
