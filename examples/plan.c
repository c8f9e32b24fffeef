/* One cone's work in a round of a plan, from C: make a record, scale it, take the Hessian block of this very scaling, search a step, test a point, keep the
   search in a trace, and see refusals.
   Built and run by `sh build.sh`, and by

       cc -Iinclude examples/plan.c target/native/libspindle.a && ./a.out */
#include <spindle.h>
#include <stdio.h>

static void say(const char *what, uint32_t code) { printf("%-22s %u (%s)\n", what, (unsigned)code, spindle_meaning(code)); }

static void row(const char *what, const double *x, size_t n)
{
    printf("%-22s", what);
    for (size_t i = 0; i < n; i++) printf(" %.17g", x[i]);
    printf("\n");
}

int main(void)
{
    SpindleCone cone = {.kind = SPINDLE_EXPONENTIAL,
                        .rule = SPINDLE_RULE_2}; /* places that a kind does not use may hold anything; every kind names its rule */
    SpindleUpdated fresh = spindle_fresh(cone);
    say("fresh", fresh.code);

    double s[3], z[3];
    say("unit_initialization", spindle_unit_initialization(cone, z, 3, s, 3));
    row("  s = z =", s, 3);

    SpindleUpdated scaled = spindle_update_scaling(fresh.record, s, 3, z, 3, 1.0, SPINDLE_PRIMAL_DUAL);
    say("update_scaling", scaled.code);
    uint32_t serial = scaled.record.serial; /* what later calls of this round expect */
    double block[6];
    say("get_hs", spindle_get_hs(scaled.record, serial, block, 6));
    row("  block =", block, 6);

    double dz[3] = {0.5, -2.0, 0.25}, ds[3] = {0.25, -4.0, 0.5}, dual_point[3], primal_point[3];
    SpindleSettings settings = spindle_house_settings(1.0);
    SpindleSteps steps = spindle_step_length(cone, dz, 3, ds, 3, z, 3, s, 3, dual_point, 3, primal_point, 3, settings);
    say("step_length", steps.code);
    printf("  dual step %.17g after %u tests, primal step %.17g after %u tests\n", steps.dual_step, (unsigned)steps.dual_count,
           steps.primal_step, (unsigned)steps.primal_count);
    row("  tested dual point =", dual_point, 3);
    row("  tested primal point =", primal_point, 3);

    /* a point that a search hands back with a step above 0 tests as yes; on the cone's wall the sign of the residue is noise */
    double wall[3] = {0, 1, 1};
    static const char *const answers[] = {[SPINDLE_NO] = "no", [SPINDLE_YES] = "yes", [SPINDLE_UNDECIDED] = "undecided"};
    printf("  feasible: the tested primal point %s, the point (0, 1, 1) %s\n",
           answers[spindle_is_primal_feasible(cone, primal_point, 3).answer], answers[spindle_is_primal_feasible(cone, wall, 3).answer]);

    /* what a search was given and what it answered, as bytes for a file; flag 1: it ran with the house's settings */
    uint8_t bytes[400];
    SpindleWritten trace = spindle_trace_create(bytes, sizeof bytes);
    say("trace_create", trace.code);
    trace = spindle_trace_append(bytes, sizeof bytes, trace.length, cone, 1, settings, dz, 3, ds, 3, z, 3, s, 3, steps);
    say("trace_append", trace.code);
    SpindleOpened opened = spindle_trace_open(bytes, trace.length);
    printf("  %u bytes, edition %u, records: %u\n", (unsigned)trace.length, (unsigned)opened.edition, (unsigned)opened.records);
    SpindleRecorded recorded = spindle_trace_record(bytes, trace.length, 0);
    say("trace_record", recorded.code);
    row("  recorded dz =", recorded.dz, 3);
    printf("  recorded dual step %.17g, primal step %.17g\n", recorded.steps.dual_step, recorded.steps.primal_step);

    /* a refusal changes nothing: the block below keeps what it held */
    double kept[6] = {1, 2, 3, 4, 5, 6};
    say("get_hs, never scaled", spindle_get_hs(fresh.record, serial, kept, 6));
    row("  block =", kept, 6);
    say("get_hs, five places", spindle_get_hs(scaled.record, serial, kept, 5));

    /* exponents that sum to 1 + 2^-45: rule 1 takes them, rule 2 does not, and a cone that names no rule is refused whatever it holds */
    SpindleCone wide = {.kind = SPINDLE_GENERALIZED, .dim1 = 2, .dim2 = 1, .rule = SPINDLE_RULE_1, .exps = {0.25, 0.75 + 0x1p-45}};
    say("fresh under rule 1", spindle_fresh(wide).code);
    wide.rule = SPINDLE_RULE_2;
    say("fresh under rule 2", spindle_fresh(wide).code);
    say("fresh, no rule named", spindle_fresh((SpindleCone){.kind = SPINDLE_EXPONENTIAL}).code);

    /* the next round has the next serial: the record of the round before is told apart */
    SpindleUpdated next = spindle_update_scaling(scaled.record, s, 3, z, 3, 1.0, SPINDLE_PRIMAL_DUAL);
    printf("  serials: fresh %u, first round %u, next round %u\n", (unsigned)fresh.record.serial, (unsigned)serial,
           (unsigned)next.record.serial);
    say("get_hs, round before", spindle_get_hs(scaled.record, next.record.serial, kept, 6));
    return 0;
}
