/* A caller that is tuned on a shrink step of 0.8, as the nightly drain is, from C. It passes its settings outright, so that no change of the house's reaches
   it, and keeps its searches with flag 0: the trace then has the settings beside each of them, and replays the same whatever its edition means by default.
   Beside each search stands the same one as callers have it who pass no settings. `sh test.sh` builds it, runs it and compares what it prints, and

       cc -Iinclude examples/drain.c target/native/libspindle.a && ./a.out */
#include <spindle.h>
#include <stdio.h>

static const SpindleSettings drain = {.start = 1.0, .step = 0.8, .smallest = 0.0001};

static void say(const char *who, SpindleSteps steps)
{
    if (steps.code)
        printf("  %-6s refused: %s\n", who, spindle_meaning(steps.code));
    else
        printf("  %-6s dual step %.17g after %u tests, primal step %.17g after %u tests\n", who, steps.dual_step,
               (unsigned)steps.dual_count, steps.primal_step, (unsigned)steps.primal_count);
}

int main(void)
{
    SpindleCone cone = {.kind = SPINDLE_EXPONENTIAL, .rule = SPINDLE_RULE_1}; /* the drain is of release 1 */
    double inside[3], z[3], outside[3] = {0, -1, 1}, still[3] = {0, 0, 0};
    double dz[3] = {0.5, -2.0, 0.25}, ds[3] = {0.25, -4.0, 0.5}, dual_point[3], primal_point[3];
    uint32_t code = spindle_unit_initialization(cone, z, 3, inside, 3);
    if (code) return 1;

    uint8_t bytes[600];
    SpindleWritten trace = spindle_trace_create(bytes, sizeof bytes);
    /* out of the cone's inside, and where no trial passes */
    for (int i = 0; i < 2; i++) {
        const double *s = i ? outside : inside, *to = i ? still : ds;
        printf("%s\n", i ? "no trial of the primal side passes" : "out of the cone");
        SpindleSteps steps = spindle_step_length(cone, dz, 3, to, 3, z, 3, s, 3, dual_point, 3, primal_point, 3, drain);
        say("drain:", steps);
        say("house:", spindle_step_length(cone, dz, 3, to, 3, z, 3, s, 3, dual_point, 3, primal_point, 3, spindle_house_settings(1.0)));
        trace = spindle_trace_append(bytes, sizeof bytes, trace.length, cone, 0, drain, dz, 3, to, 3, z, 3, s, 3, steps);
        if (trace.code) return 1;
    }
    uint64_t at[2];
    SpindleReplayed replayed = spindle_replay(bytes, trace.length, at, 2);
    if (replayed.code) return 1;
    printf("replayed: records %u, same %u, differ %u\n", (unsigned)replayed.records, (unsigned)replayed.same, (unsigned)replayed.differ);
    return 0;
}
