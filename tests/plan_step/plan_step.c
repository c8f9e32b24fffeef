/* spindle_plan_step against a naive loop over spindle_is_dual_feasible and spindle_is_primal_feasible, for random plans: code, step, count and both points
   bit for bit, with canaries around what is written; refusals among them. Beside it the two answers of spindle_common_step: a step that is not 0 is above
   neither, and where the two are one number it is that number.

       plan_step CALLS [SEED]

   Prints what it met; exit status 1 at the first difference. */
#include "../check.h"
#include <math.h>
#include <stdlib.h>

enum { MOST = 12, LONG = MOST * 64, ROOM = LONG + 16, TOO_MANY = 1025 };

typedef struct {
    SpindleCone cones[TOO_MANY];
    size_t ncones, n, length[6]; /* dz ds z s dual primal */
    double dz[ROOM], ds[ROOM], z[ROOM], s[ROOM];
    SpindleSettings settings;
} Plan;

typedef struct {
    SpindleFound found;
    double dual[ROOM], primal[ROOM];
} Answer;

static SpindleCone random_cone(void)
{
    SpindleCone cone = {.kind = 1 + below(3), .rule = 1 + below(2)};
    if (cone.kind == SPINDLE_POWER) cone.exps[0] = between(0.05, 0.95);
    if (cone.kind == SPINDLE_GENERALIZED) {
        cone.dim1 = 1u << (1 + below(3)); /* exponents 1/2, 1/4 or 1/8 sum to 1 exactly */
        cone.dim2 = 1 + below(4);
        for (unsigned i = 0; i < cone.dim1; i++) cone.exps[i] = 1.0 / cone.dim1;
    }
    return cone;
}

static void random_plan(Plan *plan)
{
    plan->ncones = 1 + below(MOST);
    plan->n = 0;
    /* how far each side is moved; one in four starts outside, so far back that a trial comes in */
    double dual_far = ldexp(1.0, (int)below(8) - 5), primal_far = ldexp(1.0, (int)below(8) - 5);
    double dual_back = below(4) ? 0 : between(0, 1), primal_back = below(4) ? 0 : between(0, 1);
    for (size_t i = 0; i < plan->ncones; i++) {
        SpindleCone cone = plan->cones[i] = random_cone();
        size_t n = spindle_length(cone), at = plan->n;
        spindle_unit_initialization(cone, plan->z + at, n, plan->s + at, n);
        for (size_t k = at; k < at + n; k++) {
            plan->z[k] *= between(0.8, 1.2);
            plan->s[k] *= between(0.8, 1.2);
            plan->dz[k] = dual_far * between(-1, 1);
            plan->ds[k] = primal_far * between(-1, 1);
            plan->z[k] -= dual_back * plan->dz[k];
            plan->s[k] -= primal_back * plan->ds[k];
        }
        plan->n += n;
    }
    for (int i = 0; i < 6; i++) plan->length[i] = plan->n;
    double steps[] = {0.5, 0.8, 0.99};
    plan->settings =
        (SpindleSettings){below(8) == 0 ? between(1e-5, 2e-4) : between(0.1, 2), steps[below(3)], below(4) == 0 ? 0.01 : 0.0001};
}

/* something wrong, or two things */
static void spoil(Plan *plan)
{
    double wrong[] = {NAN, INFINITY, -INFINITY}, *slices[] = {plan->dz, plan->ds, plan->z, plan->s};
    for (unsigned times = 1 + below(2); times; times--) switch (below(5)) {
        case 0:
            if (below(2))
                plan->cones[below(plan->ncones ? (unsigned)plan->ncones : 1)].rule = 3;
            else if (below(2))
                plan->ncones = 0;
            else {
                for (size_t i = plan->ncones; i < TOO_MANY; i++) plan->cones[i] = plan->cones[0];
                plan->ncones = TOO_MANY;
            }
            break;
        case 1: plan->length[below(6)] += below(2) ? 1 : -1; break;
        case 2: slices[below(4)][below((unsigned)plan->n)] = wrong[below(3)]; break;
        case 3: plan->settings.start = below(2) ? wrong[below(3)] : -1; break;
        default:
            if (below(2))
                plan->settings.step = 0.995;
            else
                plan->settings.smallest = 0;
            break;
        }
}

/* ---- what is expected */

static int all_finite(const double *x, size_t n)
{
    for (size_t i = 0; i < n; i++)
        if (!isfinite(x[i])) return 0;
    return 1;
}

static uint32_t judged(const Plan *p)
{
    if (p->ncones < 1 || p->ncones > 1024) return 1;
    size_t n = 0;
    for (size_t i = 0; i < p->ncones; i++) {
        if (spindle_fresh(p->cones[i]).code != 0) return 1;
        n += spindle_length(p->cones[i]);
    }
    for (int i = 0; i < 6; i++)
        if (p->length[i] != n) return 2;
    SpindleSettings how = p->settings;
    if (!all_finite(p->dz, n) || !all_finite(p->ds, n) || !all_finite(p->z, n) || !all_finite(p->s, n)) return 3;
    if (!isfinite(how.start) || !isfinite(how.step) || !isfinite(how.smallest)) return 3;
    if (!(how.start > 0) || !(how.step > 0) || how.step > 0.99 || !(how.smallest >= 0x1p-1022)) return 4;
    return 0;
}

static int side_passes(const Plan *p, int primal, const double *point, uint32_t *count)
{
    for (size_t i = 0, at = 0; i < p->ncones; at += spindle_length(p->cones[i++])) {
        size_t n = spindle_length(p->cones[i]);
        ++*count;
        if ((primal ? spindle_is_primal_feasible(p->cones[i], point + at, n) : spindle_is_dual_feasible(p->cones[i], point + at, n)).answer
            != SPINDLE_YES)
            return 0;
    }
    return 1;
}

static void naive(const Plan *p, Answer *a)
{
    a->found = (SpindleFound){.code = judged(p)};
    if (a->found.code) return;
    for (double step = p->settings.start;;) {
        for (size_t k = 0; k < p->n; k++) a->dual[8 + k] = p->z[k] + step * p->dz[k];
        for (size_t k = 0; k < p->n; k++) a->primal[8 + k] = p->s[k] + step * p->ds[k];
        if (side_passes(p, 0, a->dual + 8, &a->found.count) && side_passes(p, 1, a->primal + 8, &a->found.count)) {
            a->found.step = step;
            return;
        }
        step *= p->settings.step;
        if (step < p->settings.smallest) break;
    }
    memcpy(a->dual + 8, p->z, p->n * sizeof(double));
    memcpy(a->primal + 8, p->s, p->n * sizeof(double));
}

/* ---- the comparison */

static void canaries(Answer *a)
{
    for (int i = 0; i < ROOM; i++) {
        uint64_t b = 0x4059DEADBEEF0000u + (uint64_t)i, c = ~b;
        memcpy(&a->dual[i], &b, 8);
        memcpy(&a->primal[i], &c, 8);
    }
}

static int same(const Answer *a, const Answer *b)
{
    return a->found.code == b->found.code && a->found.count == b->found.count && memcmp(&a->found.step, &b->found.step, 8) == 0
           && memcmp(a->dual, b->dual, sizeof a->dual) == 0 && memcmp(a->primal, b->primal, sizeof a->primal) == 0;
}

int main(int argc, char **argv)
{
    static Plan plan;
    static Answer got, want, side;
    unsigned long calls = argc > 1 ? strtoul(argv[1], NULL, 10) : 1000;
    seed = argc > 2 ? strtoull(argv[2], NULL, 10) : 1;
    unsigned long codes[5] = {0}, zero = 0, tests = 0, below_both = 0, dual_ends = 0;
    for (unsigned long call = 0; call < calls; call++) {
        random_plan(&plan);
        if (below(5) == 0) spoil(&plan);
        canaries(&got);
        canaries(&want);
        canaries(&side);
        got.found = spindle_plan_step(plan.cones, plan.ncones, plan.dz, plan.length[0], plan.ds, plan.length[1], plan.z, plan.length[2],
                                      plan.s, plan.length[3], got.dual + 8, plan.length[4], got.primal + 8, plan.length[5], plan.settings);
        naive(&plan, &want);
        int ok = same(&got, &want);
        codes[want.found.code]++;
        if (want.found.code == 0) {
            SpindleFound d =
                spindle_common_step(plan.cones, plan.ncones, false, plan.dz, plan.n, plan.z, plan.n, side.dual + 8, plan.n, plan.settings);
            SpindleFound p =
                spindle_common_step(plan.cones, plan.ncones, true, plan.ds, plan.n, plan.s, plan.n, side.primal + 8, plan.n, plan.settings);
            double least = d.step < p.step ? d.step : p.step;
            ok = ok && d.code == 0 && p.code == 0 && got.found.step <= least && (d.step != p.step || got.found.step == d.step);
            zero += got.found.step == 0;
            below_both += got.found.step < least;
            dual_ends += d.step < p.step;
            tests += got.found.count;
        }
        if (!ok) {
            printf("call %lu differs: code %u step %a count %u, expected code %u step %a count %u\n", call, got.found.code, got.found.step,
                   got.found.count, want.found.code, want.found.step, want.found.count);
            return 1;
        }
    }
    printf("%lu calls the same: %lu done (%lu of them with step 0, %lu with a step below the least of the two sides', %lu where the dual "
           "side is the less), "
           "refused %lu with 1, %lu with 2, %lu with 3, %lu with 4; %lu single tests\n",
           calls, codes[0], zero, below_both, dual_ends, codes[1], codes[2], codes[3], codes[4], tests);
    return 0;
}
