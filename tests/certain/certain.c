/* Asks the library about points of the three cones and their duals, and searches there. See run.
   A line begins with its job and "KIND DIM1 DIM2 RULE SIDE EXPONENTS..". What follows, and what it is answered by:
     point    POINT..                                          CODE ANSWER
     search   DIRECTION.. POINT.. START STEP SMALLEST          CODE STEP POINT..
     round    DZ.. DS.. Z.. S.. START STEP SMALLEST            CODE DUAL-STEP PRIMAL-STEP COMMON-STEP PLAN-STEP, and six points: step_length's
              dual and primal one, common_step's two of two such cones on the SIDE, plan_step's dual and primal one of one such cone
   DIM1 is the number of exponents (0, 1 or those of a generalized cone), DIM1 + DIM2 that of the coordinates of a generalized cone; the others
   have 3. SIDE is 1 for primal and 0 for dual; numbers are the patterns of doubles in base 16. */
#include "../check.h"
#include <inttypes.h>

static bool number(double *x)
{
    uint64_t bits;
    if (scanf("%" SCNx64, &bits) != 1) return false;
    *x = double_of(bits);
    return true;
}

static bool numbers(double *x, size_t n)
{
    for (size_t i = 0; i < n; i++)
        if (!number(x + i)) return false;
    return true;
}

static uint32_t worst(uint32_t a, uint32_t b) { return a ? a : b; }

/* step_length, common_step and plan_step of one round; both cones of the common step have the same numbers */
static bool played(SpindleCone cone, int primal, size_t n)
{
    double d[2][128], q[2][128], length[2][64], common[128], plan[2][64];
    SpindleSettings how;
    if (!numbers(d[0], n) || !numbers(d[1], n) || !numbers(q[0], n) || !numbers(q[1], n) || !number(&how.start) || !number(&how.step)
        || !number(&how.smallest))
        return false;
    for (int side = 0; side < 2; side++) {
        memcpy(d[side] + n, d[side], n * sizeof(double));
        memcpy(q[side] + n, q[side], n * sizeof(double));
    }
    SpindleCone both[2] = {cone, cone};
    SpindleSteps s = spindle_step_length(cone, d[0], n, d[1], n, q[0], n, q[1], n, length[0], n, length[1], n, how);
    SpindleFound c = spindle_common_step(both, 2, primal, d[primal], 2 * n, q[primal], 2 * n, common, 2 * n, how);
    SpindleFound p = spindle_plan_step(&cone, 1, d[0], n, d[1], n, q[0], n, q[1], n, plan[0], n, plan[1], n, how);
    printf("%" PRIu32 " %" PRIx64 " %" PRIx64 " %" PRIx64 " %" PRIx64, worst(s.code, worst(c.code, p.code)), bits_of(s.dual_step),
           bits_of(s.primal_step), bits_of(c.step), bits_of(p.step));
    const double *points[] = {length[0], length[1], common, common + n, plan[0], plan[1]};
    for (int i = 0; i < 6; i++)
        for (size_t k = 0; k < n; k++) printf(" %" PRIx64, bits_of(points[i][k]));
    printf("\n");
    return true;
}

int main(void)
{
    SpindleCone cone = {0};
    char job[8];
    int primal;
    while (scanf("%7s %" SCNu32 " %" SCNu32 " %" SCNu32 " %" SCNu32 " %d", job, &cone.kind, &cone.dim1, &cone.dim2, &cone.rule, &primal)
           == 6) {
        double p[64], dq[64], q[64];
        SpindleSettings how;
        size_t n = cone.kind == SPINDLE_GENERALIZED ? cone.dim1 + cone.dim2 : 3;
        bool known = cone.dim1 <= 32 && cone.dim2 <= 32 && numbers(cone.exps, cone.dim1);
        if (known && strcmp(job, "point") == 0 && numbers(p, n)) {
            SpindleVerdict v = primal ? spindle_is_primal_feasible(cone, p, n) : spindle_is_dual_feasible(cone, p, n);
            printf("%" PRIu32 " %" PRIu32 "\n", v.code, v.answer);
        } else if (known && strcmp(job, "search") == 0 && numbers(dq, n) && numbers(q, n) && number(&how.start) && number(&how.step)
                   && number(&how.smallest)) {
            memset(p, 0, sizeof p);
            SpindleFound f = spindle_backtrack_search(cone, primal, dq, n, q, n, p, n, how);
            printf("%" PRIu32 " %" PRIx64, f.code, bits_of(f.step));
            for (size_t i = 0; i < n; i++) printf(" %" PRIx64, bits_of(p[i]));
            printf("\n");
        } else if (!known || strcmp(job, "round") != 0 || !played(cone, primal == 1, n)) {
            fprintf(stderr, "certain: not a call: %s\n", job);
            return 2;
        }
    }
    return 0;
}
