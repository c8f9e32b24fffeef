/* The primal gradient of the generalized power cone held to a law of barriers, and to no other port: the gradient of the dual barrier at minus the gradient of
   the primal one is minus the point. See run.
   gradient N    at N random points
   gradient one  at the point of docs/DIFFERENCES.md, with both answers */
#include "../check.h"
#include <math.h>
#include <stdlib.h>

static SpindleCone some_cone(void)
{
    /* rule 1: the sum of so many quotients is not always within 2^-50 of 1 */
    SpindleCone c = {3, 1 + (uint32_t)(any() % 32), 1 + (uint32_t)(any() % 32), SPINDLE_RULE_1, {0}};
    double sum = 0;
    for (uint32_t i = 0; i < c.dim1; i++) sum += c.exps[i] = between(0.05, 1);
    for (uint32_t i = 0; i < c.dim1; i++) c.exps[i] /= sum;
    return c;
}

/* A point inside: heads from e^-3 to e^3, and a tail of any direction from 0.05 to 0.95 of the way to the wall. Primal: the wall is at prod x_i^a_i; dual: at
   prod (x_i/a_i)^a_i. */
static void inside(const SpindleCone *c, bool primal, double *x)
{
    double log_wall = 0, square = 0;
    for (uint32_t i = 0; i < c->dim1; i++) {
        x[i] = exp(between(-3, 3));
        log_wall += c->exps[i] * log(primal ? x[i] : x[i] / c->exps[i]);
    }
    double *tail = x + c->dim1;
    for (uint32_t i = 0; i < c->dim2; i++) {
        tail[i] = between(-1, 1);
        square += tail[i] * tail[i];
    }
    double to = between(0.05, 0.95) * exp(log_wall) / sqrt(square);
    for (uint32_t i = 0; i < c->dim2; i++) tail[i] *= to;
}

/* How far the dual gradient at -g is from -s: each head against its own size, the tail against its norm. HUGE_VAL where -g is not in the dual cone. */
static double apart(const SpindleCone *c, const double *s, const double *g)
{
    size_t n = c->dim1 + c->dim2;
    double minus[64] = {0}, most = 0, square = 0;
    for (size_t i = 0; i < n; i++) minus[i] = -g[i];
    SpindleDualGrad back = spindle_dual_grad_h(*c, minus, n);
    if (back.code) return HUGE_VAL;
    for (size_t i = c->dim1; i < n; i++) square += s[i] * s[i];
    for (size_t i = 0; i < n; i++) most = fmax(most, fabs(back.wide.grad[i] + s[i]) / (i < c->dim1 ? s[i] : sqrt(square)));
    return most;
}

/* The Rust's gradient, by the repaired one: its tail is g1/norm_r times the record's r, and g1/norm_r is what every place of the repaired tail has beside s. */
static void with_old_tail(const SpindleCone *c, const double *s, const double *r, double *g)
{
    size_t at = c->dim1;
    for (size_t i = at; i < c->dim1 + c->dim2; i++)
        if (fabs(s[i]) > fabs(s[at])) at = i;
    double slope = g[at] / s[at];
    for (size_t i = 0; i < c->dim2; i++) g[c->dim1 + i] = slope * r[i];
}

static void stop(const char *what, uint32_t code)
{
    printf("FAILED: %s gave %u\n", what, (unsigned)code);
    exit(1);
}

static int compare(const void *a, const void *b)
{
    double x = *(const double *)a, y = *(const double *)b;
    return (x > y) - (x < y);
}

static void one(void)
{
    SpindleCone c = {3, 2, 2, SPINDLE_RULE_1, {0.5, 0.5}};
    double s[4] = {1, 1, 0.5, 0}, z[4] = {1, 1, 0, 0.5}, g[4];
    SpindleUpdated u = spindle_update_scaling(spindle_fresh(c).record, s, 4, z, 4, 1, SPINDLE_DUAL);
    if (u.code) stop("update_scaling", u.code);
    SpindleRounds r = spindle_gradient_primal(u.record, g, 4, s, 4);
    if (r.code) stop("gradient_primal", r.code);
    printf("the point's tail:  %.17g %.17g %.17g %.17g, back within %.2g\n", g[0], g[1], g[2], g[3], apart(&c, s, g));
    with_old_tail(&c, s, u.record.wide.r, g);
    printf("the record's tail: %.17g %.17g %.17g %.17g, back within %.2g\n", g[0], g[1], g[2], g[3], apart(&c, s, g));
}

int main(int count, char **words)
{
    if (count == 2 && !strcmp(words[1], "one")) {
        one();
        return 0;
    }
    long points = count == 2 ? atol(words[1]) : 0, refused = 0, near = 0, kept = 0;
    if (points < 1) {
        fprintf(stderr, "gradient: it takes a number of points, or one\n");
        return 2;
    }
    const double bound = 1e-6;
    double most = 0, *old = malloc((size_t)points * sizeof *old);
    for (long k = 0; k < points; k++) {
        SpindleCone c = some_cone();
        size_t n = c.dim1 + c.dim2;
        double s[64], z[64], g[64], again[64];
        inside(&c, true, s);
        inside(&c, false, z);
        SpindleScaling fresh = spindle_fresh(c).record;
        SpindleRounds r = spindle_gradient_primal(fresh, g, n, s, n);
        if (r.code) stop("gradient_primal of a fresh record", r.code);
        SpindleUpdated u = spindle_update_scaling(fresh, s, n, z, n, 1, SPINDLE_DUAL);
        if (u.code) stop("update_scaling", u.code);
        r = spindle_gradient_primal(u.record, again, n, s, n);
        if (r.code || memcmp(g, again, n * sizeof *g)) {
            printf("FAILED: point %ld: another gradient by another record of the same cone\n", k);
            return 1;
        }
        double off = apart(&c, s, g);
        if (!(off <= bound)) {
            printf("FAILED: point %ld: back within %g, not %g\n", k, off, bound);
            return 1;
        }
        most = fmax(most, off);
        with_old_tail(&c, s, u.record.wide.r, g);
        off = apart(&c, s, g);
        if (off == HUGE_VAL)
            refused++;
        else {
            near += off <= bound;
            old[kept++] = off;
        }
    }
    qsort(old, (size_t)kept, sizeof *old, compare);
    printf("gradient: %ld points come back within %.2g (asked: %g)\n", points, most, bound);
    printf("gradient: with the tail of a record, %ld of them are not in the dual cone; the others are off by %.2g at least, %.2g in the "
           "middle\n",
           refused, kept ? old[0] : 0, kept ? old[kept / 2] : 0);
    if (near) {
        printf("FAILED: %ld points come back with the old tail, too\n", near);
        return 1;
    }
    free(old);
    return 0;
}
