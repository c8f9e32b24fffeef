/* Two whole plans, from C: twelve virtual machines copy between four hosts, and get fair shares of the bandwidth.

       maximise    sum of w log x  -  sum of c x^p  -  sum of the hosts' delays
       so that     what a host sends, and what it takes in, is at most C

   x is a machine's share, w its weight; some machines pay c x^p for their delay. The first plan's hosts pay |(in, out)/C|^2, by a
   generalized cone: with a cone of kind 3 all cones take the dual scaling. The second plan's hosts pay (in/C)^2.5, by a power cone:
   it takes the primal-dual scaling.

   The library has the cones, the step and the kernels. The rest of a solver is here: the embedding with tau and kappa, an orthant for the
   capacities, and a dense L D L'. docs/loop.md explains it. No point is used that was not tested. A plan ends only where the smooth
   problem's own conditions hold, too, in which no cone occurs.

       cc -ffp-contract=off -Iinclude examples/fairshare.c target/native/libspindle.a && ./a.out [TOLERANCE]     1e-6, if none is named

   Without -ffp-contract=off a compiler for Arm fuses products and sums, and the rounds are others than those of fairshare.stdout. */
#include <spindle.h>
#include <stdio.h>
#include <stdlib.h>
#include <string.h>

enum { MACHINES = 12, HOSTS = 4, CONES = 22, VARIABLES = 34, ROWS = 78, SYSTEM = VARIABLES + ROWS };
static const double C = 10;

typedef struct {
    int from, to;
    double weight, cost, power;
} Machine; /* cost 0: its delay is free */

/* Minimise q'x so that Ax + s = b. The first `orthant` rows of s are not below 0, the others lie in the cones, one behind the other. */
typedef struct {
    const Machine *machines; /* the plan that it was made of */
    bool general;
    int n, m, orthant, ncones, degree;
    double A[ROWS][VARIABLES], b[ROWS], q[VARIABLES];
    double factor[ROWS]; /* by which the row was multiplied */
    SpindleCone cones[CONES];
    int at[CONES], length[CONES]; /* a cone's rows */
} Problem;

typedef struct {
    double x[VARIABLES], s[ROWS], z[ROWS], tau, kappa;
} Point; /* where the plan stands, or a direction */

typedef struct {
    double x[VARIABLES], z[ROWS], tau;
} Residual;

typedef struct {
    Residual residual;
    double mu, sigma;
    Point affine, combined, tested; /* both directions; the points that were tested */
} Round;

/* A round's scaling of each cone, and the system K that it makes: K = L D L'. */
typedef struct {
    SpindleScaling records[CONES];
    uint32_t serials[CONES];
    double K[SYSTEM][SYSTEM], L[SYSTEM][SYSTEM], D[SYSTEM];
    double for_tau[SYSTEM]; /* K's answer to (-q, b) */
} System;

typedef struct {
    unsigned long tests, used, yes, cuts; /* tests of a cone; parts of points that were used, and those that are a yes; steps cut in 7 */
    double barriers[2];                   /* their sum at the start; the largest at the end of a step */
} Counts;

static void must(const char *call, uint32_t code)
{
    if (code == SPINDLE_DONE) return;
    fprintf(stderr, "fairshare: %s: %s\n", call, spindle_meaning(code));
    exit(1);
}

static double size(double v) { return v < 0 ? -v : v; }
static double larger(double v, double w) { return v > w || v != v ? v : w; } /* a NaN stays */

static double dot(const double *v, const double *w, int n)
{
    double sum = 0;
    for (int i = 0; i < n; i++) sum += v[i] * w[i];
    return sum;
}

/* ---- the plan as a problem over cones */

static SpindleCone exponential(void) { return (SpindleCone){.kind = SPINDLE_EXPONENTIAL, .rule = SPINDLE_RULE_2}; }
static SpindleCone power(double exponent) { return (SpindleCone){.kind = SPINDLE_POWER, .rule = SPINDLE_RULE_2, .exps = {exponent}}; }
static SpindleCone square(void)
{
    return (SpindleCone){.kind = SPINDLE_GENERALIZED, .dim1 = 2, .dim2 = 2, .rule = SPINDLE_RULE_2, .exps = {0.5, 0.5}};
}

/* One cone more, with a variable of its own: s = (variable, 1, ..). Hands back the row behind the 1. */
static int add_cone(Problem *p, SpindleCone cone, double price)
{
    int first = p->m, variable = p->n++;
    p->cones[p->ncones] = cone;
    p->at[p->ncones] = first;
    p->length[p->ncones] = (int)spindle_length(cone);
    p->ncones++;
    p->m += (int)spindle_length(cone);
    p->degree += (int)spindle_degree(cone);
    p->A[first][variable] = -1;
    p->b[first + 1] = 1;
    p->q[variable] = price;
    return first + 2;
}

static void lay_out_machines(Machine *machines)
{
    static const double powers[3] = {2, 3, 1.5};
    for (int i = 0; i < MACHINES; i++) {
        machines[i].from = i % HOSTS;
        machines[i].to = (i + 1 + i / HOSTS) % HOSTS;
        machines[i].weight = 1 + i % 3;
        machines[i].cost = i < 6 ? 0.25 * (1 + i % 2) : 0;
        machines[i].power = powers[i % 3];
    }
}

static void lay_out(Problem *p, const Machine *machines, bool general)
{
    memset(p, 0, sizeof *p);
    p->machines = machines;
    p->general = general;
    p->n = MACHINES;
    p->m = p->orthant = p->degree = 2 * HOSTS;
    for (int h = 0; h < 2 * HOSTS; h++) p->b[h] = C;
    for (int i = 0; i < MACHINES; i++) {
        p->A[machines[i].from][i] = 1;
        p->A[HOSTS + machines[i].to][i] = 1;
    }
    for (int i = 0; i < MACHINES; i++) { /* t <= log x: (t, 1, x) */
        int row = add_cone(p, exponential(), -machines[i].weight);
        p->A[row][i] = -1;
    }
    for (int i = 0; i < MACHINES; i++) { /* x^p <= d: (d, 1, x) */
        if (machines[i].cost == 0) continue;
        int row = add_cone(p, power(1 / machines[i].power), machines[i].cost);
        p->A[row][i] = -1;
    }
    for (int h = 0; h < HOSTS; h++) { /* (d, 1, in/C, out/C), or (d, 1, in/C) */
        int row = add_cone(p, general ? square() : power(0.4), 1);
        for (int i = 0; i < MACHINES; i++) {
            if (machines[i].to == h) p->A[row][i] = -1 / C;
            if (general && machines[i].from == h) p->A[row + 1][i] = -1 / C;
        }
    }
}

/* Divides each row by its largest entry; the rows of one cone get one factor, their mean. */
static void even_out(Problem *p)
{
    for (int i = 0; i < p->m; i++) {
        double largest = 0;
        for (int j = 0; j < p->n; j++) largest = larger(largest, size(p->A[i][j]));
        p->factor[i] = largest > 0 ? 1 / largest : 1;
    }
    for (int k = 0; k < p->ncones; k++) {
        double delta[4], *factor = p->factor + p->at[k];
        must("rectify_equilibration", spindle_rectify_equilibration(p->cones[k], delta, p->length[k], factor, p->length[k]).code);
        double mean = delta[0] * factor[0];
        for (int i = 0; i < p->length[k]; i++) factor[i] = mean;
    }
    for (int i = 0; i < p->m; i++) {
        for (int j = 0; j < p->n; j++) p->A[i][j] *= p->factor[i];
        p->b[i] *= p->factor[i];
    }
}

/* ---- the system of equations: dense, since the plan is small */

/* Variables have pivots above 0, rows below. A little is added to each; solve takes it away again. */
static void factorise(System *y, int n, int all)
{
    for (int j = 0; j < all; j++) {
        y->D[j] = y->K[j][j] + (j < n ? 1e-9 : -1e-9);
        for (int k = 0; k < j; k++) y->D[j] -= y->L[j][k] * y->L[j][k] * y->D[k];
        for (int i = j + 1; i < all; i++) {
            double entry = y->K[i][j];
            for (int k = 0; k < j; k++) entry -= y->L[i][k] * y->L[j][k] * y->D[k];
            y->L[i][j] = entry / y->D[j];
        }
    }
}

static void solve(const System *y, int all, const double *right, double *v)
{
    double rest[SYSTEM];
    memset(v, 0, all * sizeof *v);
    for (int refinement = 0; refinement < 4; refinement++) {
        for (int i = 0; i < all; i++) rest[i] = right[i] - dot(y->K[i], v, all);
        for (int i = 0; i < all; i++) rest[i] -= dot(y->L[i], rest, i);
        for (int i = 0; i < all; i++) rest[i] /= y->D[i];
        for (int i = all - 1; i >= 0; i--) {
            for (int k = i + 1; k < all; k++) rest[i] -= y->L[k][i] * rest[k];
        }
        for (int i = 0; i < all; i++) v[i] += rest[i];
    }
}

/* ---- a round; the numbers are those of docs/loop.md */

/* 2, kinds 1 and 2: get_hs gives the whole block, its upper triangle packed. */
static void put_block(const Problem *p, System *y, int k)
{
    int first = p->n + p->at[k], next = 0;
    double block[6];
    must("get_hs", spindle_get_hs_in_place(&y->records[k], y->serials[k], block, 6));
    for (int j = 0; j < 3; j++) {
        for (int i = 0; i <= j; i++) y->K[first + i][first + j] = y->K[first + j][first + i] = -block[next++];
    }
}

/* 2, kind 3: get_hs gives the diagonal mu D alone. The block is mu (D + pp' - qq' - rr') of the record. */
static void put_wide_block(const Problem *p, System *y, int k)
{
    int first = p->n + p->at[k], length = p->length[k], head = p->cones[k].dim1;
    const SpindleWide *wide = &y->records[k].wide;
    double diagonal[4];
    must("get_hs", spindle_get_hs_in_place(&y->records[k], y->serials[k], diagonal, length));
    for (int j = 0; j < length; j++) {
        for (int i = 0; i < length; i++) {
            double entry = wide->p[i] * wide->p[j];
            if (i < head && j < head) entry -= wide->q[i] * wide->q[j];
            if (i >= head && j >= head) entry -= wide->r[i - head] * wide->r[j - head];
            y->K[first + i][first + j] = -(wide->mu * entry + (i == j ? diagonal[i] : 0));
        }
    }
}

/* 1 and 2: each record is scaled at s and z; K = [0 A'; A -Hs]. */
static void scale(const Problem *p, System *y, const Point *at, double mu, uint32_t strategy)
{
    int n = p->n, all = p->n + p->m;
    for (int i = 0; i < p->m; i++) {
        for (int j = 0; j < n; j++) y->K[n + i][j] = y->K[j][n + i] = p->A[i][j];
    }
    for (int i = 0; i < p->orthant; i++) y->K[n + i][n + i] = -at->s[i] / at->z[i];
    for (int k = 0; k < p->ncones; k++) {
        int a = p->at[k], length = p->length[k];
        must("update_scaling", spindle_update_scaling_in_place(&y->records[k], at->s + a, length, at->z + a, length, mu, strategy));
        y->serials[k] = y->records[k].serial;
        if (p->cones[k].kind == SPINDLE_GENERALIZED)
            put_wide_block(p, y, k);
        else
            put_block(p, y, k);
    }
    factorise(y, n, all);
    double right[SYSTEM];
    for (int j = 0; j < n; j++) right[j] = -p->q[j];
    memcpy(right + n, p->b, p->m * sizeof *right);
    solve(y, all, right, y->for_tau);
}

/* 3 and 5: the direction for Hs dz + ds = -c and tau dkappa + kappa dtau = -t, which takes the share `by` of the residuals away. */
static void direct(const Problem *p, const System *y, const Point *at, const Residual *r, double by, const double *c, double t, Point *to)
{
    int n = p->n, m = p->m;
    double right[SYSTEM], v[SYSTEM];
    for (int j = 0; j < n; j++) right[j] = by * r->x[j];
    for (int i = 0; i < m; i++) right[n + i] = c[i] - by * r->z[i];
    solve(y, n + m, right, v);
    double above = by * r->tau - t / at->tau + dot(p->q, v, n) + dot(p->b, v + n, m);
    double below = at->kappa / at->tau - dot(p->q, y->for_tau, n) - dot(p->b, y->for_tau + n, m);
    to->tau = above / below;
    to->kappa = -(t + at->kappa * to->tau) / at->tau;
    for (int j = 0; j < n; j++) to->x[j] = v[j] + to->tau * y->for_tau[j];
    for (int i = 0; i < m; i++) to->z[i] = v[n + i] + to->tau * y->for_tau[n + i];
    for (int i = 0; i < p->orthant; i++) to->s[i] = -(at->s[i] / at->z[i] * to->z[i] + c[i]);
    for (int k = 0; k < p->ncones; k++) {
        int a = p->at[k], length = p->length[k];
        double product[4], offset[4];
        must("mul_hs", spindle_mul_hs_in_place(&y->records[k], y->serials[k], product, length, to->z + a, length));
        must("ds_from_dz_offset", spindle_ds_from_dz_offset(p->cones[k], offset, length, c + a, length, at->z + a, length));
        for (int i = 0; i < length; i++) to->s[a + i] = -(product[i] + offset[i]);
    }
}

/* 3: c = affine_ds. Of the orthant, too, it is s. */
static void affine_side(const Problem *p, const Point *at, double *c)
{
    for (int i = 0; i < p->orthant; i++) c[i] = at->s[i];
    for (int k = 0; k < p->ncones; k++) {
        int a = p->at[k], length = p->length[k];
        must("affine_ds", spindle_affine_ds(p->cones[k], c + a, length, at->s + a, length));
    }
}

/* 5: c = affine_ds + shift, the correction at this share of the affine direction. For kind 3 there is no call: its shift is sigma mu times
   the record's gradient. */
static void combined_side(const Problem *p, const System *y, const Point *at, const Point *affine, double share, double sigma_mu, double *c)
{
    affine_side(p, at, c);
    for (int i = 0; i < p->orthant; i++) c[i] += (share * affine->s[i] * affine->z[i] - sigma_mu) / at->z[i];
    for (int k = 0; k < p->ncones; k++) {
        int a = p->at[k], length = p->length[k];
        double shift[4], step_z[4];
        for (int i = 0; i < length; i++) step_z[i] = share * affine->z[a + i];
        if (p->cones[k].kind == SPINDLE_GENERALIZED) {
            for (int i = 0; i < length; i++) shift[i] = sigma_mu * y->records[k].wide.grad[i];
        } else {
            must("combined_ds_shift", spindle_combined_ds_shift_in_place(&y->records[k], y->serials[k], shift, length, step_z, length,
                                                                         affine->s + a, length, sigma_mu));
        }
        for (int i = 0; i < length; i++) c[a + i] += shift[i];
    }
}

/* 4: what tau, kappa and the orthant allow, at most 1. They are convex: where they allow a step, they allow every smaller one. */
static double allowed(const Problem *p, const Point *at, const Point *along)
{
    double most = 1;
    if (along->tau < 0 && -at->tau / along->tau < most) most = -at->tau / along->tau;
    if (along->kappa < 0 && -at->kappa / along->kappa < most) most = -at->kappa / along->kappa;
    for (int i = 0; i < p->orthant; i++) {
        if (along->s[i] < 0 && -at->s[i] / along->s[i] < most) most = -at->s[i] / along->s[i];
        if (along->z[i] < 0 && -at->z[i] / along->z[i] < most) most = -at->z[i] / along->z[i];
    }
    return most;
}

/* What else is to be done with each search; examples/night.c keeps it. */
static void (*after_search)(const Problem *p, const Point *at, const Point *along, SpindleSettings settings);

/* 4 and 6: the largest trial from `start` down at which every cone passes on both sides; `tested` gets the points. */
static double search(const Problem *p, const Point *at, const Point *along, double start, Point *tested, Counts *counts)
{
    int l = p->orthant;
    size_t n = p->m - l;
    SpindleSettings settings = spindle_house_settings(start);
    SpindleFound found = spindle_plan_step(p->cones, p->ncones, along->z + l, n, along->s + l, n, at->z + l, n, at->s + l, n, tested->z + l,
                                           n, tested->s + l, n, settings);
    must("plan_step", found.code);
    counts->tests += found.count;
    if (after_search) after_search(p, at, along, settings);
    return found.step;
}

/* 7: the barriers' sum at the step's end. On the central path it is minus the degrees of the library's cones, whose primal barriers end in
   minus their degree; off it, it is larger. */
static double barriers(const Problem *p, const System *y, const Point *at, const Point *along, double step)
{
    double tau = at->tau + step * along->tau, kappa = at->kappa + step * along->kappa, product = tau * kappa;
    double sum = -spindle_log(tau) - spindle_log(kappa);
    for (int i = 0; i < p->m; i++) product += (at->s[i] + step * along->s[i]) * (at->z[i] + step * along->z[i]);
    for (int i = 0; i < p->orthant; i++) sum -= spindle_log(at->s[i] + step * along->s[i]) + spindle_log(at->z[i] + step * along->z[i]);
    for (int k = 0; k < p->ncones; k++) {
        int a = p->at[k], length = p->length[k];
        SpindleNumber barrier = spindle_compute_barrier_in_place(&y->records[k], at->z + a, length, at->s + a, length, along->z + a, length,
                                                                 along->s + a, length, step);
        must("compute_barrier", barrier.code);
        sum += barrier.value;
    }
    return sum + (p->degree + 1) * spindle_log(product / (p->degree + 1));
}

/* 6 and 7: a step for both sides, off the wall and near the path; every point on the way to it was tested. 0 if there is none. */
static double step_of(const Problem *p, const System *y, const Point *at, const Point *along, Point *tested, Counts *counts)
{
    double step = search(p, at, along, 0.99 * allowed(p, at, along), tested, counts);
    if (step > 0) step = search(p, at, along, 0.99 * step, tested, counts);
    while (step > 0) {
        double sum = barriers(p, y, at, along, step);
        if (sum < 1) { /* clarabel's bound, and a wide one: docs/FINDINGS.md, 9 */
            counts->barriers[1] = larger(counts->barriers[1], sum);
            break;
        }
        counts->cuts++;
        step = search(p, at, along, 0.5 * step, tested, counts);
    }
    return step;
}

/* 5 to 7: the combined direction, with the correction at this share of the affine one, and its step. */
static double combined_step(const Problem *p, const System *y, const Point *at, Round *r, double share, Counts *counts)
{
    double c[ROWS], sigma_mu = r->sigma * r->mu;
    combined_side(p, y, at, &r->affine, share, sigma_mu, c);
    double t = at->tau * at->kappa + share * r->affine.tau * r->affine.kappa - sigma_mu;
    direct(p, y, at, &r->residual, 1 - r->sigma, c, t, &r->combined);
    return step_of(p, y, at, &r->combined, &r->tested, counts);
}

/* 8: the cones take the points that were tested, and the rest moves by the same step. */
static void move(const Problem *p, Point *at, const Point *along, double step, const Point *tested)
{
    for (int j = 0; j < p->n; j++) at->x[j] += step * along->x[j];
    for (int i = 0; i < p->orthant; i++) {
        at->s[i] += step * along->s[i];
        at->z[i] += step * along->z[i];
    }
    for (int i = p->orthant; i < p->m; i++) {
        at->s[i] = tested->s[i];
        at->z[i] = tested->z[i];
    }
    at->tau += step * along->tau;
    at->kappa += step * along->kappa;
}

/* The customer's question, asked of every part of both points that the plan goes on from. */
static void count_used(const Problem *p, const Point *at, Counts *counts)
{
    for (int k = 0; k < p->ncones; k++) {
        int a = p->at[k], length = p->length[k];
        SpindleVerdict dual = spindle_is_dual_feasible(p->cones[k], at->z + a, length);
        SpindleVerdict primal = spindle_is_primal_feasible(p->cones[k], at->s + a, length);
        counts->used += 2;
        counts->yes += dual.answer == SPINDLE_YES;
        counts->yes += primal.answer == SPINDLE_YES;
    }
}

/* ---- where the plan begins, and how far it has come */

static void begin(const Problem *p, System *y, Point *at)
{
    memset(y, 0, sizeof *y);
    memset(at, 0, sizeof *at);
    at->tau = at->kappa = 1;
    for (int i = 0; i < p->orthant; i++) at->s[i] = at->z[i] = 1;
    for (int k = 0; k < p->ncones; k++) {
        int a = p->at[k], length = p->length[k];
        SpindleUpdated fresh = spindle_fresh(p->cones[k]);
        must("fresh", fresh.code);
        y->records[k] = fresh.record;
        must("unit_initialization", spindle_unit_initialization(p->cones[k], at->z + a, length, at->s + a, length));
    }
}

static Residual residual_of(const Problem *p, const Point *at)
{
    Residual r;
    for (int j = 0; j < p->n; j++) {
        r.x[j] = -p->q[j] * at->tau;
        for (int i = 0; i < p->m; i++) r.x[j] -= p->A[i][j] * at->z[i];
    }
    for (int i = 0; i < p->m; i++) r.z[i] = dot(p->A[i], at->x, p->n) + at->s[i] - p->b[i] * at->tau;
    r.tau = dot(p->q, at->x, p->n) + dot(p->b, at->z, p->m) + at->kappa;
    return r;
}

static double worst(const Problem *p, const Point *at, const Residual *r)
{
    double most = 0;
    for (int j = 0; j < p->n; j++) most = larger(most, size(r->x[j]));
    for (int i = 0; i < p->m; i++) most = larger(most, size(r->z[i]));
    return most / at->tau;
}

static double gap_of(const Problem *p, const Point *at)
{
    double primal = size(dot(p->q, at->x, p->n)) / at->tau, dual = size(dot(p->b, at->z, p->m)) / at->tau;
    double gap = size(dot(p->q, at->x, p->n) + dot(p->b, at->z, p->m)) / at->tau;
    return gap / larger(1, primal < dual ? primal : dual);
}

/* ---- the smooth problem's own conditions */

static double host_slope(const Machine *machine, const double *in, const double *out, bool general)
{
    if (general) return 2 * (in[machine->to] + out[machine->from]) / C / C;
    return 2.5 * spindle_powf(in[machine->to] / C, 1.5) / C;
}

/* Of each machine's share the slope of the utility is the price of its two capacities; no host is above its capacity; prices are not below
   0, and 0 where room is left. Hands back by how much the worst of these fails. */
static double conditions(const Problem *p, const Point *at)
{
    double share[MACHINES], price[2 * HOSTS], in[HOSTS] = {0}, out[HOSTS] = {0}, most = 0;
    for (int h = 0; h < 2 * HOSTS; h++) price[h] = at->z[h] * p->factor[h] / at->tau;
    for (int i = 0; i < MACHINES; i++) {
        share[i] = at->x[i] / at->tau;
        in[p->machines[i].to] += share[i];
        out[p->machines[i].from] += share[i];
    }
    for (int i = 0; i < MACHINES; i++) {
        const Machine *machine = p->machines + i;
        double slope = machine->weight / share[i] - host_slope(machine, in, out, p->general);
        slope -= machine->cost * machine->power * spindle_powf(share[i], machine->power - 1);
        most = larger(most, size(slope - price[machine->from] - price[HOSTS + machine->to]));
    }
    for (int h = 0; h < HOSTS; h++) {
        double room_out = C - out[h], room_in = C - in[h];
        most = larger(most, larger(-room_out, -room_in));
        most = larger(most, larger(-price[h], -price[HOSTS + h]));
        most = larger(most, larger(size(price[h] * room_out), size(price[HOSTS + h] * room_in)));
    }
    return most;
}

/* ---- the loop */

/* Gap and residuals are below the tolerance, and the conditions hold within its root: a share that is off by d changes the utility, and so
   the gap, by some d*d alone. */
static bool ends(const Problem *p, const Point *at, const Residual *r, double tolerance)
{
    return gap_of(p, at) < tolerance && worst(p, at, r) < tolerance && conditions(p, at) < spindle_sqrt(tolerance);
}

/* Whether the plan was solved; `at` is where it ended. */
static bool run(const Problem *p, uint32_t strategy, double tolerance, Point *at, Counts *counts)
{
    static System system;
    static Round r;
    begin(p, &system, at);
    count_used(p, at, counts);
    counts->barriers[0] = counts->barriers[1] = barriers(p, &system, at, at, 0);
    for (int round = 0, still = 0; round < 60; round++) {
        r.residual = residual_of(p, at);
        double gap = gap_of(p, at), c[ROWS];
        if (ends(p, at, &r.residual, tolerance)) {
            printf("solved after %d rounds, gap %.9f\n", round, gap);
            return true;
        }
        r.mu = (dot(at->s, at->z, p->m) + at->tau * at->kappa) / (p->degree + 1);
        scale(p, &system, at, r.mu, strategy);

        affine_side(p, at, c);
        direct(p, &system, at, &r.residual, 1, c, at->tau * at->kappa, &r.affine);
        double far = search(p, at, &r.affine, 0.99 * allowed(p, at, &r.affine), &r.tested, counts);

        r.sigma = (1 - far) * (1 - far) * (1 - far);
        double step = combined_step(p, &system, at, &r, far, counts);
        if (step == 0) step = combined_step(p, &system, at, &r, 0, counts); /* 9 */

        printf("round %2d: gap %.9f, %s scaling, step %.6f\n", round, gap, strategy == SPINDLE_DUAL ? "dual" : "primal-dual", step);
        if (step < 0.1 && strategy == SPINDLE_PRIMAL_DUAL) { /* 9: the plan stays where it is, and the round is made again */
            strategy = SPINDLE_DUAL;
            continue;
        }
        still = far == 0 ? still + 1 : 0; /* sigma is 1: such a round goes to the path's middle alone */
        if (step == 0 || still == 3) {
            printf("no way on in round %d: the last points stand, gap %.9f\n", round, gap);
            return false;
        }
        move(p, at, &r.combined, step, &r.tested);
        count_used(p, at, counts);
    }
    printf("not solved in 60 rounds\n");
    return false;
}

/* One plan, from machines to conditions. Whether all held. */
static bool plan(const char *name, bool general, uint32_t strategy, double tolerance)
{
    static Problem problem;
    static Point at;
    Machine machines[MACHINES];
    Counts counts = {0};
    lay_out_machines(machines);
    lay_out(&problem, machines, general);
    even_out(&problem);
    printf("%s: %d machines, %d hosts, %d cones\n", name, MACHINES, HOSTS, problem.ncones);
    bool solved = run(&problem, strategy, tolerance, &at, &counts);
    printf("%lu tests of a cone; %lu parts of points used, %lu of them a yes\n", counts.tests, counts.used, counts.yes);
    printf("barriers: their sum is %.3f at the start, at most %.3f at a step's end; %lu steps cut\n", counts.barriers[0],
           counts.barriers[1], counts.cuts);
    for (int i = 0; i < MACHINES; i++) printf("machine %2d, host %d to %d: %.5f\n", i, machines[i].from, machines[i].to, at.x[i] / at.tau);
    printf("the smooth problem's conditions hold within %.6f\n", conditions(&problem, &at));
    return solved && counts.yes == counts.used;
}

#ifndef FAIRSHARE_WITHOUT_MAIN
static double tolerance_of(const char *word)
{
    char *end;
    double tolerance = strtod(word, &end);
    if (end != word && *end == 0 && tolerance > 0 && tolerance < 1) return tolerance;
    fprintf(stderr, "fairshare: the tolerance is a number above 0 and below 1: %s\n", word);
    exit(2);
}

int main(int words, char **word)
{
    double tolerance = words > 1 ? tolerance_of(word[1]) : 1e-6;
    bool first = plan("All three kinds", true, SPINDLE_DUAL, tolerance);
    bool second = plan("Exponential and power cones", false, SPINDLE_PRIMAL_DUAL, tolerance);
    return first && second ? 0 : 1;
}
#endif
