#define _POSIX_C_SOURCE 199309L
#include "loop.h"
#include "sparse.h"
#include <math.h>
#include <stdio.h>
#include <stdlib.h>
#include <string.h>
#include <time.h>

double seconds(void)
{
    struct timespec t;
    clock_gettime(CLOCK_PROCESS_CPUTIME_ID, &t);
    return (double)t.tv_sec + 1e-9 * (double)t.tv_nsec;
}

static double *row(int n) { return room(n, sizeof(double)); }

static double dot(const double *v, const double *w, int n)
{
    double sum = 0;
    for (int i = 0; i < n; i++) sum += v[i] * w[i];
    return sum;
}

static double most(const double *v, int n)
{
    double size = 0;
    for (int i = 0; i < n; i++) size = fmax(size, fabs(v[i]));
    return size;
}

typedef struct {
    double *x, *s, *z, tau, kappa;
} Point; /* where the plan stands, or a direction */

/* One solve. A generalized cone's block, mu (D + pp' - qq' - rr'), is mu D in its own rows and three rows more, for p, q and r. */
typedef struct {
    const Problem *p;
    Options o;
    Outcome out;
    int n, m, l, nc, degree, size;
    int *at, *length, *extra;      /* a cone's first row; how many; the first of its three rows more, or -1 */
    int *slot, *first;             /* where the system's entries stand; the first of each cone */
    double *av, *q, *b, *D, *E, c; /* the problem evened out: D A E, c q D, b E */
    SpindleScaling *records;
    uint32_t *serials;
    Sparse f;
    Point now, affine, along, tested;
    double *rx, *rz, rt;
    double *side; /* c of docs/loop.md */
    double *right, *v, *for_tau;
} Work;

static bool refused(Work *w, const char *call, uint32_t code)
{
    if (code == SPINDLE_DONE) return false;
    fprintf(stderr, "plan: %s: %s\n", call, spindle_meaning(code));
    w->out.end = "refused";
    return true;
}

static bool wide(const Work *w, int k) { return w->p->cones[k].kind == SPINDLE_GENERALIZED; }

/* ---- before the first round */

static Point point(int n, int m) { return (Point){.x = row(n), .s = row(m), .z = row(m), .tau = 1, .kappa = 1}; }

static void lay_out_rows(Work *w)
{
    const Problem *p = w->p;
    w->n = p->n, w->m = p->m, w->l = p->orthant, w->nc = p->ncones;
    w->at = room(w->nc, sizeof(int));
    w->length = room(w->nc, sizeof(int));
    w->extra = room(w->nc, sizeof(int));
    w->degree = w->l;
    w->size = w->n + w->m;
    int next = w->l;
    for (int k = 0; k < w->nc; k++) {
        w->at[k] = next;
        w->length[k] = (int)spindle_length(p->cones[k]);
        w->degree += (int)spindle_degree(p->cones[k]);
        w->extra[k] = -1;
        next += w->length[k];
        if (!wide(w, k)) continue;
        w->extra[k] = w->size;
        w->size += 3;
    }
}

/* Ten times: rows and columns are divided by the root of their largest entry. Then the rows of a cone get one factor. */
static bool even_out(Work *w)
{
    const Problem *p = w->p;
    double *columns = row(w->n), *rows = row(w->m), *delta = row(w->m);
    for (int j = 0; j < w->n; j++) w->D[j] = 1;
    for (int i = 0; i < w->m; i++) w->E[i] = 1;
    for (int turn = 0; turn < 10; turn++) {
        memset(columns, 0, w->n * sizeof(double));
        memset(rows, 0, w->m * sizeof(double));
        for (int j = 0; j < w->n; j++) {
            for (int e = p->cp[j]; e < p->cp[j + 1]; e++) {
                double entry = fabs(p->av[e] * w->D[j] * w->E[p->ri[e]]);
                columns[j] = fmax(columns[j], entry);
                rows[p->ri[e]] = fmax(rows[p->ri[e]], entry);
            }
        }
        for (int j = 0; j < w->n; j++) w->D[j] /= sqrt(columns[j] > 0 ? columns[j] : 1);
        for (int i = 0; i < w->m; i++) w->E[i] /= sqrt(rows[i] > 0 ? rows[i] : 1);
    }
    bool failed = false;
    for (int k = 0; k < w->nc && !failed; k++) {
        int a = w->at[k], n = w->length[k];
        failed = refused(w, "rectify_equilibration", spindle_rectify_equilibration(p->cones[k], delta, n, w->E + a, n).code);
        double mean = delta[0] * w->E[a];
        for (int i = a; i < a + n; i++) w->E[i] = mean;
    }
    for (int j = 0; j < w->n; j++) {
        w->q[j] = p->q[j] * w->D[j];
        for (int e = p->cp[j]; e < p->cp[j + 1]; e++) w->av[e] = p->av[e] * w->D[j] * w->E[p->ri[e]];
    }
    w->c = most(w->q, w->n) > 0 ? 1 / most(w->q, w->n) : 1;
    for (int j = 0; j < w->n; j++) w->q[j] *= w->c;
    for (int i = 0; i < w->m; i++) w->b[i] = p->b[i] * w->E[i];
    free(columns), free(rows), free(delta);
    return !failed;
}

/* The system's entries: the variables' diagonal, A, the orthant's diagonal, the cones. */
static void lay_out_system(Work *w)
{
    const Problem *p = w->p;
    int places = w->n + p->cp[w->n] + w->l, next = 0;
    for (int k = 0; k < w->nc; k++) places += wide(w, k) ? 3 * w->length[k] + 3 : 6;
    int *i = room(places, sizeof *i), *j = room(places, sizeof *j), *sign = room(w->size, sizeof *sign);
    w->slot = room(places, sizeof(int));
    w->first = room(w->nc, sizeof(int));
#define ENTRY(a, b) (i[next] = (a), j[next] = (b), next++)
    for (int v = 0; v < w->size; v++) sign[v] = v < w->n ? 1 : -1;
    for (int v = 0; v < w->n; v++) ENTRY(v, v);
    for (int v = 0; v < w->n; v++) {
        for (int e = p->cp[v]; e < p->cp[v + 1]; e++) ENTRY(v, w->n + p->ri[e]);
    }
    for (int r = 0; r < w->l; r++) ENTRY(w->n + r, w->n + r);
    for (int k = 0; k < w->nc; k++) {
        int a = w->n + w->at[k], length = w->length[k], e = w->extra[k], head = p->cones[k].dim1;
        w->first[k] = next;
        if (!wide(w, k)) {
            for (int v = 0; v < 3; v++) {
                for (int u = 0; u <= v; u++) ENTRY(a + u, a + v); /* the packed order of get_hs */
            }
            continue;
        }
        for (int v = 0; v < length; v++) ENTRY(a + v, a + v);
        for (int v = 0; v < length; v++) ENTRY(a + v, e);
        for (int v = 0; v < length; v++) ENTRY(a + v, v < head ? e + 1 : e + 2);
        for (int v = 0; v < 3; v++) ENTRY(e + v, e + v);
        sign[e] = 1;
    }
#undef ENTRY
    double began = seconds();
    sparse_make(&w->f, w->size, next, i, j, sign, w->slot);
    w->out.ordering = seconds() - began;
    w->f.regular = 1e-8;
    for (int e = 0; e < p->cp[w->n]; e++) w->f.value[w->slot[w->n + e]] = w->av[e];
    w->out.rows = w->size;
    w->out.fill = w->f.lp[w->size];
    free(i), free(j), free(sign);
}

static bool begin(Work *w)
{
    lay_out_rows(w);
    w->av = row(w->p->cp[w->n]);
    w->q = row(w->n), w->b = row(w->m), w->D = row(w->n), w->E = row(w->m);
    w->rx = row(w->n), w->rz = row(w->m), w->side = row(w->m);
    w->right = row(w->size), w->v = row(w->size), w->for_tau = row(w->size);
    w->now = point(w->n, w->m), w->affine = point(w->n, w->m), w->along = point(w->n, w->m), w->tested = point(w->n, w->m);
    w->records = room(w->nc, sizeof *w->records);
    w->serials = room(w->nc, sizeof *w->serials);
    for (int i = 0; i < w->l; i++) w->now.s[i] = w->now.z[i] = 1;
    for (int k = 0; k < w->nc; k++) {
        int a = w->at[k], n = w->length[k];
        SpindleUpdated fresh = spindle_fresh(w->p->cones[k]);
        if (refused(w, "fresh", fresh.code)) return false;
        w->records[k] = fresh.record;
        if (refused(w, "unit_initialization", spindle_unit_initialization(w->p->cones[k], w->now.z + a, n, w->now.s + a, n))) return false;
    }
    if (!even_out(w)) return false;
    lay_out_system(w);
    return true;
}

/* ---- a round; the numbers are those of docs/loop.md */

/* 2 */
static bool put_blocks(Work *w)
{
    double block[64];
    for (int k = 0; k < w->nc; k++) {
        int length = w->length[k], head = w->p->cones[k].dim1;
        const int *slot = w->slot + w->first[k];
        const SpindleWide *record = &w->records[k].wide;
        if (refused(w, "get_hs", spindle_get_hs_in_place(&w->records[k], w->serials[k], block, wide(w, k) ? length : 6))) return false;
        if (!wide(w, k)) {
            for (int e = 0; e < 6; e++) w->f.value[slot[e]] = -block[e];
            continue;
        }
        double root = sqrt(record->mu);
        for (int v = 0; v < length; v++) {
            w->f.value[slot[v]] = -block[v];
            w->f.value[slot[length + v]] = -root * record->p[v];
            w->f.value[slot[2 * length + v]] = root * (v < head ? record->q[v] : record->r[v - head]);
        }
        for (int v = 0; v < 3; v++) w->f.value[slot[3 * length + v]] = v == 0 ? 1 : -1;
    }
    return true;
}

static void solve(Work *w, const double *x, const double *z, double *v)
{
    double began = seconds();
    memcpy(w->right, x, w->n * sizeof(double));
    memcpy(w->right + w->n, z, w->m * sizeof(double));
    memset(w->right + w->n + w->m, 0, (w->size - w->n - w->m) * sizeof(double));
    sparse_solve(&w->f, w->right, v);
    w->out.solving += seconds() - began;
}

/* 1 and 2 */
static bool scale(Work *w, double mu, uint32_t strategy)
{
    double began = seconds();
    for (int k = 0; k < w->nc; k++) {
        int a = w->at[k], n = w->length[k];
        uint32_t code = spindle_update_scaling_in_place(&w->records[k], w->now.s + a, n, w->now.z + a, n, mu, strategy);
        if (refused(w, "update_scaling", code)) return false;
        w->serials[k] = w->records[k].serial;
    }
    w->out.by_call[UPDATE] += seconds() - began;
    const int *slot = w->slot + w->n + w->p->cp[w->n];
    for (int i = 0; i < w->l; i++) w->f.value[slot[i]] = -w->now.s[i] / w->now.z[i];
    began = seconds();
    if (!put_blocks(w)) return false;
    w->out.by_call[BLOCK] += seconds() - began;
    began = seconds();
    if (!sparse_factorise(&w->f)) {
        w->out.end = "zero pivot";
        return false;
    }
    w->out.factorising += seconds() - began;
    for (int j = 0; j < w->n; j++) w->along.x[j] = -w->q[j];
    solve(w, w->along.x, w->b, w->for_tau);
    return true;
}

/* 3 and 5 */
static bool direct(Work *w, double by, double t, Point *to)
{
    int n = w->n, m = w->m;
    const Point *now = &w->now;
    for (int j = 0; j < n; j++) to->x[j] = by * w->rx[j];
    for (int i = 0; i < m; i++) to->z[i] = w->side[i] - by * w->rz[i];
    solve(w, to->x, to->z, w->v);
    double above = by * w->rt - t / now->tau + dot(w->q, w->v, n) + dot(w->b, w->v + n, m);
    double below = now->kappa / now->tau - dot(w->q, w->for_tau, n) - dot(w->b, w->for_tau + n, m);
    to->tau = above / below;
    to->kappa = -(t + now->kappa * to->tau) / now->tau;
    for (int j = 0; j < n; j++) to->x[j] = w->v[j] + to->tau * w->for_tau[j];
    for (int i = 0; i < m; i++) to->z[i] = w->v[n + i] + to->tau * w->for_tau[n + i];
    for (int i = 0; i < w->l; i++) to->s[i] = -(now->s[i] / now->z[i] * to->z[i] + w->side[i]);
    double began = seconds();
    for (int k = 0; k < w->nc; k++) {
        int a = w->at[k], length = w->length[k];
        if (refused(w, "mul_hs", spindle_mul_hs_in_place(&w->records[k], w->serials[k], to->s + a, length, to->z + a, length)))
            return false;
        for (int i = a; i < a + length; i++) to->s[i] = -(to->s[i] + w->side[i]);
    }
    w->out.by_call[PRODUCT] += seconds() - began;
    return true;
}

/* 5, the correction at this share of the affine direction; affine_ds is s, and ds_from_dz_offset hands it on: their copies are left out */
static bool combined_side(Work *w, double share, double sigma_mu)
{
    double began = seconds(), shift[64], step_z[64];
    const Point *affine = &w->affine;
    for (int i = 0; i < w->l; i++) w->side[i] = w->now.s[i] + (share * affine->s[i] * affine->z[i] - sigma_mu) / w->now.z[i];
    for (int k = 0; k < w->nc; k++) {
        int a = w->at[k], n = w->length[k];
        for (int i = 0; i < n; i++) step_z[i] = share * affine->z[a + i];
        if (wide(w, k)) {
            for (int i = 0; i < n; i++) shift[i] = sigma_mu * w->records[k].wide.grad[i];
        } else {
            uint32_t code =
                spindle_combined_ds_shift_in_place(&w->records[k], w->serials[k], shift, n, step_z, n, affine->s + a, n, sigma_mu);
            if (refused(w, "combined_ds_shift", code)) return false;
        }
        for (int i = 0; i < n; i++) w->side[a + i] = w->now.s[a + i] + shift[i];
    }
    w->out.by_call[SHIFT] += seconds() - began;
    return true;
}

/* 4 */
static double allowed(const Work *w, const Point *along)
{
    double step = 1;
    if (along->tau < 0) step = fmin(step, -w->now.tau / along->tau);
    if (along->kappa < 0) step = fmin(step, -w->now.kappa / along->kappa);
    for (int i = 0; i < w->l; i++) {
        if (along->s[i] < 0) step = fmin(step, -w->now.s[i] / along->s[i]);
        if (along->z[i] < 0) step = fmin(step, -w->now.z[i] / along->z[i]);
    }
    return step;
}

/* What each cone's parts answer at every trial down to the step: for counts, and not for the plan. */
static void count_undecided(Work *w, const Point *along, double start, double step)
{
    double v[64], began = seconds();
    for (double a = start; a >= w->o.smallest && a >= step; a *= w->o.shrink) {
        for (int k = 0; k < w->nc; k++) {
            int first = w->at[k], n = w->length[k];
            for (int i = 0; i < n; i++) v[i] = w->now.z[first + i] + a * along->z[first + i];
            w->out.undecided += spindle_is_dual_feasible(w->p->cones[k], v, n).answer == SPINDLE_UNDECIDED;
            for (int i = 0; i < n; i++) v[i] = w->now.s[first + i] + a * along->s[first + i];
            w->out.undecided += spindle_is_primal_feasible(w->p->cones[k], v, n).answer == SPINDLE_UNDECIDED;
            w->out.trials += 2;
        }
    }
    w->out.counting += seconds() - began;
}

/* 4 and 6; -1 at a refusal */
static double search(Work *w, const Point *along, double start)
{
    int l = w->l;
    size_t n = w->m - l;
    SpindleSettings settings = {start, w->o.shrink, w->o.smallest};
    const SpindleCone *cones = w->p->cones;
    double began = seconds();
    SpindleFound found, dual = {0};
    if (w->o.search == LEAST) {
        found = spindle_common_step(cones, w->nc, true, along->s + l, n, w->now.s + l, n, w->tested.s + l, n, settings);
        dual = spindle_common_step(cones, w->nc, false, along->z + l, n, w->now.z + l, n, w->tested.z + l, n, settings);
        found.step = fmin(found.step, dual.step);
    } else {
        found = spindle_plan_step(cones, w->nc, along->z + l, n, along->s + l, n, w->now.z + l, n, w->now.s + l, n, w->tested.z + l, n,
                                  w->tested.s + l, n, settings);
    }
    w->out.by_call[SEARCH] += seconds() - began;
    if (refused(w, "plan_step", found.code)) return -1;
    w->out.tests += found.count + dual.count;
    if (w->o.margins) count_undecided(w, along, start, found.step);
    for (int k = 0; k < w->nc && w->o.searched; k++) {
        int a = w->at[k];
        w->o.searched(w->o.to, cones + k, settings, along->z + a, along->s + a, w->now.z + a, w->now.s + a, w->length[k]);
    }
    return found.step;
}

/* 7, with the degrees of the library's cones added: 0 on the path */
static double off_path(Work *w, double step)
{
    const Point *now = &w->now, *along = &w->along;
    double tau = now->tau + step * along->tau, kappa = now->kappa + step * along->kappa, product = tau * kappa;
    double sum = -log(tau) - log(kappa);
    for (int i = 0; i < w->m; i++) product += (now->s[i] + step * along->s[i]) * (now->z[i] + step * along->z[i]);
    for (int i = 0; i < w->l; i++) sum -= log(now->s[i] + step * along->s[i]) + log(now->z[i] + step * along->z[i]);
    double began = seconds();
    for (int k = 0; k < w->nc; k++) {
        int a = w->at[k], n = w->length[k];
        SpindleNumber barrier =
            spindle_compute_barrier_in_place(&w->records[k], now->z + a, n, now->s + a, n, along->z + a, n, along->s + a, n, step);
        sum += barrier.code == SPINDLE_DONE ? barrier.value : INFINITY;
    }
    w->out.by_call[BARRIER] += seconds() - began;
    return sum + (w->degree + 1) * log(product / (w->degree + 1)) + (w->degree - w->l);
}

/* 6 and 7; -1 at a refusal */
static double step_of(Work *w)
{
    double step = search(w, &w->along, 0.99 * allowed(w, &w->along));
    if (step <= 0) return step;
    if (w->o.search == LEAST) return 0.99 * step;
    step = search(w, &w->along, 0.99 * step);
    int bound = 1 + (w->o.barrier == CLARABEL ? w->degree - w->l : 0);
    while (step > 0 && w->o.barrier != NONE) {
        double off = off_path(w, step);
        if (off < bound) {
            w->out.off_path = fmax(w->out.off_path, off);
            break;
        }
        w->out.cuts++;
        step = search(w, &w->along, 0.5 * step);
    }
    return step;
}

/* 8 */
static void move(Work *w, double step)
{
    Point *now = &w->now;
    for (int j = 0; j < w->n; j++) now->x[j] += step * w->along.x[j];
    int moved = w->o.search == LEAST ? w->m : w->l;
    for (int i = 0; i < moved; i++) {
        now->s[i] += step * w->along.s[i];
        now->z[i] += step * w->along.z[i];
    }
    for (int i = moved; i < w->m; i++) {
        now->s[i] = w->tested.s[i];
        now->z[i] = w->tested.z[i];
    }
    now->tau += step * w->along.tau;
    now->kappa += step * w->along.kappa;
}

static void count_used(Work *w)
{
    double began = seconds();
    for (int k = 0; k < w->nc; k++) {
        int a = w->at[k], n = w->length[k];
        w->out.yes += spindle_is_dual_feasible(w->p->cones[k], w->now.z + a, n).answer == SPINDLE_YES;
        w->out.yes += spindle_is_primal_feasible(w->p->cones[k], w->now.s + a, n).answer == SPINDLE_YES;
        w->out.used += 2;
    }
    w->out.counting += seconds() - began;
}

/* ---- the loop */

/* Residuals of the embedding; gap and largest residual of the problem as it was given. */
static void residuals(Work *w)
{
    const Problem *p = w->p;
    const Point *now = &w->now;
    for (int i = 0; i < w->m; i++) w->rz[i] = now->s[i] - w->b[i] * now->tau;
    for (int j = 0; j < w->n; j++) {
        w->rx[j] = -w->q[j] * now->tau;
        for (int e = p->cp[j]; e < p->cp[j + 1]; e++) {
            w->rx[j] -= w->av[e] * now->z[p->ri[e]];
            w->rz[p->ri[e]] += w->av[e] * now->x[j];
        }
    }
    double primal = dot(w->q, now->x, w->n), dual = -dot(w->b, now->z, w->m);
    w->rt = primal - dual + now->kappa;
    primal /= now->tau * w->c, dual /= now->tau * w->c;
    w->out.optimum = primal;
    w->out.gap = fabs(primal - dual) / fmax(1, fmin(fabs(primal), fabs(dual)));
    double rx = 0, rz = 0, x = 0, s = 0, z = 0;
    for (int j = 0; j < w->n; j++) {
        rx = fmax(rx, fabs(w->rx[j] / w->D[j] / w->c));
        x = fmax(x, fabs(now->x[j] * w->D[j]));
    }
    for (int i = 0; i < w->m; i++) {
        rz = fmax(rz, fabs(w->rz[i] / w->E[i]));
        s = fmax(s, fabs(now->s[i] / w->E[i]));
        z = fmax(z, fabs(now->z[i] * w->E[i] / w->c));
    }
    rx /= now->tau * fmax(1, most(p->q, w->n) + (x + z) / now->tau);
    rz /= now->tau * fmax(1, most(p->b, w->m) + (x + s) / now->tau);
    w->out.residual = fmax(rx, rz);
}

/* 5 to 7, with the correction at that share of the affine direction; -1 at a refusal */
static double combined_step(Work *w, double mu, double sigma, double share)
{
    Point *now = &w->now;
    if (!combined_side(w, share, sigma * mu)) return -1;
    double t = now->tau * now->kappa + share * w->affine.tau * w->affine.kappa - sigma * mu;
    if (!direct(w, 1 - sigma, t, &w->along)) return -1;
    return step_of(w);
}

/* One round; false where the loop ends. */
static bool turn(Work *w, uint32_t *strategy, int *still)
{
    Point *now = &w->now;
    double mu = (dot(now->s, now->z, w->m) + now->tau * now->kappa) / (w->degree + 1);
    if (!scale(w, mu, *strategy)) return false;

    memcpy(w->side, now->s, w->m * sizeof(double));
    if (!direct(w, 1, now->tau * now->kappa, &w->affine)) return false;
    double far = search(w, &w->affine, 0.99 * allowed(w, &w->affine));
    if (far < 0) return false;

    double sigma = (1 - far) * (1 - far) * (1 - far);
    double step = combined_step(w, mu, sigma, w->o.whole ? 1 : far);
    if (step == 0) step = combined_step(w, mu, sigma, 0); /* 9 */
    if (w->o.verbose)
        printf("%3d: mu %.1e, gap %.1e, residual %.1e, far %.3g, step %.3g\n", w->out.rounds, mu, w->out.gap, w->out.residual, far, step);
    if (step < 0) return false;

    if (step < 0.1 && *strategy == SPINDLE_PRIMAL_DUAL && w->o.strategy == CHANGED) { /* 9 */
        *strategy = SPINDLE_DUAL;
        w->out.fallbacks++;
        return true;
    }
    *still = far == 0 ? *still + 1 : 0;
    if (step == 0 || *still == 3) {
        w->out.end = "no way on";
        return false;
    }
    move(w, step);
    count_used(w);
    return true;
}

static uint32_t first_strategy(const Work *w)
{
    if (w->o.strategy == DUAL) return SPINDLE_DUAL;
    for (int k = 0; k < w->nc; k++) {
        if (wide(w, k) && w->o.strategy == CHANGED) return SPINDLE_DUAL;
    }
    return SPINDLE_PRIMAL_DUAL;
}

static void end(Work *w)
{
    Point *points[] = {&w->affine, &w->along, &w->tested};
    void *all[] = {w->at, w->length,  w->extra,   w->slot, w->first, w->av,   w->q,     w->b, w->D,
                   w->E,  w->records, w->serials, w->rx,   w->rz,    w->side, w->right, w->v, w->for_tau};
    for (int k = 0; k < 3; k++) free(points[k]->x), free(points[k]->s), free(points[k]->z);
    for (size_t k = 0; k < sizeof all / sizeof *all; k++) free(all[k]);
    sparse_free(&w->f);
}

Outcome loop_run(const Problem *p, Options options)
{
    Work work = {.p = p, .o = options, .out = {.end = "too many rounds"}}, *w = &work;
    double began = seconds();
    bool going = begin(w);
    if (going) count_used(w);
    uint32_t strategy = first_strategy(w);
    for (int still = 0; going; w->out.rounds++) {
        residuals(w);
        if (w->out.gap < options.tolerance && w->out.residual < options.tolerance) {
            w->out.solved = true;
            w->out.end = "solved";
            break;
        }
        going = w->out.rounds < options.rounds && turn(w, &strategy, &still);
        if (!going) break;
    }
    w->out.total = seconds() - began - w->out.ordering - w->out.counting;
    w->out.refinements = w->f.refinements;
    for (int j = 0; j < w->n; j++) w->now.x[j] *= w->D[j] / w->now.tau;
    for (int i = 0; i < w->m; i++) {
        w->now.s[i] /= w->E[i] * w->now.tau;
        w->now.z[i] *= w->E[i] / (w->c * w->now.tau);
    }
    w->out.x = w->now.x, w->out.s = w->now.s, w->out.z = w->now.z;
    end(w);
    return w->out;
}
