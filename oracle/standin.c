/* A second port, in C, from the evaluation of each Rust expression: the comparison is tried on it where there is no archive.
   It shares nothing with the oracle but spindle.h. Its kernels are the C library's, bent to document 01's special values. */
#include "spindle.h"
#include "roots.h"
#include <math.h>
#include <string.h>

/* the Rust's epsilon, and its root */
static const double epsilon = 0x1p-52;
static const double root_of_epsilon = 0x1p-26;

/* ---- kernels */

static double the_nan(void)
{
    uint64_t bits = UINT64_C(0x7FF8000000000000);
    double x;
    memcpy(&x, &bits, sizeof x);
    return x;
}

uint32_t spindle_version(void) { return SPINDLE_VERSION_NUMBER; }

double spindle_sqrt(double x)
{
    if (x != x || x < 0) return the_nan();
    return sqrt(x);
}

double spindle_plain_sqrt(double x) { return spindle_sqrt(x); }

SpindleRoot spindle_table_sqrt(double x)
{
    if (x > 0 && x < INFINITY) return root_by_steps(x);
    return (SpindleRoot){spindle_sqrt(x), 0};
}

double spindle_log(double x)
{
    if (x != x) return the_nan();
    if (x <= 0) return -INFINITY;
    if (x == INFINITY) return x;
    return log(x);
}

double spindle_exp(double x)
{
    if (x != x) return the_nan();
    if (x > 709) return INFINITY;
    if (x < -708) return 0;
    return exp(x);
}

static double any_power(double x, double y)
{
    if (y == 0) return 1;
    if (y == 1) return x;
    if (y == 2) return x * x;
    if (x != x || x < 0) return the_nan();
    return spindle_exp(y * spindle_log(x));
}

double spindle_powf(double x, double y)
{
    double power = any_power(x, y);
    return power == power ? power : the_nan();
}

/* ---- rows of numbers */

static bool is_finite(double x) { return x - x == 0; }

static bool all_finite(const double *x, size_t n)
{
    for (size_t i = 0; i < n; i++)
        if (!is_finite(x[i])) return false;
    return true;
}

static double dot(const double *x, const double *y, size_t n)
{
    double sum = 0;
    for (size_t i = 0; i < n; i++) sum = sum + x[i] * y[i];
    return sum;
}

static void copy(double *to, const double *from, size_t n)
{
    for (size_t i = 0; i < n; i++) to[i] = from[i];
}

/* A packed block times x. */
static void block_times(const double *block, const double *x, double *y)
{
    y[0] = (block[0] * x[0] + block[1] * x[1]) + block[3] * x[2];
    y[1] = (block[1] * x[0] + block[2] * x[1]) + block[4] * x[2];
    y[2] = (block[3] * x[0] + block[4] * x[1]) + block[5] * x[2];
}

/* ---- judging: each of these hands back a number of the table, or whether something is wrong */

/* document 02, Order 9: "must have a computed sum within 2^-50 of 1. Release 1 cones keep 2^-40. The cone carries its rule number, 1 or 2.";
   "another rule number gives 1" */
static bool bad_cone(const SpindleCone *cone)
{
    if (cone->rule != 1 && cone->rule != 2) return true;
    if (cone->kind == 1) return false;
    if (cone->kind == 2) return !(cone->exps[0] > 0 && cone->exps[0] < 1);
    if (cone->kind != 3) return true;
    if (cone->dim1 < 1 || cone->dim1 > 32) return true;
    if (cone->dim2 < 1 || cone->dim2 > 32) return true;
    double sum = 0;
    for (uint32_t i = 0; i < cone->dim1; i++) {
        if (!(cone->exps[i] > 0 && cone->exps[i] <= 1)) return true;
        sum = sum + cone->exps[i];
    }
    double tolerance = cone->rule == 1 ? 0x1p-40 : 0x1p-50;
    return !(fabs(sum - 1) <= tolerance);
}

static bool three_finite(const SpindleThree *three)
{
    if (!all_finite(three->z, 3)) return false;
    if (!all_finite(three->grad, 3)) return false;
    if (!all_finite(three->h_dual, 6)) return false;
    return all_finite(three->hs, 6);
}

static bool wide_finite(const SpindleWide *wide, size_t head, size_t tail)
{
    size_t n = head + tail;
    if (!all_finite(wide->z, n)) return false;
    if (!is_finite(wide->mu)) return false;
    if (!all_finite(wide->grad, n)) return false;
    if (!all_finite(wide->p, n)) return false;
    if (!all_finite(wide->q, head)) return false;
    if (!all_finite(wide->r, tail)) return false;
    if (!all_finite(wide->d1, head)) return false;
    return is_finite(wide->d2);
}

/* The numbers that the kind uses. */
static bool record_finite(const SpindleScaling *record)
{
    if (record->cone.kind != 3) return three_finite(&record->three);
    return wide_finite(&record->wide, record->cone.dim1, record->cone.dim2);
}

static uint32_t judge_settings(SpindleSettings settings)
{
    if (!is_finite(settings.start) || !is_finite(settings.step) || !is_finite(settings.smallest)) return 3;
    if (!(settings.start > 0)) return 4;
    if (!(settings.step > 0 && settings.step <= 0.99)) return 4;
    if (!(settings.smallest >= 0x1p-1022)) return 4;
    return 0;
}

static uint32_t judge_point(const SpindleCone *cone, const double *x, size_t nx)
{
    if (bad_cone(cone)) return 1;
    if (nx != spindle_length(*cone)) return 2;
    if (!all_finite(x, nx)) return 3;
    return 0;
}

/* ---- tests of feasibility */

/* Document 02, Order 5: "Yes if the residue is above the margin, no if it is below minus the margin or a sign test fails, else undecided,
   NaN and infinite margins included." */
static uint32_t told(double residue, double margin)
{
    if (residue > margin) return SPINDLE_YES;
    if (residue < -margin) return SPINDLE_NO;
    return SPINDLE_UNDECIDED;
}

static uint32_t exponential_primal(const double *s)
{
    if (!(s[1] > 0 && s[2] > 0)) return SPINDLE_NO;
    double l = spindle_log(s[2] / s[1]);
    double residue = s[1] * l - s[0];
    double margin = 0x1p-40 * (s[1] * (1 + fabs(l)) + fabs(s[0]));
    return told(residue, margin);
}

static uint32_t exponential_dual(const double *z)
{
    if (!(z[0] < 0 && z[2] > 0)) return SPINDLE_NO;
    double l = spindle_log(-z[2] / z[0]);
    double residue = (z[1] - z[0]) - z[0] * l;
    double margin = 0x1p-40 * (fabs(z[1]) + fabs(z[0]) * (1 + fabs(l)));
    return told(residue, margin);
}

/* Both power cones: the exponential, and the square or the sum of squares. */
static uint32_t power_told(double e, double q)
{
    double margin = 0x1p-30 * (e + q);
    return told(e - q, margin);
}

static uint32_t power_inside(const SpindleCone *cone, bool primal, const double *x)
{
    if (!(x[0] > 0 && x[1] > 0)) return SPINDLE_NO;
    double a = cone->exps[0];
    double b = 1 - a;
    double exponent;
    if (primal)
        exponent = ((2 * a) * spindle_log(x[0])) + ((2 * b) * spindle_log(x[1]));
    else
        exponent = ((a * 2) * spindle_log(x[0] / a)) + ((b * spindle_log(x[1] / b)) * 2);
    return power_told(spindle_exp(exponent), x[2] * x[2]);
}

static uint32_t generalized_inside(const SpindleCone *cone, bool primal, const double *x)
{
    for (uint32_t i = 0; i < cone->dim1; i++)
        if (!(x[i] > 0)) return SPINDLE_NO;
    double exponent = 0;
    for (uint32_t i = 0; i < cone->dim1; i++) {
        double a = cone->exps[i];
        exponent = exponent + (2 * a) * spindle_log(primal ? x[i] : x[i] / a);
    }
    const double *tail = x + cone->dim1;
    return power_told(spindle_exp(exponent), dot(tail, tail, cone->dim2));
}

static uint32_t inside(const SpindleCone *cone, bool primal, const double *x)
{
    if (cone->kind == 3) return generalized_inside(cone, primal, x);
    if (cone->kind == 2) return power_inside(cone, primal, x);
    return primal ? exponential_primal(x) : exponential_dual(x);
}

/* ---- searches */

static void put_trial(double *point, const double *q, double step, const double *dq, size_t n)
{
    for (size_t i = 0; i < n; i++) point[i] = q[i] + step * dq[i];
}

static double search(const SpindleCone *cone, bool primal, const double *dq, const double *q, double *point, SpindleSettings settings,
                     uint32_t *count)
{
    size_t n = spindle_length(*cone);
    double step = settings.start;
    *count = 0;
    for (;;) {
        put_trial(point, q, step, dq, n);
        ++*count;
        if (inside(cone, primal, point) == SPINDLE_YES) return step;
        step = step * settings.step;
        if (step < settings.smallest) break;
    }
    copy(point, q, n);
    return 0;
}

/* Order 10 of document 02: a plan of cones, one behind the other over the long vectors. */
static size_t length_of_list(const SpindleCone *cones, size_t ncones)
{
    size_t sum = 0;
    for (size_t i = 0; i < ncones; i++) sum = sum + spindle_length(cones[i]);
    return sum;
}

/* Whether all cones pass; counts the tests. */
static bool all_inside(const SpindleCone *cones, size_t ncones, bool primal, const double *x, uint32_t *tests)
{
    for (size_t i = 0; i < ncones; i++) {
        ++*tests;
        if (inside(&cones[i], primal, x) != SPINDLE_YES) return false;
        x = x + spindle_length(cones[i]);
    }
    return true;
}

static bool bad_list(const SpindleCone *cones, size_t ncones)
{
    if (ncones < 1 || ncones > 1024) return true;
    for (size_t i = 0; i < ncones; i++)
        if (bad_cone(&cones[i])) return true;
    return false;
}

/* ---- the primal gradient's equations */

static double omega(double z)
{
    double w;
    if (z < 1 + 3.14159265358979323846) {
        double less = z - 1;
        double p = less;
        w = 1 + p * 0.5;
        p = p * less;
        w = w + p * (1.0 / 16);
        p = p * less;
        w = w - p * (1.0 / 192);
        p = p * less;
        w = w - p * (1.0 / 3072);
        p = p * less;
        w = w + p * (13.0 / 61440);
    } else {
        double l = spindle_log(z);
        double over = 1 / z;
        w = z - l;
        double q = l * over;
        w = w + q;
        q = q * over;
        w = w + q * (l / 2 - 1);
        q = q * over;
        w = w + q * (((l * l) / 3 - l * 1.5) + 1);
    }
    double r = (z - w) - spindle_log(w);
    for (int round = 0; round < 2; round++) {
        double k = w + 1;
        double t = k * (k + (r * 2) / 3);
        w = w * (1 + ((r / k) * (t - r * 0.5)) / (t - r));
        double above = ((w * w) * 2 - w * 8) - 1;
        double below = (((((k * k) * k) * k) * k) * k) * 72;
        r = (above / below) * (((r * r) * r) * r);
    }
    return w;
}

/* What omega is asked of. Below 0 the Rust panics. */
static double omega_argument(const double *s) { return (1 - s[0] / s[1]) - spindle_log(s[1] / s[2]); }

/* The equation whose root Newton's method finds: of a power cone by its exponent, |s3| and phi, of a generalized one by its exponents, the
   tail's norm and the head. */
typedef struct {
    const SpindleCone *cone;
    double norm;
    double phi;
    const double *head;
} Equation;

static double power_value(const Equation *equation, double x)
{
    double a = equation->cone->exps[0];
    double b = 1 - a;
    double t1 = x * x;
    double t2 = (x * 2) / equation->norm;
    double t0 = (-2 * a) * spindle_log(a) - (2 * b) * spindle_log(b);
    double first = (2 * a) * spindle_log((2 * a) * t1 + (1 + a) * t2);
    double second = (2 * b) * spindle_log((2 * b) * t1 + (2 - a) * t2);
    return ((((first + second) - spindle_log(equation->phi)) - spindle_log(t1 + t2)) - 2 * spindle_log(t2)) + t0;
}

static double power_slope(const Equation *equation, double x)
{
    double a = equation->cone->exps[0];
    double b = 1 - a;
    double t1 = x * x;
    double t2 = (2 * x) / equation->norm;
    double first = ((a * a) * 2) / (a * x + (1 + a) / equation->norm);
    double second = ((b * 2) * b) / (b * x + (2 - a) / equation->norm);
    double third = ((x + 1 / equation->norm) * 2) / (t1 + t2);
    return (first + second) - third;
}

static double generalized_value(const Equation *equation, double x)
{
    double value = -spindle_log((2 * x) / equation->norm + x * x);
    for (uint32_t i = 0; i < equation->cone->dim1; i++) {
        double a = equation->cone->exps[i];
        value = value + (2 * a) * (spindle_log(x * equation->norm + (1 + a) / a) - spindle_log(equation->head[i]));
    }
    return value;
}

static double generalized_slope(const Equation *equation, double x)
{
    double slope = (-(2 * x + 2 / equation->norm)) / (x * x + (2 * x) / equation->norm);
    for (uint32_t i = 0; i < equation->cone->dim1; i++) {
        double a = equation->cone->exps[i];
        slope = slope + ((2 * a) * equation->norm) / (equation->norm * x + (1 + a) / a);
    }
    return slope;
}

static double newton(const Equation *equation, double x, uint32_t *rounds)
{
    bool power = equation->cone->kind == 2;
    for (*rounds = 0; *rounds < 100;) {
        ++*rounds;
        double slope = power ? power_slope(equation, x) : generalized_slope(equation, x);
        double value = power ? power_value(equation, x) : generalized_value(equation, x);
        double dx = -value / slope;
        if (dx < epsilon || fabs(dx / x) < root_of_epsilon || fabs(slope) < epsilon) break;
        x = x + dx;
    }
    return x;
}

/* ---- primal gradients; each is false where the Rust panics */

static bool exponential_gradient(const double *s, double *g)
{
    double argument = omega_argument(s);
    if (argument < 0) return false;
    double w = omega(argument);
    g[0] = 1 / ((w - 1) * s[1]);
    g[1] = (g[0] + g[0] * spindle_log((w * s[1]) / s[2])) - 1 / s[1];
    g[2] = w / ((1 - w) * s[2]);
    return true;
}

static void power_gradient(const SpindleCone *cone, const double *s, double *g, uint32_t *rounds)
{
    double a = cone->exps[0];
    double b = 1 - a;
    double phi = spindle_powf(s[0], 2 * a) * spindle_powf(s[1], 2 - a * 2);
    double size = fabs(s[2]);
    if (!(size > epsilon)) {
        g[0] = -(1 + a) / s[0];
        g[1] = -(2 - a) / s[1];
        g[2] = 0;
        return;
    }
    Equation equation = {cone, size, phi, NULL};
    double root = spindle_sqrt((phi * phi) / (size * size) + phi * 3);
    double start = -(1 / size) + ((size * 2) + root) / (phi - size * size);
    g[2] = newton(&equation, start, rounds);
    if (s[2] < 0) g[2] = -g[2];
    g[0] = -((((a * g[2]) * s[2]) + 1) + a) / s[0];
    g[1] = -((((b * g[2]) * s[2]) + 2) - a) / s[1];
}

static void generalized_gradient(const SpindleCone *cone, const double *s, double *g, uint32_t *rounds)
{
    uint32_t head = cone->dim1;
    const double *tail = s + head;
    double norm = spindle_sqrt(dot(tail, tail, cone->dim2));
    double psi = 1 / dot(cone->exps, cone->exps, head);
    double phi = 1;
    for (uint32_t i = 0; i < head; i++) phi = phi * spindle_powf(s[i], 2 * cone->exps[i]);
    if (!(norm > epsilon)) {
        for (uint32_t i = 0; i < head; i++) g[i] = -(1 + cone->exps[i]) / s[i];
        for (uint32_t i = 0; i < cone->dim2; i++) g[head + i] = 0;
        return;
    }
    Equation equation = {cone, norm, phi, s};
    double root = spindle_sqrt(((((phi / norm) / norm) + (psi * psi)) - 1) * phi);
    double start = -(1 / norm) + ((psi * norm) + root) / (phi - norm * norm);
    double g1 = newton(&equation, start, rounds);
    for (uint32_t i = 0; i < head; i++) g[i] = -((1 + cone->exps[i]) + (cone->exps[i] * g1) * norm) / s[i];
    for (uint32_t i = 0; i < cone->dim2; i++) g[head + i] = (g1 / norm) * tail[i];
}

static bool gradient_primal(const SpindleCone *cone, const double *s, double *g, uint32_t *rounds)
{
    *rounds = 0;
    if (cone->kind == 1) return exponential_gradient(s, g);
    if (cone->kind == 2) power_gradient(cone, s, g, rounds);
    if (cone->kind == 3) generalized_gradient(cone, s, g, rounds);
    return true;
}

/* ---- barriers */

static double barrier_dual(const SpindleCone *cone, const double *z)
{
    if (cone->kind == 1) {
        double l = spindle_log(-z[2] / z[0]);
        return -spindle_log(-z[2] * z[0]) - spindle_log((z[1] - z[0]) - z[0] * l);
    }
    if (cone->kind == 2) {
        double a = cone->exps[0];
        double b = 1 - a;
        double argument = spindle_powf(z[0] / a, 2 * a) * spindle_powf(z[1] / b, 2 - 2 * a) - z[2] * z[2];
        return (-spindle_log(argument) - b * spindle_log(z[0])) - a * spindle_log(z[1]);
    }
    const double *tail = z + cone->dim1;
    double exponent = 0;
    for (uint32_t i = 0; i < cone->dim1; i++) {
        double a = cone->exps[i];
        exponent = exponent + (2 * a) * spindle_log(z[i] / a);
    }
    double barrier = -spindle_log(spindle_exp(exponent) - dot(tail, tail, cone->dim2));
    for (uint32_t i = 0; i < cone->dim1; i++) barrier = barrier - spindle_log(z[i]) * (1 - cone->exps[i]);
    return barrier;
}

static bool exponential_barrier(const double *s, double *barrier)
{
    double argument = omega_argument(s);
    if (argument < 0) return false;
    double w = omega(argument);
    double v = ((w - 1) * (w - 1)) / w;
    *barrier = ((-spindle_log(v) - spindle_log(s[1]) * 2) - spindle_log(s[2])) - 3;
    return true;
}

/* False where the Rust panics. */
static bool barrier_primal(const SpindleCone *cone, const double *s, double *barrier)
{
    double g[64];
    uint32_t rounds;
    if (cone->kind == 1) return exponential_barrier(s, barrier);
    gradient_primal(cone, s, g, &rounds);
    if (cone->kind == 2) {
        double a = cone->exps[0];
        double b = 1 - a;
        double argument = spindle_powf(-g[0] / a, 2 * a) * spindle_powf(-g[1] / b, 2 - a * 2) - g[2] * g[2];
        double sum = 0 + spindle_log(argument);
        sum = sum + b * spindle_log(-g[0]);
        *barrier = sum + (a * spindle_log(-g[1]) - 3);
        return true;
    }
    for (size_t i = 0; i < spindle_length(*cone); i++) g[i] = -g[i];
    *barrier = -barrier_dual(cone, g) - (double)(cone->dim1 + 1);
    return true;
}

/* ---- dual gradients and Hessians */

static void exponential_dual_gradient(const double *z, SpindleThree *three)
{
    double *g = three->grad;
    double *h = three->h_dual;
    double l = spindle_log(-z[2] / z[0]);
    double r = ((-z[0]) * l - z[0]) + z[1];
    double over = 1 / r;
    g[0] = over * l - 1 / z[0];
    g[1] = -over;
    g[2] = (over * z[0] - 1) / z[2];
    h[0] = ((r * r - z[0] * r) + ((l * l) * z[0]) * z[0]) / (((r * z[0]) * z[0]) * r);
    h[1] = -l / (r * r);
    h[2] = 1 / (r * r);
    h[3] = (z[1] - z[0]) / ((r * r) * z[2]);
    h[4] = -z[0] / ((r * r) * z[2]);
    h[5] = ((r * r - z[0] * r) + z[0] * z[0]) / (((r * r) * z[2]) * z[2]);
}

static void power_dual_gradient(const SpindleCone *cone, const double *z, SpindleThree *three)
{
    double *g = three->grad;
    double *h = three->h_dual;
    double a = cone->exps[0];
    double b = 1 - a;
    double phi = spindle_powf(z[0] / a, 2 * a) * spindle_powf(z[1] / b, 2 - 2 * a);
    double psi = phi - z[2] * z[2];
    double g0 = ((2 * a) * phi) / (z[0] * psi);
    double g1 = ((2 * b) * phi) / (z[1] * psi);
    double g2 = (-2 * z[2]) / psi;
    h[0] = (g0 * g0 - (((2 * a) * (2 * a - 1)) * phi) / ((z[0] * z[0]) * psi)) + b / (z[0] * z[0]);
    h[1] = g0 * g1 - (((4 * a) * b) * phi) / ((z[0] * z[1]) * psi);
    h[2] = (g1 * g1 - (((2 * b) * (1 - 2 * a)) * phi) / ((z[1] * z[1]) * psi)) + a / (z[1] * z[1]);
    h[3] = g0 * g2;
    h[4] = g1 * g2;
    h[5] = g2 * g2 + 2 / psi;
    g[0] = ((-2 * a) * phi) / (z[0] * psi) - b / z[0];
    g[1] = ((-2 * b) * phi) / (z[1] * psi) - a / z[1];
    g[2] = (2 * z[2]) / psi;
}

/* False where the Rust panics. */
static bool generalized_dual_gradient(const SpindleCone *cone, const double *z, SpindleWide *wide)
{
    uint32_t head = cone->dim1;
    const double *tail = z + head;
    double phi = 1;
    for (uint32_t i = 0; i < head; i++) phi = phi * spindle_powf(z[i] / cone->exps[i], 2 * cone->exps[i]);
    double square = dot(tail, tail, cone->dim2);
    double zeta = phi - square;
    if (!(zeta > 0)) return false;
    double p0 = spindle_sqrt((phi * (phi + square)) / 2);
    double p1 = (-2 * phi) / p0;
    double q0 = spindle_sqrt((zeta * phi) / 2);
    double r1 = 2 * spindle_sqrt(zeta / (phi + square));
    for (uint32_t i = 0; i < head; i++) {
        double a = cone->exps[i];
        double tau = (2 * a) / z[i];
        wide->grad[i] = ((-tau) * phi) / zeta - (1 - a) / z[i];
        wide->p[i] = (p0 / zeta) * tau;
        wide->q[i] = tau * (q0 / zeta);
        wide->d1[i] = (tau * phi) / (zeta * z[i]) + (1 - a) / (z[i] * z[i]);
    }
    for (uint32_t i = 0; i < cone->dim2; i++) {
        wide->grad[head + i] = (2 / zeta) * tail[i];
        wide->p[head + i] = (p1 / zeta) * tail[i];
        wide->r[i] = (r1 / zeta) * tail[i];
    }
    wide->d2 = 2 / zeta;
    return true;
}

static bool dual_gradient(const SpindleCone *cone, const double *z, SpindleThree *three, SpindleWide *wide)
{
    if (cone->kind == 3) return generalized_dual_gradient(cone, z, wide);
    if (cone->kind == 2) power_dual_gradient(cone, z, three);
    if (cone->kind == 1) exponential_dual_gradient(z, three);
    return true;
}

/* ---- entries over a cone */

static const SpindleThree no_three;
static const SpindleWide no_wide;
static const SpindleScaling no_record;

SpindleUpdated spindle_fresh(SpindleCone cone)
{
    SpindleUpdated updated = {0, no_record};
    if (bad_cone(&cone))
        updated.code = 1;
    else
        updated.record.cone = cone;
    return updated;
}

static SpindleVerdict feasible(const SpindleCone *cone, bool primal, const double *x, size_t nx)
{
    SpindleVerdict verdict = {judge_point(cone, x, nx), SPINDLE_NO};
    if (verdict.code == 0) verdict.answer = inside(cone, primal, x);
    return verdict;
}

SpindleVerdict spindle_is_primal_feasible(SpindleCone cone, const double *s, size_t ns) { return feasible(&cone, true, s, ns); }
SpindleVerdict spindle_is_dual_feasible(SpindleCone cone, const double *z, size_t nz) { return feasible(&cone, false, z, nz); }

SpindleNumber spindle_barrier_dual(SpindleCone cone, const double *z, size_t nz)
{
    SpindleNumber number = {judge_point(&cone, z, nz), 0};
    if (number.code) return number;
    double barrier = barrier_dual(&cone, z);
    if (is_finite(barrier))
        number.value = barrier;
    else
        number.code = 7;
    return number;
}

SpindleDualGrad spindle_dual_grad_h(SpindleCone cone, const double *z, size_t nz)
{
    SpindleDualGrad refused = {judge_point(&cone, z, nz), no_three, no_wide};
    SpindleDualGrad done = refused;
    if (refused.code) return refused;
    if (!dual_gradient(&cone, z, &done.three, &done.wide)) {
        refused.code = 6;
        return refused;
    }
    if (!three_finite(&done.three) || !wide_finite(&done.wide, 32, 32)) {
        refused.code = 7;
        return refused;
    }
    return done;
}

SpindleSettings spindle_house_settings(double start)
{
    SpindleSettings settings = {start, 0.5, 0.0001};
    return settings;
}

uint32_t spindle_house_strategy(void) { return SPINDLE_PRIMAL_DUAL; }

static uint32_t judge_search(const SpindleCone *cone, const double *dq, size_t ndq, const double *q, size_t nq, size_t np,
                             SpindleSettings settings)
{
    if (bad_cone(cone)) return 1;
    size_t n = spindle_length(*cone);
    if (ndq != n || nq != n || np != n) return 2;
    if (!all_finite(dq, n) || !all_finite(q, n)) return 3;
    return judge_settings(settings);
}

SpindleFound spindle_backtrack_search(SpindleCone cone, bool primal, const double *dq, size_t ndq, const double *q, size_t nq,
                                      double *point, size_t np, SpindleSettings settings)
{
    SpindleFound found = {judge_search(&cone, dq, ndq, q, nq, np, settings), 0, 0};
    if (found.code == 0) found.step = search(&cone, primal, dq, q, point, settings, &found.count);
    return found;
}

static uint32_t judge_steps(const SpindleCone *cone, const double *dz, size_t ndz, const double *ds, size_t nds, const double *z, size_t nz,
                            const double *s, size_t ns, size_t ndp, size_t npp, SpindleSettings settings)
{
    if (bad_cone(cone)) return 1;
    size_t n = spindle_length(*cone);
    if (ndz != n || nds != n || nz != n || ns != n || ndp != n || npp != n) return 2;
    if (!all_finite(dz, n) || !all_finite(z, n)) return 3;
    if (!all_finite(ds, n) || !all_finite(s, n)) return 3;
    return judge_settings(settings);
}

SpindleSteps spindle_step_length(SpindleCone cone, const double *dz, size_t ndz, const double *ds, size_t nds, const double *z, size_t nz,
                                 const double *s, size_t ns, double *dual_point, size_t ndp, double *primal_point, size_t npp,
                                 SpindleSettings settings)
{
    SpindleSteps steps = {judge_steps(&cone, dz, ndz, ds, nds, z, nz, s, ns, ndp, npp, settings), 0, 0, 0, 0};
    if (steps.code) return steps;
    steps.dual_step = search(&cone, false, dz, z, dual_point, settings, &steps.dual_count);
    steps.primal_step = search(&cone, true, ds, s, primal_point, settings, &steps.primal_count);
    return steps;
}

static uint32_t judge_common(const SpindleCone *cones, size_t ncones, const double *dq, size_t ndq, const double *q, size_t nq, size_t np,
                             SpindleSettings settings)
{
    if (bad_list(cones, ncones)) return 1;
    size_t n = length_of_list(cones, ncones);
    if (ndq != n || nq != n || np != n) return 2;
    if (!all_finite(dq, n) || !all_finite(q, n)) return 3;
    return judge_settings(settings);
}

SpindleFound spindle_common_step(const SpindleCone *cones, size_t ncones, bool primal, const double *dq, size_t ndq, const double *q,
                                 size_t nq, double *point, size_t np, SpindleSettings settings)
{
    SpindleFound found = {judge_common(cones, ncones, dq, ndq, q, nq, np, settings), 0, 0};
    if (found.code) return found;
    for (double step = settings.start;;) {
        put_trial(point, q, step, dq, nq);
        if (all_inside(cones, ncones, primal, point, &found.count)) {
            found.step = step;
            return found;
        }
        step = step * settings.step;
        if (step < settings.smallest) break;
    }
    copy(point, q, nq);
    return found;
}

static uint32_t judge_plan(const SpindleCone *cones, size_t ncones, const double *dz, size_t ndz, const double *ds, size_t nds,
                           const double *z, size_t nz, const double *s, size_t ns, size_t ndp, size_t npp, SpindleSettings settings)
{
    if (bad_list(cones, ncones)) return 1;
    size_t n = length_of_list(cones, ncones);
    if (ndz != n || nz != n || ndp != n) return 2;
    if (nds != n || ns != n || npp != n) return 2;
    if (!all_finite(dz, n) || !all_finite(z, n)) return 3;
    if (!all_finite(ds, n) || !all_finite(s, n)) return 3;
    return judge_settings(settings);
}

SpindleFound spindle_plan_step(const SpindleCone *cones, size_t ncones, const double *dz, size_t ndz, const double *ds, size_t nds,
                               const double *z, size_t nz, const double *s, size_t ns, double *dual_point, size_t ndp, double *primal_point,
                               size_t npp, SpindleSettings settings)
{
    SpindleFound found = {judge_plan(cones, ncones, dz, ndz, ds, nds, z, nz, s, ns, ndp, npp, settings), 0, 0};
    if (found.code) return found;
    for (double step = settings.start;;) {
        put_trial(dual_point, z, step, dz, nz);
        put_trial(primal_point, s, step, ds, ns);
        bool passes = all_inside(cones, ncones, false, dual_point, &found.count);
        if (passes) passes = all_inside(cones, ncones, true, primal_point, &found.count);
        if (passes) {
            found.step = step;
            return found;
        }
        step = step * settings.step;
        if (step < settings.smallest) break;
    }
    copy(dual_point, z, nz);
    copy(primal_point, s, ns);
    return found;
}

uint32_t spindle_unit_initialization(SpindleCone cone, double *z, size_t nz, double *s, size_t ns)
{
    if (bad_cone(&cone)) return 1;
    size_t n = spindle_length(cone);
    if (nz != n || ns != n) return 2;
    for (size_t i = 0; i < n; i++) z[i] = 0;
    if (cone.kind == 1) {
        z[0] = -1.051383945322714;
        z[1] = 0.556409619469370;
        z[2] = 1.258967884768947;
    }
    if (cone.kind == 2) {
        z[0] = spindle_sqrt(1 + cone.exps[0]);
        z[1] = spindle_sqrt(1 + (1 - cone.exps[0]));
    }
    if (cone.kind == 3)
        for (uint32_t i = 0; i < cone.dim1; i++) z[i] = spindle_sqrt(1 + cone.exps[i]);
    copy(s, z, n);
    return 0;
}

static uint32_t judge_equilibration(const SpindleCone *cone, size_t nd, const double *e, size_t ne)
{
    if (bad_cone(cone)) return 1;
    size_t n = spindle_length(*cone);
    if (nd != n || ne != n) return 2;
    if (!all_finite(e, n)) return 3;
    return 0;
}

SpindleYesNo spindle_rectify_equilibration(SpindleCone cone, double *delta, size_t nd, const double *e, size_t ne)
{
    SpindleYesNo answer = {judge_equilibration(&cone, nd, e, ne), false};
    if (answer.code) return answer;
    double out[64];
    double sum = 0;
    for (size_t i = 0; i < ne; i++) sum = sum + e[i];
    for (size_t i = 0; i < ne; i++) out[i] = (1 / e[i]) * (sum / (double)ne);
    if (!all_finite(out, ne)) {
        answer.code = 7;
        return answer;
    }
    copy(delta, out, ne);
    answer.yes = true;
    return answer;
}

uint32_t spindle_affine_ds(SpindleCone cone, double *ds, size_t nds, const double *s, size_t ns)
{
    if (bad_cone(&cone)) return 1;
    size_t n = spindle_length(cone);
    if (nds != n || ns != n) return 2;
    if (!all_finite(s, n)) return 3;
    copy(ds, s, n);
    return 0;
}

uint32_t spindle_ds_from_dz_offset(SpindleCone cone, double *out, size_t no, const double *ds, size_t nds, const double *z, size_t nz)
{
    if (bad_cone(&cone)) return 1;
    size_t n = spindle_length(cone);
    if (no != n || nds != n) return 2;
    if (nz != n) return 2;
    if (!all_finite(ds, n)) return 3;
    if (!all_finite(z, n)) return 3;
    copy(out, ds, n);
    return 0;
}

/* ---- the update of a record */

/* 003's primal-dual block at s and z, the dual gradient st and its Hessian h: false where the Rust panics. */
static bool primal_dual_block(const SpindleCone *cone, const double *s, const double *z, const double *st, const double *h, double *block)
{
    double zt[3];
    uint32_t rounds;
    if (!gradient_primal(cone, s, zt, &rounds)) return false;

    double dot_sz = dot(s, z, 3);
    double mu = dot_sz / 3;
    double mu_tilde = dot(st, zt, 3) / 3;
    double delta_s[3];
    double delta_z[3];
    for (int i = 0; i < 3; i++) {
        delta_s[i] = s[i] + mu * st[i];
        delta_z[i] = z[i] + mu * zt[i];
    }
    double h_zt[3];
    block_times(h, zt, h_zt);
    double dot_delta = dot(delta_s, delta_z, 3);
    double de1 = mu * mu_tilde - 1;
    double de2 = dot(zt, h_zt, 3) - (3 * mu_tilde) * mu_tilde;
    bool whole = fabs(de1) > root_of_epsilon && fabs(de2) > epsilon && dot_sz > 0 && dot_delta > 0;
    if (!whole) {
        for (int i = 0; i < 6; i++) block[i] = mu * h[i];
        return true;
    }

    double t[3];
    for (int i = 0; i < 3; i++) t[i] = mu_tilde * st[i] - h_zt[i];
    double w[6];
    for (int j = 0, at = 0; j < 3; j++)
        for (int i = 0; i <= j; i++, at++) w[at] = h[at] - ((st[i] * st[j]) / 3 + (t[i] * t[j]) / de2);
    double diagonal = (w[0] * w[0] + w[2] * w[2]) + w[5] * w[5];
    double beside = (w[1] * w[1] + w[3] * w[3]) + w[4] * w[4];
    double factor = mu * spindle_sqrt(diagonal + 2 * beside);

    double axis[3];
    axis[0] = z[1] * zt[2] - z[2] * zt[1];
    axis[1] = z[2] * zt[0] - z[0] * zt[2];
    axis[2] = z[0] * zt[1] - z[1] * zt[0];
    double norm = spindle_sqrt(dot(axis, axis, 3));
    if (norm != 0)
        for (int i = 0; i < 3; i++) axis[i] = axis[i] * (1 / norm);
    for (int j = 0, at = 0; j < 3; j++)
        for (int i = 0; i <= j; i++, at++)
            block[at] = ((s[i] * s[j]) / dot_sz + (delta_s[i] * delta_s[j]) / dot_delta) + (factor * axis[i]) * axis[j];
    return true;
}

static uint32_t judge_update(const SpindleScaling *record, const double *s, size_t ns, const double *z, size_t nz, double mu,
                             uint32_t strategy)
{
    if (bad_cone(&record->cone)) return 1;
    size_t n = spindle_length(record->cone);
    if (ns != n || nz != n) return 2;
    if (!all_finite(s, n)) return 3;
    if (!all_finite(z, n)) return 3;
    if (!is_finite(mu)) return 3;
    if (!record_finite(record)) return 3;
    if (strategy != SPINDLE_DUAL && strategy != SPINDLE_PRIMAL_DUAL) return 4;
    if (record->serial == UINT32_MAX) return 11;
    return 0;
}

SpindleUpdated spindle_update_scaling(SpindleScaling record, const double *s, size_t ns, const double *z, size_t nz, double mu,
                                      uint32_t strategy)
{
    SpindleUpdated updated = {judge_update(&record, s, ns, z, nz, mu, strategy), record};
    if (updated.code) return updated;
    SpindleScaling next = no_record;
    next.cone = record.cone;
    next.scaled = 1;
    next.serial = record.serial + 1;
    bool has_value = dual_gradient(&record.cone, z, &next.three, &next.wide);
    if (record.cone.kind == 3) {
        copy(next.wide.z, z, nz);
        next.wide.mu = mu;
    } else {
        double *h = next.three.h_dual;
        double *hs = next.three.hs;
        copy(next.three.z, z, 3);
        if (strategy == SPINDLE_DUAL)
            for (int i = 0; i < 6; i++) hs[i] = mu * h[i];
        else
            has_value = primal_dual_block(&record.cone, s, z, next.three.grad, h, hs);
    }
    if (!has_value)
        updated.code = 6;
    else if (!record_finite(&next))
        updated.code = 7;
    else
        updated.record = next;
    return updated;
}

/* ---- entries that use the cone of a record alone */

static uint32_t judge_gradient(const SpindleScaling *record, size_t ng, const double *s, size_t ns)
{
    if (bad_cone(&record->cone)) return 1;
    size_t n = spindle_length(record->cone);
    if (ng != n || ns != n) return 2;
    if (!all_finite(s, n) || !record_finite(record)) return 3;
    return 0;
}

SpindleRounds spindle_gradient_primal(SpindleScaling record, double *g, size_t ng, const double *s, size_t ns)
{
    SpindleRounds answer = {judge_gradient(&record, ng, s, ns), 0};
    if (answer.code) return answer;
    double out[64];
    uint32_t rounds;
    if (!gradient_primal(&record.cone, s, out, &rounds)) {
        answer.code = 6;
        return answer;
    }
    if (!all_finite(out, ns)) {
        answer.code = 7;
        return answer;
    }
    copy(g, out, ns);
    answer.rounds = rounds;
    return answer;
}

static uint32_t judge_barrier(const SpindleScaling *record, const double *s, size_t ns)
{
    if (bad_cone(&record->cone)) return 1;
    if (ns != spindle_length(record->cone)) return 2;
    if (!all_finite(s, ns) || !record_finite(record)) return 3;
    return 0;
}

SpindleNumber spindle_barrier_primal(SpindleScaling record, const double *s, size_t ns)
{
    SpindleNumber number = {judge_barrier(&record, s, ns), 0};
    if (number.code) return number;
    double barrier;
    if (!barrier_primal(&record.cone, s, &barrier))
        number.code = 6;
    else if (!is_finite(barrier))
        number.code = 7;
    else
        number.value = barrier;
    return number;
}

static uint32_t judge_both_barriers(const SpindleScaling *record, const double *z, size_t nz, const double *s, size_t ns, const double *dz,
                                    size_t ndz, const double *ds, size_t nds, double alpha)
{
    if (bad_cone(&record->cone)) return 1;
    size_t n = spindle_length(record->cone);
    if (nz != n || ns != n || ndz != n || nds != n) return 2;
    if (!all_finite(z, n) || !all_finite(s, n) || !all_finite(dz, n) || !all_finite(ds, n)) return 3;
    if (!is_finite(alpha) || !record_finite(record)) return 3;
    return 0;
}

SpindleNumber spindle_compute_barrier(SpindleScaling record, const double *z, size_t nz, const double *s, size_t ns, const double *dz,
                                      size_t ndz, const double *ds, size_t nds, double alpha)
{
    SpindleNumber number = {judge_both_barriers(&record, z, nz, s, ns, dz, ndz, ds, nds, alpha), 0};
    if (number.code) return number;
    double dual_point[64];
    double primal_point[64];
    put_trial(dual_point, z, alpha, dz, nz);
    put_trial(primal_point, s, alpha, ds, ns);
    double primal;
    if (!barrier_primal(&record.cone, primal_point, &primal)) {
        number.code = 6;
        return number;
    }
    double dual = barrier_dual(&record.cone, dual_point);
    double sum = record.cone.kind == 3 ? (0 + primal) + dual : (0 + dual) + primal;
    if (is_finite(sum))
        number.value = sum;
    else
        number.code = 7;
    return number;
}

/* ---- entries that use a record's scaling */

static uint32_t judge_round(const SpindleScaling *record, uint32_t serial)
{
    if (!record->scaled) return 5;
    if (record->serial != serial) return 10;
    return 0;
}

static uint32_t judge_block(const SpindleScaling *record, uint32_t serial, size_t nb)
{
    if (bad_cone(&record->cone)) return 1;
    size_t n = record->cone.kind == 3 ? spindle_length(record->cone) : 6;
    if (nb != n) return 2;
    if (!record_finite(record)) return 3;
    return judge_round(record, serial);
}

uint32_t spindle_get_hs(SpindleScaling record, uint32_t serial, double *block, size_t nb)
{
    uint32_t code = judge_block(&record, serial, nb);
    if (code) return code;
    double out[64];
    for (size_t i = 0; i < nb; i++) {
        if (record.cone.kind != 3)
            out[i] = record.three.hs[i];
        else
            out[i] = record.wide.mu * (i < record.cone.dim1 ? record.wide.d1[i] : record.wide.d2);
    }
    if (!all_finite(out, nb)) return 7;
    copy(block, out, nb);
    return 0;
}

static uint32_t judge_product(const SpindleScaling *record, uint32_t serial, size_t ny, const double *x, size_t nx)
{
    if (bad_cone(&record->cone)) return 1;
    size_t n = spindle_length(record->cone);
    if (ny != n || nx != n) return 2;
    if (!all_finite(x, n) || !record_finite(record)) return 3;
    return judge_round(record, serial);
}

static void wide_times(const SpindleWide *wide, size_t head, size_t tail, const double *x, double *y)
{
    double along_p = dot(wide->p, x, head + tail);
    double along_q = dot(wide->q, x, head);
    double along_r = dot(wide->r, x + head, tail);
    for (size_t i = 0; i < head; i++) {
        double kept = wide->d1[i] * x[i] - along_q * wide->q[i];
        y[i] = (along_p * wide->p[i] + 1 * kept) * wide->mu;
    }
    for (size_t i = 0; i < tail; i++) {
        double kept = wide->d2 * x[head + i] - along_r * wide->r[i];
        y[head + i] = (along_p * wide->p[head + i] + 1 * kept) * wide->mu;
    }
}

uint32_t spindle_mul_hs(SpindleScaling record, uint32_t serial, double *y, size_t ny, const double *x, size_t nx)
{
    uint32_t code = judge_product(&record, serial, ny, x, nx);
    if (code) return code;
    double out[64];
    if (record.cone.kind == 3)
        wide_times(&record.wide, record.cone.dim1, record.cone.dim2, x, out);
    else
        block_times(record.three.hs, x, out);
    if (!all_finite(out, nx)) return 7;
    copy(y, out, nx);
    return 0;
}

/* ---- the third-order correction */

/* The solution u of h u = ds by a Cholesky factor; false where h has none. */
static bool solved(const double *h, const double *ds, double *u)
{
    if (!(h[0] > 0)) return false;
    double l00 = spindle_sqrt(h[0]);
    double l10 = h[1] / l00;
    double pivot1 = h[2] - l10 * l10;
    if (!(pivot1 > 0)) return false;
    double l11 = spindle_sqrt(pivot1);
    double l20 = h[3] / l00;
    double l21 = (h[4] - l10 * l20) / l11;
    double pivot2 = (h[5] - l20 * l20) - l21 * l21;
    if (!(pivot2 > 0)) return false;
    double l22 = spindle_sqrt(pivot2);
    double y0 = ds[0] / l00;
    double y1 = (ds[1] - l10 * y0) / l11;
    double y2 = ((ds[2] - l20 * y0) - l21 * y1) / l22;
    u[2] = y2 / l22;
    u[1] = (y1 - l21 * u[2]) / l11;
    u[0] = ((y0 - l10 * u[1]) - l20 * u[2]) / l00;
    return true;
}

static void exponential_correction(const double *z, const double *u, const double *v, double *eta)
{
    eta[1] = 1;
    eta[2] = -z[0] / z[2];
    eta[0] = spindle_log(eta[2]);
    double psi = (z[0] * eta[0] - z[0]) + z[1];
    double dot_u = dot(u, eta, 3);
    double dot_v = dot(v, eta, 3);
    double first = u[0] * (v[0] / z[0] - v[2] / z[2]);
    double second = (u[2] * ((z[0] * v[2]) / z[2] - v[0])) / z[2];
    double coefficient = ((first + second) * psi - (2 * dot_u) * dot_v) / ((psi * psi) * psi);
    double over = 1 / (psi * psi);
    for (int i = 0; i < 3; i++) eta[i] = eta[i] * coefficient;

    double more = (((1 / psi - 2 / z[0]) * u[0]) * v[0]) / (z[0] * z[0]) - ((u[2] * v[2]) / (z[2] * z[2])) / psi;
    more = more + (dot_u * over) * (v[0] / z[0] - v[2] / z[2]);
    more = more + (dot_v * over) * (u[0] / z[0] - u[2] / z[2]);
    eta[0] = eta[0] + more;

    more = (((2 * (z[0] / psi - 1)) * u[2]) * v[2]) / ((z[2] * z[2]) * z[2]) - ((u[2] * v[0] + u[0] * v[2]) / (z[2] * z[2])) / psi;
    more = more + (dot_u * over) * ((z[0] * v[2]) / (z[2] * z[2]) - v[0] / z[2]);
    more = more + (dot_v * over) * ((z[0] * u[2]) / (z[2] * z[2]) - u[0] / z[2]);
    eta[2] = eta[2] + more;
    for (int i = 0; i < 3; i++) eta[i] = eta[i] * 0.5;
}

static void power_correction(double a, const double *z, const double *u, const double *v, double *eta)
{
    double b = 1 - a;
    double phi = spindle_powf(z[0] / a, 2 * a) * spindle_powf(z[1] / b, 2 - 2 * a);
    double psi = phi - z[2] * z[2];
    eta[0] = ((2 * a) * phi) / z[0];
    eta[1] = ((2 * b) * phi) / z[1];
    eta[2] = -2 * z[2];
    double block[6] = {0, 0, 0, 0, 0, -2};
    block[0] = (((2 * a) * (2 * a - 1)) * phi) / (z[0] * z[0]);
    block[1] = (((4 * a) * b) * phi) / (z[0] * z[1]);
    block[2] = (((2 * b) * (1 - 2 * a)) * phi) / (z[1] * z[1]);
    double dot_u = dot(u, eta, 3);
    double dot_v = dot(v, eta, 3);
    double block_v[3];
    block_times(block, v, block_v);
    double coefficient = (dot(u, block_v, 3) * psi - (2 * dot_u) * dot_v) / ((psi * psi) * psi);
    double apart_u = u[0] / z[0] - u[1] / z[1];
    double apart_v = v[0] / z[0] - v[1] / z[1];
    double second = ((((((4 * a) * (2 * a - 1)) * b) * phi) * apart_u) * apart_v) / psi;
    double over = 1 / (psi * psi);
    eta[0] = ((coefficient * eta[0] - (((2 * b) * u[0]) * v[0]) / ((z[0] * z[0]) * z[0])) + second / z[0]) + (block_v[0] * dot_u) * over;
    eta[1] = ((coefficient * eta[1] - (((2 * a) * u[1]) * v[1]) / ((z[1] * z[1]) * z[1])) - second / z[1]) + (block_v[1] * dot_u) * over;
    eta[2] = coefficient * eta[2] + (block_v[2] * dot_u) * over;
    double block_u[3];
    block_times(block, u, block_u);
    for (int i = 0; i < 3; i++) eta[i] = ((dot_v * over) * block_u[i] + 1 * eta[i]) * 0.5;
}

static void correction(const SpindleScaling *record, const double *ds, const double *v, double *eta)
{
    const double *z = record->three.z;
    double u[3];
    eta[0] = 0;
    eta[1] = 0;
    eta[2] = 0;
    if (!solved(record->three.h_dual, ds, u)) return;
    if (record->cone.kind == 1)
        exponential_correction(z, u, v, eta);
    else
        power_correction(record->cone.exps[0], z, u, v, eta);
}

/* A correction's three slices, of which two are read, and the number beside them. */
static uint32_t judge_correction(const SpindleScaling *record, uint32_t serial, size_t written, const double *x, size_t nx, const double *y,
                                 size_t ny, double number)
{
    if (bad_cone(&record->cone)) return 1;
    if (record->cone.kind == 3) return 1;
    if (written != 3 || nx != 3 || ny != 3) return 2;
    if (!all_finite(x, 3) || !all_finite(y, 3)) return 3;
    if (!is_finite(number)) return 3;
    if (!record_finite(record)) return 3;
    return judge_round(record, serial);
}

uint32_t spindle_higher_correction(SpindleScaling record, uint32_t serial, double *eta, size_t ne, const double *ds, size_t nds,
                                   const double *v, size_t nv)
{
    uint32_t code = judge_correction(&record, serial, ne, ds, nds, v, nv, 0);
    if (code) return code;
    double out[3];
    correction(&record, ds, v, out);
    if (!all_finite(out, 3)) return 7;
    copy(eta, out, 3);
    return 0;
}

uint32_t spindle_combined_ds_shift(SpindleScaling record, uint32_t serial, double *shift, size_t nsh, const double *step_z, size_t nsz,
                                   const double *step_s, size_t nss, double sigma_mu)
{
    uint32_t code = judge_correction(&record, serial, nsh, step_z, nsz, step_s, nss, sigma_mu);
    if (code) return code;
    double out[3];
    correction(&record, step_s, step_z, out);
    for (int i = 0; i < 3; i++) out[i] = record.three.grad[i] * sigma_mu - out[i];
    if (!all_finite(out, 3)) return 7;
    copy(shift, out, 3);
    return 0;
}

/* ---- the same over a record where it lies */

uint32_t spindle_update_scaling_in_place(SpindleScaling *record, const double *s, size_t ns, const double *z, size_t nz, double mu,
                                         uint32_t strategy)
{
    SpindleUpdated updated = spindle_update_scaling(*record, s, ns, z, nz, mu, strategy);
    if (updated.code == 0) *record = updated.record;
    return updated.code;
}

SpindleRounds spindle_gradient_primal_in_place(const SpindleScaling *record, double *g, size_t ng, const double *s, size_t ns)
{
    return spindle_gradient_primal(*record, g, ng, s, ns);
}

SpindleNumber spindle_barrier_primal_in_place(const SpindleScaling *record, const double *s, size_t ns)
{
    return spindle_barrier_primal(*record, s, ns);
}

SpindleNumber spindle_compute_barrier_in_place(const SpindleScaling *record, const double *z, size_t nz, const double *s, size_t ns,
                                               const double *dz, size_t ndz, const double *ds, size_t nds, double alpha)
{
    return spindle_compute_barrier(*record, z, nz, s, ns, dz, ndz, ds, nds, alpha);
}

uint32_t spindle_get_hs_in_place(const SpindleScaling *record, uint32_t serial, double *block, size_t nb)
{
    return spindle_get_hs(*record, serial, block, nb);
}

uint32_t spindle_mul_hs_in_place(const SpindleScaling *record, uint32_t serial, double *y, size_t ny, const double *x, size_t nx)
{
    return spindle_mul_hs(*record, serial, y, ny, x, nx);
}

uint32_t spindle_higher_correction_in_place(const SpindleScaling *record, uint32_t serial, double *eta, size_t ne, const double *ds,
                                            size_t nds, const double *v, size_t nv)
{
    return spindle_higher_correction(*record, serial, eta, ne, ds, nds, v, nv);
}

uint32_t spindle_combined_ds_shift_in_place(const SpindleScaling *record, uint32_t serial, double *shift, size_t nsh, const double *step_z,
                                            size_t nsz, const double *step_s, size_t nss, double sigma_mu)
{
    return spindle_combined_ds_shift(*record, serial, shift, nsh, step_z, nsz, step_s, nss, sigma_mu);
}
