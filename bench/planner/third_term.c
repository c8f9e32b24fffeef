/* The last of the three terms of the primal-dual scaling (003, t) near the wall: what the record's block holds of it, against the same formula in quadruple
   precision. The exponential cone at z with a residue r, s a little beside the central path. */
#include <spindle.h>
#include <stdio.h>
#ifdef __x86_64__
#include <quadmath.h>
typedef __float128 Wide;
#else /* where long double is quadruple precision */
#include <math.h>
#define logq logl
#define sqrtq sqrtl
typedef long double Wide;
#endif

static Wide dot(const Wide *v, const Wide *w) { return v[0] * w[0] + v[1] * w[1] + v[2] * w[2]; }

/* Gradient and Hessian of the dual barrier at z (000). */
static void dual_gradient(const Wide *z, Wide *g, Wide H[3][3])
{
    Wide l = logq(-z[2] / z[0]), r = -z[0] * l - z[0] + z[1];
    g[0] = l / r - 1 / z[0];
    g[1] = -1 / r;
    g[2] = (z[0] / r - 1) / z[2];
    H[0][0] = (r * r - z[0] * r + l * l * z[0] * z[0]) / (r * z[0] * z[0] * r);
    H[0][1] = H[1][0] = -l / (r * r);
    H[1][1] = 1 / (r * r);
    H[0][2] = H[2][0] = (z[1] - z[0]) / (r * r * z[2]);
    H[1][2] = H[2][1] = -z[0] / (r * r * z[2]);
    H[2][2] = (r * r - z[0] * r + z[0] * z[0]) / (r * r * z[2] * z[2]);
}

/* Gradient of the primal barrier at s (000), omega by Newton's rounds. */
static void primal_gradient(const Wide *s, Wide *g)
{
    Wide arg = 1 - s[0] / s[1] - logq(s[1] / s[2]), omega = arg;
    for (int k = 0; k < 200; k++) omega -= (omega + logq(omega) - arg) / (1 + 1 / omega);
    g[0] = 1 / ((omega - 1) * s[1]);
    g[1] = g[0] + g[0] * logq(omega * s[1] / s[2]) - 1 / s[1];
    g[2] = omega / ((1 - omega) * s[2]);
}

/* t = mu |H - gg'/3 - tt'/de2|, as 003 has it; `at` is the primal gradient. */
static Wide third_term(const Wide *g, Wide H[3][3], const Wide *at, Wide mu)
{
    Wide product[3], mu_tilde = dot(g, at) / 3, norm = 0;
    for (int i = 0; i < 3; i++) product[i] = dot(H[i], at);
    Wide de2 = dot(product, at) - 3 * mu_tilde * mu_tilde;
    for (int i = 0; i < 3; i++) product[i] = mu_tilde * g[i] - product[i];
    for (int i = 0; i < 3; i++) {
        for (int j = 0; j < 3; j++) {
            Wide entry = H[i][j] - g[i] * g[j] / 3 - product[i] * product[j] / de2;
            norm += entry * entry;
        }
    }
    return mu * sqrtq(norm);
}

/* What the block has along the axis: the block less its first two terms. */
static Wide term_of_block(const double *hs, const Wide *s, const Wide *z, const Wide *g, const Wide *at, Wide mu)
{
    static const int place[3][3] = {{0, 1, 3}, {1, 2, 4}, {3, 4, 5}};
    Wide axis[3] = {z[1] * at[2] - z[2] * at[1], z[2] * at[0] - z[0] * at[2], z[0] * at[1] - z[1] * at[0]}, ds[3], dz[3], sum = 0;
    for (int i = 0; i < 3; i++) {
        ds[i] = s[i] + mu * g[i];
        dz[i] = z[i] + mu * at[i];
    }
    for (int i = 0; i < 3; i++) {
        for (int j = 0; j < 3; j++) sum += axis[i] * (hs[place[i][j]] - s[i] * s[j] / dot(s, z) - ds[i] * ds[j] / dot(ds, dz)) * axis[j];
    }
    return sum / dot(axis, axis);
}

int main(void)
{
    SpindleScaling fresh = spindle_fresh((SpindleCone){.kind = SPINDLE_EXPONENTIAL, .rule = SPINDLE_RULE_2}).record;
    printf("| residue | t | t in the block | block's t over t |\n|---|---|---|---|\n");
    for (double residue = 1e-2; residue > 1e-9; residue /= 10) {
        Wide g[3], H[3][3], at[3];
        double zd[3] = {-1, (double)(residue - 1 - logq((Wide)1.5)), 1.5}, sd[3];
        Wide z[3] = {zd[0], zd[1], zd[2]}, s[3];
        dual_gradient(z, g, H);
        sd[0] = (double)(-residue * g[0]);
        sd[1] = (double)(-residue * g[1]) * (1 + 0.1 * residue);
        sd[2] = (double)(-residue * g[2]) * (1 + 0.3 * residue);
        for (int i = 0; i < 3; i++) s[i] = sd[i];
        primal_gradient(s, at);
        Wide mu = dot(s, z) / 3, t = third_term(g, H, at, mu);
        SpindleUpdated updated = spindle_update_scaling(fresh, sd, 3, zd, 3, residue, SPINDLE_PRIMAL_DUAL);
        if (updated.code) {
            printf("| %.0e | refused: %s | | |\n", residue, spindle_meaning(updated.code));
            continue;
        }
        const SpindleThree *three = &updated.record.three;
        double scaled = (double)mu * three->h_dual[0];
        int fallback = three->hs[0] <= scaled * (1 + 1e-12) && three->hs[0] >= scaled * (1 - 1e-12);
        Wide got = term_of_block(three->hs, s, z, g, at, mu);
        printf("| %.0e | %.3e | %.3e | %s%.3g |\n", residue, (double)t, (double)got, fallback ? "(fallback) " : "", (double)(got / t));
    }
    return 0;
}
