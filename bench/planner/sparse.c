#include "sparse.h"
#include <math.h>
#include <stdio.h>
#include <stdlib.h>
#include <string.h>
#include <suitesparse/amd.h>
#include <suitesparse/ldl.h>

void *room(unsigned long count, unsigned long size)
{
    void *bytes = calloc(count ? count : 1, size);
    if (bytes) return bytes;
    fprintf(stderr, "plan: no room\n");
    exit(2);
}

/* Columns of the upper triangle of entries at place[i[k]], place[j[k]]; slot gets where each stands. */
static void columns(int n, int entries, const int *i, const int *j, const int *place, int *cp, int *ri, int *slot)
{
    int *next = room(n, sizeof *next);
    memset(cp, 0, (n + 1) * sizeof *cp);
    for (int k = 0; k < entries; k++) {
        int a = place[i[k]], b = place[j[k]];
        cp[(a > b ? a : b) + 1]++;
    }
    for (int v = 0; v < n; v++) cp[v + 1] += cp[v];
    for (int k = 0; k < entries; k++) {
        int a = place[i[k]], b = place[j[k]], column = a > b ? a : b;
        slot[k] = cp[column] + next[column]++;
        ri[slot[k]] = a > b ? b : a;
    }
    free(next);
}

void sparse_make(Sparse *f, int n, int entries, const int *i, const int *j, const int *sign, int *slot)
{
    int *order = room(n, sizeof *order);
    memset(f, 0, sizeof *f);
    f->n = n;
    f->place = room(n, sizeof(int));
    f->cp = room(n + 1, sizeof(int));
    f->ri = room(entries, sizeof(int));
    for (int v = 0; v < n; v++) f->place[v] = v;
    columns(n, entries, i, j, f->place, f->cp, f->ri, slot);
    if (amd_order(n, f->cp, f->ri, order, NULL, NULL) < AMD_OK) {
        fprintf(stderr, "plan: amd_order failed\n");
        exit(2);
    }
    for (int v = 0; v < n; v++) f->place[order[v]] = v;
    columns(n, entries, i, j, f->place, f->cp, f->ri, slot);

    f->value = room(entries, sizeof(double));
    f->shifted = room(entries, sizeof(double));
    f->diagonal = room(n, sizeof(int));
    f->sign = room(n, sizeof(int));
    for (int k = 0; k < entries; k++) {
        if (i[k] == j[k]) f->diagonal[f->place[i[k]]] = slot[k];
    }
    for (int v = 0; v < n; v++) f->sign[f->place[v]] = sign[v];
    f->parent = room(n, sizeof(int));
    f->lp = room(n + 1, sizeof(int));
    f->lnz = room(n, sizeof(int));
    f->flag = room(n, sizeof(int));
    f->pattern = room(n, sizeof(int));
    ldl_symbolic(n, f->cp, f->ri, f->lp, f->parent, f->lnz, f->flag, NULL, NULL);
    f->li = room(f->lp[n], sizeof(int));
    f->lx = room(f->lp[n], sizeof(double));
    f->d = room(n, sizeof(double));
    f->work = room(n, sizeof(double));
    f->right = room(n, sizeof(double));
    f->answer = room(n, sizeof(double));
    f->rest = room(n, sizeof(double));
    free(order);
}

int sparse_factorise(Sparse *f)
{
    memcpy(f->shifted, f->value, f->cp[f->n] * sizeof(double));
    for (int v = 0; v < f->n; v++) f->shifted[f->diagonal[v]] += f->sign[v] * f->regular;
    return ldl_numeric(f->n, f->cp, f->ri, f->shifted, f->lp, f->parent, f->lnz, f->li, f->lx, f->d, f->work, f->pattern, f->flag, NULL,
                       NULL)
           == f->n;
}

static void by_factors(Sparse *f, double *v)
{
    ldl_lsolve(f->n, v, f->lp, f->li, f->lx);
    ldl_dsolve(f->n, v, f->d);
    ldl_ltsolve(f->n, v, f->lp, f->li, f->lx);
}

/* rest = right - K v; hands back its largest place. */
static double left_over(const Sparse *f, const double *v, double *rest)
{
    double most = 0;
    memcpy(rest, f->right, f->n * sizeof(double));
    for (int column = 0; column < f->n; column++) {
        for (int p = f->cp[column]; p < f->cp[column + 1]; p++) {
            int row = f->ri[p];
            rest[row] -= f->value[p] * v[column];
            if (row != column) rest[column] -= f->value[p] * v[row];
        }
    }
    for (int v = 0; v < f->n; v++) most = fmax(most, fabs(rest[v]));
    return most;
}

void sparse_solve(Sparse *f, const double *b, double *v)
{
    double size = 0;
    for (int k = 0; k < f->n; k++) {
        f->right[f->place[k]] = f->answer[f->place[k]] = b[k];
        size = fmax(size, fabs(b[k]));
    }
    by_factors(f, f->answer);
    double error = left_over(f, f->answer, f->rest);
    for (int round = 0; round < 10 && error > 1e-12 + 1e-13 * size; round++) {
        by_factors(f, f->rest);
        for (int k = 0; k < f->n; k++) f->work[k] = f->answer[k] + f->rest[k];
        double before = error;
        error = left_over(f, f->work, f->rest);
        f->refinements++;
        if (!(error < before)) break;
        memcpy(f->answer, f->work, f->n * sizeof(double));
        if (5 * error > before) break;
    }
    memset(f->work, 0, f->n * sizeof(double)); /* as ldl_numeric wants it */
    for (int k = 0; k < f->n; k++) v[k] = f->answer[f->place[k]];
}

void sparse_free(Sparse *f)
{
    void *all[] = {f->place, f->cp,   f->ri,      f->value, f->shifted, f->diagonal, f->sign,  f->parent, f->lp,  f->lnz,
                   f->li,    f->flag, f->pattern, f->lx,    f->d,       f->work,     f->right, f->answer, f->rest};
    for (unsigned long k = 0; k < sizeof all / sizeof *all; k++) free(all[k]);
}
