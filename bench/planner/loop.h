/* A primal-dual interior-point loop over the library's cones, as docs/loop.md tells it:

       minimise q'x  so that  A x + s = b,  s in K;      its dual maximises -b'z  so that  A'z + q = 0,  z in K*

   K is an orthant, the first `orthant` rows, and then the library's cones, one behind the other. */
#ifndef LOOP_H
#define LOOP_H
#include <spindle.h>
#include <stdbool.h>

typedef struct {
    int n, m, orthant, ncones;
    int *cp, *ri; /* A by columns */
    double *av, *q, *b;
    SpindleCone *cones;
} Problem;

enum {
    DUAL,
    PRIMAL_DUAL,
    CHANGED
};                             /* CHANGED: primal-dual until a step is below 0.1, and dual from then on; dual with a generalized cone */
enum { CLARABEL, PATH, NONE }; /* barriers' sum below 1, as clarabel has it; below 1 with the cones' degrees added: 0 on the path; no cut */
enum { TESTED, LEAST };        /* LEAST: the least of both sides' own steps, and 0.99 of it, which nobody tested: as clarabel does */

typedef struct {
    double tolerance, shrink, smallest;
    int rounds, strategy, search;
    bool whole;            /* the third-order correction at the affine direction's end, not at its step */
    int barrier;           /* where steps are cut that lead off the path */
    bool margins, verbose; /* margins: counts what the trials of searches answer */
    void (*searched)(void *to, const SpindleCone *cone, SpindleSettings settings, const double *dz, const double *ds, const double *z,
                     const double *s, size_t n); /* each cone's part of a search; may be null */
    void *to;
} Options;

enum { UPDATE, BLOCK, PRODUCT, SHIFT, SEARCH, BARRIER, CALLS };

typedef struct {
    const char *end;
    bool solved;
    int rounds, rows, fill, refinements, cuts, fallbacks;
    double gap, residual, optimum;
    double off_path;        /* the largest barriers' sum at a step's end, with the cones' degrees added */
    long tests, used, yes;  /* tests of a cone; parts of points that were used, and those among them that are a yes */
    long trials, undecided; /* with margins */
    double factorising, solving, total, by_call[CALLS]; /* seconds */
    double ordering, counting; /* not in the total: AMD, once for a plan's structure; what the program itself asks to count */
    double *x, *s, *z;         /* of the problem as it was given; the caller frees them */
} Outcome;

Outcome loop_run(const Problem *p, Options options);
double seconds(void); /* of this process' work */
#endif
