/* A sparse symmetric system K v = b whose pivots have known signs, by SuiteSparse: AMD orders it, LDL factorises it. A little is added to each pivot, and
   refinement takes it away again. */
#ifndef SPARSE_H
#define SPARSE_H

typedef struct {
    int n;
    int *place;      /* of an old index, the new one */
    int *cp, *ri;    /* upper triangle in the new order, by columns */
    double *value;   /* its entries */
    double *shifted; /* the same with `regular` added to the diagonal, by its sign */
    int *diagonal, *sign;
    int *parent, *lp, *lnz, *li, *flag, *pattern;
    double *lx, *d, *work, *right, *answer, *rest;
    double regular;
    int refinements; /* so far */
} Sparse;

/* Entries (i[k], j[k]), each pair once, every diagonal among them; slot[k] becomes the place of entry k in `value`. sign: 1 or -1 for each row. */
void sparse_make(Sparse *f, int n, int entries, const int *i, const int *j, const int *sign, int *slot);
int sparse_factorise(Sparse *f);                          /* 0: a pivot is zero */
void sparse_solve(Sparse *f, const double *b, double *v); /* in the old order */
void sparse_free(Sparse *f);

void *room(unsigned long count, unsigned long size); /* zeros; ends the program where there is none */
#endif
