/* The four kernels of libspindle.a from outside. See run.
   kernels sqrt N     N square roots, by each of their names, against the machine's, and their correction steps against oracle/roots.h
   kernels rules N    the fixed cases of document 01, every NaN, and N powers against exp(y*log x)
   kernels sample N   about N lines each of "log x answer" and "exp x answer", and N of "powf x y answer", patterns in hexadecimal */
#include "../check.h"
#include "roots.h"
#include <inttypes.h>
#include <stdlib.h>

#define THE_NAN UINT64_C(0x7ff8000000000000)
#define INFINITE UINT64_C(0x7ff0000000000000)
#define SIGN UINT64_C(0x8000000000000000)
#define DIGITS UINT64_C(0x000fffffffffffff)

static int is_nan(uint64_t b) { return (b & ~SIGN) > INFINITE; }

/* The machine's own instruction: no C library stands between. */
static double machine_sqrt(double x)
{
    double r;
#ifdef __aarch64__
    __asm__("fsqrt %d0, %d1" : "=w"(r) : "w"(x));
#else
    __asm__("sqrtsd %1, %0" : "=x"(r) : "x"(x));
#endif
    return r;
}

/* x and y: what the kernel was asked */
static void same(const char *what, uint64_t x, uint64_t y, uint64_t got, uint64_t want)
{
    checks++;
    if (got != want && failures++ < 10)
        printf("FAILED %s: x %016" PRIx64 " y %016" PRIx64 " gave %016" PRIx64 ", not %016" PRIx64 "\n", what, x, y, got, want);
}

/* ---- square roots */

static long done, wanted, counts[6];
static void root(uint64_t x)
{
    uint64_t want = bits_of(machine_sqrt(double_of(x)));
    if (is_nan(want)) want = THE_NAN;
    same("sqrt", x, 0, bits_of(spindle_sqrt(double_of(x))), want);
    same("plain_sqrt", x, 0, bits_of(spindle_plain_sqrt(double_of(x))), want);
    SpindleRoot table = spindle_table_sqrt(double_of(x)), second = {double_of(want), 0};
    if (double_of(x) > 0 && x != INFINITE) second = root_by_steps(double_of(x));
    same("table_sqrt", x, 0, bits_of(table.root), want);
    same("table_sqrt, a second time", x, 0, bits_of(second.root), want);
    same("correction steps", x, 0, table.steps, second.steps);
    if (table.steps < 6) counts[table.steps]++;
    if (++done % 2000000 == 0 && done < wanted) fprintf(stderr, "sqrt: %ld of %ld\n", done, wanted);
}

static void roots(long n)
{
    static const uint64_t edges[] = {0,          1,          2,     3, (UINT64_C(1) << 51) - 1, UINT64_C(1) << 51, (UINT64_C(1) << 51) + 1,
                                     DIGITS - 2, DIGITS - 1, DIGITS};
    wanted = n;
    for (uint64_t f = 0; f < 2048; f++)
        for (int s = 0; s < 2; s++)
            for (unsigned e = 0; e < sizeof edges / sizeof *edges; e++) root((s ? SIGN : 0) | f << 52 | edges[e]);
    while (done < n) {
        root(any());                          /* any pattern */
        root(any() & ~SIGN);                  /* any without sign */
        root((any() & DIGITS) >> any() % 52); /* subnormals of every length */
        uint64_t r = (any() & DIGITS) | (any() % 1000 + 523) << 52;
        double square = double_of(r) * double_of(r);
        for (int k = -2; k <= 2; k++) root(bits_of(square) + (uint64_t)(int64_t)k); /* beside a square */
        uint64_t whole = any() >> (38 + any() % 20);
        double exact = (double)whole * (double)whole; /* a square, times a power of 4 */
        if (whole) root(bits_of(exact) + ((any() % 400) << 53));
        /* beside the square of a number halfway between two roots */
        unsigned __int128 half = (unsigned __int128)(UINT64_C(1) << 53 | (any() & ((UINT64_C(1) << 53) - 1)) | 1);
        unsigned __int128 middle = half * half;
        int shift = 0;
        while (middle >> shift >= (unsigned __int128)1 << 53) shift++;
        uint64_t top = (uint64_t)(middle >> shift) & DIGITS;
        uint64_t place = UINT64_C(1023) + (uint64_t)(shift % 2) + any() % 500 * 2;
        for (int k = -1; k <= 1; k++) root((place << 52 | top) + (uint64_t)(int64_t)k);
    }
    printf("sqrt   %ld patterns of every class, both roots bit for bit the machine's square root%s\n", done, failures ? ": NOT SO" : "");
    printf("steps  none for %ld of them, 4 for %ld, 5 for %ld, as a second program counts%s\n", counts[0], counts[4], counts[5],
           failures ? ": NOT SO" : "");
}

/* ---- fixed cases */

static const uint64_t nans[] = {THE_NAN,
                                THE_NAN | SIGN,
                                INFINITE | 1,
                                INFINITE | 1 | SIGN,
                                INFINITE | DIGITS,
                                INFINITE | DIGITS | SIGN,
                                THE_NAN | 0x1234,
                                INFINITE | 0x4321,
                                INFINITE | 0x4321 | SIGN};
#define EACH_NAN(b)                                                                \
    for (unsigned i_ = 0, go_ = 1; i_ < sizeof nans / sizeof *nans; i_++, go_ = 1) \
        for (uint64_t b = nans[i_]; go_; go_ = 0)

static void one(const char *name, double (*f)(double), double x, uint64_t want) { same(name, bits_of(x), 0, bits_of(f(x)), want); }
static double table_sqrt(double x) { return spindle_table_sqrt(x).root; }
static void two(double x, double y, uint64_t want) { same("powf", bits_of(x), bits_of(y), bits_of(spindle_powf(x, y)), want); }

static void rules(long n)
{
    const double inf = double_of(INFINITE), zero = 0.0, minus = double_of(SIGN), tiny = double_of(1);
    EACH_NAN(b)
    {
        one("sqrt", spindle_sqrt, double_of(b), THE_NAN);
        one("plain_sqrt", spindle_plain_sqrt, double_of(b), THE_NAN);
        one("table_sqrt", table_sqrt, double_of(b), THE_NAN);
        one("log", spindle_log, double_of(b), THE_NAN);
        one("exp", spindle_exp, double_of(b), THE_NAN);
        static const double ys[] = {1.0, 2.0, 3.0, -1.0, 0.5, 1e300};
        for (unsigned i = 0; i < sizeof ys / sizeof *ys; i++) {
            two(double_of(b), ys[i], THE_NAN);
            two(ys[i], double_of(b), THE_NAN);
            two(-ys[i], double_of(b), THE_NAN);
        }
        two(double_of(b), inf, THE_NAN);
        two(inf, double_of(b), THE_NAN);
        two(zero, double_of(b), THE_NAN);
        two(minus, double_of(b), THE_NAN);
        two(double_of(b), zero, bits_of(1.0));
        two(double_of(b), minus, bits_of(1.0));
        EACH_NAN(c) two(double_of(b), double_of(c), THE_NAN);
    }
    static const double negative[] = {-1.0, -0x1p-1074, -0x1p-1022, -0x1.fffffffffffffp1023};
    for (unsigned i = 0; i < 4; i++) {
        one("sqrt", spindle_sqrt, negative[i], THE_NAN);
        one("log", spindle_log, negative[i], INFINITE | SIGN);
        two(negative[i], 0.5, THE_NAN);
        two(negative[i], 3.0, THE_NAN);
        two(negative[i], 1.0, bits_of(negative[i]));
        two(negative[i], 2.0, bits_of(negative[i] * negative[i]));
        two(negative[i], 0.0, bits_of(1.0));
    }
    one("sqrt", spindle_sqrt, zero, 0);
    one("sqrt", spindle_sqrt, minus, SIGN);
    one("sqrt", spindle_sqrt, inf, INFINITE);
    one("sqrt", spindle_sqrt, -inf, THE_NAN);
    one("log", spindle_log, zero, INFINITE | SIGN);
    one("log", spindle_log, minus, INFINITE | SIGN);
    one("log", spindle_log, inf, INFINITE);
    one("log", spindle_log, -inf, INFINITE | SIGN);
    one("log", spindle_log, 1.0, 0);
    one("exp", spindle_exp, zero, bits_of(1.0));
    one("exp", spindle_exp, minus, bits_of(1.0));
    one("exp", spindle_exp, inf, INFINITE);
    one("exp", spindle_exp, -inf, 0);
    one("exp", spindle_exp, double_of(bits_of(709.0) + 1), INFINITE);
    one("exp", spindle_exp, double_of(bits_of(-708.0) + 1), 0);
    one("exp", spindle_exp, 1e300, INFINITE);
    one("exp", spindle_exp, -1e300, 0);
    one("exp", spindle_exp, tiny, bits_of(1.0));
    one("exp", spindle_exp, -tiny, bits_of(1.0));
    same("exp", bits_of(709.0), 0, bits_of(spindle_exp(709.0)) < INFINITE, 1);
    same("exp", bits_of(-708.0), 0, bits_of(spindle_exp(-708.0)) > DIGITS, 1);
    two(1.0, inf, THE_NAN);
    two(1.0, -inf, THE_NAN);
    two(-inf, 0.5, THE_NAN);
    two(-inf, 1.0, INFINITE | SIGN);
    two(-inf, 2.0, INFINITE);
    two(zero, 0.5, 0);
    two(minus, 0.5, 0);
    two(minus, 1.0, SIGN);
    two(minus, 2.0, 0);
    two(zero, -1.0, INFINITE);
    two(minus, -1.0, INFINITE);
    two(inf, 0.5, INFINITE);
    two(inf, -0.5, 0);
    printf("cases  the fixed cases, and every NaN that a kernel answers has the bits 7FF8000000000000%s\n", failures ? ": NOT SO" : "");
    for (long i = 0; i < n; i++) {
        double x = i % 3 ? double_of(any() & ~SIGN) : unit() * 100.0, y = i % 2 ? double_of(any()) : (unit() - 0.5) * 8.0;
        if (is_nan(bits_of(x)) || is_nan(bits_of(y)) || y == 0.0 || y == 1.0 || y == 2.0) continue;
        two(x, y, bits_of(spindle_exp(y * spindle_log(x))));
        two(x, 1.0, bits_of(x));
        two(x, 2.0, bits_of(x * x));
        two(x, 0.0, bits_of(1.0));
    }
    printf("powf   %ld pairs follow the rules, and are exp(y*log x) in their absence%s\n", n, failures ? ": NOT SO" : "");
}

/* ---- samples for exact.py */

static void show(const char *name, double (*f)(double), double x)
{
    printf("%s %016" PRIx64 " %016" PRIx64 "\n", name, bits_of(x), bits_of(f(x)));
}
static double beside(double x) { return double_of(bits_of(x) + (uint64_t)((int64_t)(any() % 5) - 2)); }

static void sample(long n)
{
    for (long i = 0; i < n; i++) {
        double x;
        switch (i % 6) {
        case 0: x = double_of(any() % INFINITE); break;                                                    /* any positive number */
        case 1: x = double_of((any() & DIGITS) >> any() % 52); break;                                      /* subnormals */
        case 2: x = beside(1.0 + (double)(any() % 256) / 256.0); break;                                    /* beside a table entry */
        case 3: x = beside(double_of((any() % 2046 + 1) << 52)); break;                                    /* beside a power of 2 */
        case 4: x = 1.0 + (any() % 2 ? 1.0 : -0.5) * unit() * double_of((1023 - any() % 53) << 52); break; /* beside 1 */
        default: x = unit() * 100.0;
        }
        if (bits_of(x) && bits_of(x) < INFINITE) show("log", spindle_log, x);
        double y;
        switch (i % 6) {
        case 0: y = -708.0 + 1417.0 * unit(); break;
        case 1: y = beside((double)((int64_t)(any() % 2040) - 1020) * 0x1.62e42fefa39efp-1); break;       /* beside a multiple of log 2 */
        case 2: y = (any() % 2 ? 1.0 : -1.0) * double_of((any() % 1034) << 52 | (any() & DIGITS)); break; /* every field */
        case 3: y = (any() % 2 ? 1.0 : -1.0) * double_of((any() % 60 + 970) << 52 | (any() & DIGITS)); break; /* those that matter */
        case 4: y = (any() % 2 ? 1.0 : -1.0) * beside(0.5); break;
        default: y = 20.0 * (unit() - 0.5);
        }
        if (y <= 709.0 && -708.0 <= y) show("exp", spindle_exp, y);
        if (i < 4) show("exp", spindle_exp, i < 2 ? 709.0 - (double)(i % 2) : -708.0 + (double)(i % 2));
        double b = i % 2 ? unit() * 10.0 : double_of((any() % 40 + 1003) << 52 | (any() & DIGITS));
        double e = i % 3 ? unit() : 20.0 * (unit() - 0.5);
        if (0.0 < b && e != 0.0)
            printf("powf %016" PRIx64 " %016" PRIx64 " %016" PRIx64 "\n", bits_of(b), bits_of(e), bits_of(spindle_powf(b, e)));
    }
}

int main(int argc, char **argv)
{
    long n = argc == 3 ? atol(argv[2]) : 0;
    if (n < 1) {
        fprintf(stderr, "usage: kernels sqrt|rules|sample N\n");
        return 2;
    }
    if (!strcmp(argv[1], "sqrt"))
        roots(n);
    else if (!strcmp(argv[1], "rules"))
        rules(n);
    else if (!strcmp(argv[1], "sample"))
        sample(n);
    else {
        fprintf(stderr, "no such job: %s\n", argv[1]);
        return 2;
    }
    return failures != 0;
}
