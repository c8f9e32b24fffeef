/* hash N: one line each for log and exp, a hash over the bits of N answers. See run.
   It calls these two functions alone, so that it can be linked with any version of the library. */
#include "spindle.h"
#include <inttypes.h>
#include <stdio.h>
#include <stdlib.h>
#include <string.h>

#define DIGITS UINT64_C(0x000fffffffffffff)
#define SIGN UINT64_C(0x8000000000000000)
#define ONE UINT64_C(0x3ff0000000000000)

static uint64_t state;
static uint64_t next(void)
{
    uint64_t x = state += UINT64_C(0x9e3779b97f4a7c15);
    x = (x ^ x >> 30) * UINT64_C(0xbf58476d1ce4e5b9);
    x = (x ^ x >> 27) * UINT64_C(0x94d049bb133111eb);
    return x ^ x >> 31;
}
static uint64_t bits_of(double x)
{
    uint64_t b;
    memcpy(&b, &x, sizeof b);
    return b;
}
static double double_of(uint64_t b)
{
    double x;
    memcpy(&x, &b, sizeof x);
    return x;
}

/* Every class: any pattern, NaNs and negative numbers among them; positive numbers; subnormals of every length; beside 1; beside a power of
   2, from above and from below; beside an entry of the logarithm's table; near 1 in size. */
static uint64_t log_pattern(long i)
{
    uint64_t r = next(), k = next(), field = (k % 2046 + 1) << 52;
    switch (i % 8) {
    case 0: return r;
    case 1: return r & ~SIGN;
    case 2: return (r & DIGITS) >> k % 52;
    case 3: return k >> 63 ? ONE - (r >> 12 >> k % 52) : ONE + (r >> 12 >> k % 52);
    case 4: return field | (r & 7);
    case 5: return field | (DIGITS ^ (r & 31));
    case 6: return field | (r >> 8 & 255) << 44 | (r & 15);
    default: return (k % 40 + 1003) << 52 | (r & DIGITS);
    }
}

/* Any pattern; every field up to the ends; between the ends; beside a multiple of log 2; beside the ends; small numbers. */
static uint64_t exp_pattern(long i)
{
    uint64_t r = next(), k = next(), sign = k & SIGN;
    double part = (double)(r >> 11) * 0x1p-53;
    switch (i % 8) {
    case 0: return r;
    case 1: return sign | k % 1034 << 52 | (r & DIGITS);
    case 2:
    case 3: return bits_of(-708.0 + 1417.0 * part);
    case 4: return bits_of((double)((int64_t)(r % 2040) - 1020) * 0x1.62e42fefa39efp-1) + k % 5 - 2;
    case 5: return bits_of(sign ? 709.0 : -708.0) + r % 65 - 32;
    case 6: return sign | (k % 60 + 970) << 52 | (r & DIGITS);
    default: return bits_of(8.0 * part - 4.0);
    }
}

static void hash(const char *name, double (*f)(double), uint64_t (*pattern)(long), long n)
{
    uint64_t h = 0;
    state = 1;
    for (long i = 0; i < n; i++) {
        h = (h ^ bits_of(f(double_of(pattern(i))))) * UINT64_C(0x100000001b3);
        h ^= h >> 31;
    }
    printf("%s %ld %016" PRIx64 "\n", name, n, h);
}

int main(int argc, char **argv)
{
    long n = argc == 2 ? atol(argv[1]) : 0;
    if (n < 1) {
        fprintf(stderr, "usage: hash N\n");
        return 2;
    }
    hash("log", spindle_log, log_pattern, n);
    hash("exp", spindle_exp, exp_pattern, n);
    return 0;
}
