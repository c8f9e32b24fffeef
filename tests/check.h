/* What the programs of tests/ share: the bits of a double, a seeded source of numbers, and a count of checks. */
#ifndef CHECK_H
#define CHECK_H
#include "spindle.h"
#include <stdint.h>
#include <stdio.h>
#include <string.h>

static inline uint64_t bits_of(double x)
{
    uint64_t bits;
    memcpy(&bits, &x, sizeof bits);
    return bits;
}

static inline double double_of(uint64_t bits)
{
    double x;
    memcpy(&x, &bits, sizeof x);
    return x;
}

static uint64_t seed = 1;

/* splitmix64 */
static inline uint64_t any(void)
{
    uint64_t x = seed += UINT64_C(0x9E3779B97F4A7C15);
    x = (x ^ (x >> 30)) * UINT64_C(0xBF58476D1CE4E5B9);
    x = (x ^ (x >> 27)) * UINT64_C(0x94D049BB133111EB);
    return x ^ (x >> 31);
}

static inline unsigned below(unsigned n) { return (unsigned)(any() % n); }
static inline double unit(void) { return (double)(any() >> 11) * 0x1p-53; }
static inline double between(double low, double high) { return low + (high - low) * unit(); }

static long failures, checks;

static inline void expect(int ok, const char *what)
{
    checks++;
    if (!ok && failures++ < 10) printf("FAILED %s\n", what);
}
#endif
