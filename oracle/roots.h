/* The second square root of document 02's Order 11, a second time: the steps that crates/root/specs/table_root/Steps.antt defines, on numbers of 128 bits, and the
   table by its rule and not by its numbers. The stand-in answers with it, and tests/kernels/run compares it with the archive's, the count too. */
#ifndef SPINDLE_ROOTS_H
#define SPINDLE_ROOTS_H
#include "spindle.h"
#include <math.h>

/* x is positive and finite */
static inline SpindleRoot root_by_steps(double x)
{
    static const int finer[3] = {8, 7, 7}, unit[3] = {36, 45, 52};
    int e;
    uint64_t digits = (uint64_t)ldexp(frexp(x, &e), 53);
    int k = e + 1073; /* x is digits * 2^(k - 1126) */
    unsigned __int128 m = (unsigned __int128)digits << k % 2;
    /* 2^12 over the root of the middle of the interval, to the nearest: 64 intervals from 1 to 2, and 64 from 2 to 4 */
    double wide = m >> 53 ? 32 : 64, middle = (floor((double)(uint64_t)m * 0x1p-52 * wide) + 0.5) / wide;
    unsigned __int128 estimate = (uint64_t)floor(4096 / sqrt(middle) + 0.5);
    /* The first step makes 1 over the root finer. Then the root with its rest, and the other steps. */
    uint32_t steps = 1;
    unsigned __int128 v = (((unsigned __int128)3 << 48) * estimate - ((m >> 28) + 1) * estimate * estimate * estimate) >> 30;
    unsigned __int128 root = (m >> 28) * v >> 25, rest = (m << 8) - root * root;
    for (int step = 0; step < 3; step++, steps++) {
        unsigned __int128 more = (rest >> 18) * v >> unit[step];
        root <<= finer[step];
        rest = (rest << 2 * finer[step]) - more * (2 * root + more);
        root += more;
    }
    bool last = rest > root;
    return (SpindleRoot){ldexp((double)(uint64_t)(root + last), k / 2 + 485 - 1074), steps + last};
}
#endif
