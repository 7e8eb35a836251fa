/* tools/sums.c with the float unit of the machine at hand: random f64 of all exponents, near ones and far ones, the least and the greatest
   among them, zeros, infinities and NaNs. usage: sums [PAIRS [SEED]]; `bench/run sums` builds and runs it. */
#include "../../tools/sums.c"
#include <stdio.h>
#include <stdlib.h>
#include <string.h>

static u64 state;

static u64 next(void)
{
    state ^= state << 13;
    state ^= state >> 7;
    return state ^= state << 17;
}

/* digits at random, or with a run of zeros or ones at the end, or next to none and to all */
static u64 some_digits(void)
{
    u64 m = next(), kind = next() % 5;
    if (kind == 0)
        m &= ~(u64)0 << next() % 52;
    if (kind == 1)
        m |= ((u64)1 << next() % 52) - 1;
    if (kind == 2)
        m = next() % 3 - 1;
    return m & (LEADING - 1);
}

static u64 number(u64 exponent)
{
    return next() % 2 << 63 | exponent % (MOST + 1) << 52 | some_digits();
}

static u64 bits(double x)
{
    u64 b;
    memcpy(&b, &x, sizeof b);
    return x != x ? QUIET : b;
}

static double of(u64 b)
{
    double x;
    memcpy(&x, &b, sizeof x);
    return x;
}

static unsigned long judge(u64 a, u64 b)
{
    volatile double x = of(a), y = of(b);
    u64 sum = bits(of(knobharbor_f64_add(a, b))), difference = bits(of(knobharbor_f64_sub(a, b)));
    if (sum == bits(x + y) && difference == bits(x - y))
        return 0;
    printf("%016llx and %016llx: %016llx and %016llx, the float unit has %016llx and %016llx\n", a, b, sum, difference, bits(x + y), bits(x - y));
    return 1;
}

int main(int argc, char **argv)
{
    unsigned long pairs = argc > 1 ? strtoul(argv[1], NULL, 10) : 20000000;
    state = (argc > 2 ? strtoull(argv[2], NULL, 10) : 1) * 0x9e3779b97f4a7c15ull;
    /* the pair that shows the C library's fault */
    unsigned long differ = judge(0xbed26e0113d1c10cull, 0xc0e0000000000000ull);
    for (unsigned long i = 0; i < pairs && differ < 10; i++) {
        u64 e = i % 7 == 0 ? next() % 3 : i % 7 == 1 ? MOST - next() % 3 : next();
        u64 a = number(e);
        differ += judge(a, number(i % 2 ? next() : e + next() % 130 - 65));
    }
    printf("%lu pairs, %lu differ\n", pairs + 1, differ);
    return differ != 0;
}
