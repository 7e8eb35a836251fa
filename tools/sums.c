/* Sums and differences of f64 for an ARM processor without an f64 unit, rounded to nearest, ties to even. The C library's own
   (__aeabi_dadd and __aeabi_dsub in gcc's libgcc, seen in 12.2) keeps one bit less than it needs where the exponents differ by 33 and the
   difference loses its first bit: 32768 - 4.39E-6 comes out a last digit short, about once in 50,000 sums. tools/cross has the archive
   call these in place of them; f64 cross as their bits, in the registers that the ARM run-time ABI has for its helpers. */
/* the kit's compiler has no header of its own */
typedef unsigned long long u64;

#define SIGN ((u64)1 << 63)
#define LEADING ((u64)1 << 52)
#define INFINITE 0x7ff0000000000000ull
#define QUIET 0x7ff8000000000000ull
#define MOST 0x7ff
#define SPARE 9 /* bits below the last, so that a sum has 63 at most */

u64 knobharbor_f64_add(u64 a, u64 b);
u64 knobharbor_f64_sub(u64 a, u64 b);

static unsigned exponent(u64 x)
{
    return (unsigned)(x >> 52) & MOST;
}

/* the digits before the bits that are spare */
static u64 digits(u64 x)
{
    return ((x & (LEADING - 1)) | (exponent(x) ? LEADING : 0)) << SPARE;
}

/* moved down by n, with the last bit set if one that was set is gone */
static u64 down(u64 m, unsigned n)
{
    return n == 0 ? m : n < 64 ? m >> n | (m << (64 - n) != 0) : m != 0;
}

/* m, whose leading digit is at most one place too high, with the exponent e */
static u64 rounded(u64 sign, unsigned e, u64 m)
{
    if (m >> (53 + SPARE)) {
        m = down(m, 1);
        e++;
    } else {
        unsigned up = (unsigned)__builtin_clzll(m) - (63 - 52 - SPARE);
        up = up < e ? up : e - 1; /* below the least exponent digits stay where they are */
        m <<= up;
        e -= up;
    }
    unsigned half = 1u << (SPARE - 1), rest = (unsigned)m & (2 * half - 1);
    m >>= SPARE;
    m += rest > half || (rest == half && (m & 1));
    if (m >> 53) {
        m >>= 1;
        e++;
    }
    if (e >= MOST)
        return sign | INFINITE;
    return sign | (m & LEADING ? (u64)e << 52 | (m & (LEADING - 1)) : m);
}

u64 knobharbor_f64_add(u64 a, u64 b)
{
    if (a << 1 < b << 1) { /* a is the greater in size; a NaN is above all */
        u64 c = a;
        a = b;
        b = c;
    }
    unsigned x = exponent(a), y = exponent(b);
    int apart = (a ^ b) >> 63 != 0;
    if (x == MOST)
        return a << 12 || (y == MOST && apart) ? a | QUIET : a;
    u64 m = digits(a), n = down(digits(b), (x ? x : 1) - (y ? y : 1));
    m = apart ? m - n : m + n;
    if (m == 0)
        return apart ? 0 : a;
    return rounded(a & SIGN, x ? x : 1, m);
}

u64 knobharbor_f64_sub(u64 a, u64 b)
{
    return knobharbor_f64_add(a, b ^ SIGN);
}
