// What compiled code calls for products of 128 bits, where no compiler's library is linked.
typedef unsigned long long u64;
typedef unsigned __int128 u128;
typedef union { u128 whole; struct { u64 low, high; } half; } Wide;
u128 __multi3(u128 x, u128 y) {
    Wide a, b, r;
    a.whole = x; b.whole = y;
    u64 a0 = a.half.low & 0xffffffff, a1 = a.half.low >> 32;
    u64 b0 = b.half.low & 0xffffffff, b1 = b.half.low >> 32;
    u64 p = a0 * b0, q = a1 * b0 + (p >> 32), s = a0 * b1 + (q & 0xffffffff);
    r.half.low = s << 32 | (p & 0xffffffff);
    r.half.high = a1 * b1 + (q >> 32) + (s >> 32) + a.half.low * b.half.high + a.half.high * b.half.low;
    return r.whole;
}
