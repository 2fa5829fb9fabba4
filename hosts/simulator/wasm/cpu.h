/* The registers of x86-64, and what its instructions do with them: for what lift.py writes, which has the flags. */
#ifndef CPU_H
#define CPU_H
#include <stddef.h>
#include <stdint.h>

typedef uint8_t u8;
typedef uint16_t u16;
typedef uint32_t u32;
typedef uint64_t u64;
typedef int8_t i8;
typedef int16_t i16;
typedef int32_t i32;
typedef int64_t i64;

/* A wide register, by its parts. */
typedef union X {
    u8 b[16];
    i8 sb[16];
    u16 w[8];
    i16 sw[8];
    u32 d[4];
    i32 sd[4];
    u64 q[2];
    i64 sq[2];
    double f[2];
} X;

/* All registers: r by their numbers, so r[4] is the stack's end, r[7] and r[6] are the first and second argument. */
typedef struct S {
    u64 r[16];
    X x[16];
} S;

/* Fills in the tables of the data. Before the first call. */
void lift_begin(void);

#define IN static inline __attribute__((always_inline, unused))
#define AT(address) ((void *)(uintptr_t)(address))
#define trap() __builtin_trap()

/* Memory. */
IN u8 ld1(u64 a) { return *(u8 *)AT(a); }
IN u16 ld2(u64 a) { u16 v; __builtin_memcpy(&v, AT(a), 2); return v; }
IN u32 ld4(u64 a) { u32 v; __builtin_memcpy(&v, AT(a), 4); return v; }
IN u64 ld8(u64 a) { u64 v; __builtin_memcpy(&v, AT(a), 8); return v; }
IN X ldx(u64 a) { X v; __builtin_memcpy(&v, AT(a), 16); return v; }
IN void st1(u64 a, u8 v) { *(u8 *)AT(a) = v; }
IN void st2(u64 a, u16 v) { __builtin_memcpy(AT(a), &v, 2); }
IN void st4(u64 a, u32 v) { __builtin_memcpy(AT(a), &v, 4); }
IN void st8(u64 a, u64 v) { __builtin_memcpy(AT(a), &v, 8); }
IN void stx(u64 a, X v) { __builtin_memcpy(AT(a), &v, 16); }
IN X lox(u64 v) { X x; x.q[0] = v; x.q[1] = 0; return x; }

/* Bits. The counts are of values that are not 0. */
#define bswap4 __builtin_bswap32
#define bswap8 __builtin_bswap64
IN unsigned clz4(u32 a) { return (unsigned)__builtin_clz(a); }
IN unsigned clz8(u64 a) { return (unsigned)__builtin_clzll(a); }
IN unsigned ctz2(u16 a) { return (unsigned)__builtin_ctz(a); }
IN unsigned ctz4(u32 a) { return (unsigned)__builtin_ctz(a); }
IN unsigned ctz8(u64 a) { return (unsigned)__builtin_ctzll(a); }

/* The upper half of a product, without a sign and with one. */
IN u64 mulhu(u64 a, u64 b) {
    u64 al = (u32)a, ah = a >> 32, bl = (u32)b, bh = b >> 32;
    u64 m = ah * bl + (al * bl >> 32), n = al * bh + (u32)m;
    return ah * bh + (m >> 32) + (n >> 32);
}
IN u64 mulhs(u64 a, u64 b) { return mulhu(a, b) - ((i64)a < 0 ? b : 0) - ((i64)b < 0 ? a : 0); }

/* Divisions, of r[2] and r[0]. One whose quotient has no room ends the run, as on the processor. */
IN u64 low_of(u64 whole, u64 mask, u64 low) { return (whole & ~mask) | (low & mask); }
IN void div1(S *s, u32 by) {
    u32 a = (u16)s->r[0];
    if (by == 0 || a / by > 255) trap();
    s->r[0] = low_of(s->r[0], 0xffff, a / by | a % by << 8);
}
IN void div2(S *s, u32 by) {
    u32 a = (u32)(u16)s->r[2] << 16 | (u16)s->r[0];
    if (by == 0 || a / by > 0xffff) trap();
    s->r[0] = low_of(s->r[0], 0xffff, a / by);
    s->r[2] = low_of(s->r[2], 0xffff, a % by);
}
IN void div4(S *s, u64 by) {
    u64 a = (u64)(u32)s->r[2] << 32 | (u32)s->r[0];
    if (by == 0 || a / by > 0xffffffff) trap();
    s->r[0] = a / by;
    s->r[2] = a % by;
}
IN void div8(S *s, u64 by) {
    u64 low = s->r[0], rest = s->r[2], quotient = 0;
    if (rest >= by) trap();
    for (int i = 63; i >= 0; i--) {
        u64 top = rest >> 63;
        rest = rest << 1 | (low >> i & 1);
        quotient <<= 1;
        if (top || rest >= by) {
            rest -= by;
            quotient |= 1;
        }
    }
    s->r[0] = quotient;
    s->r[2] = rest;
}

/* Wide registers. */
#define EACH(n) for (int i = 0; i < n; i++)
#define OP(name, body) IN void name(X *a, X b) { body }
OP(pxor, EACH(2) a->q[i] ^= b.q[i];)
OP(pand, EACH(2) a->q[i] &= b.q[i];)
OP(por, EACH(2) a->q[i] |= b.q[i];)
OP(pandn, EACH(2) a->q[i] = ~a->q[i] & b.q[i];)
#define xorps pxor
#define xorpd pxor
#define andps pand
#define orps por
#define andnps pandn
#define andnpd pandn
OP(pcmpeqb, EACH(16) a->b[i] = a->b[i] == b.b[i] ? 255 : 0;)
OP(pcmpeqd, EACH(4) a->d[i] = a->d[i] == b.d[i] ? ~0u : 0;)
OP(pcmpgtb, EACH(16) a->b[i] = a->sb[i] > b.sb[i] ? 255 : 0;)
OP(pcmpgtq, EACH(2) a->q[i] = a->sq[i] > b.sq[i] ? ~0ull : 0;)
OP(paddb, EACH(16) a->b[i] += b.b[i];)
OP(paddd, EACH(4) a->d[i] += b.d[i];)
OP(paddq, EACH(2) a->q[i] += b.q[i];)
OP(psubq, EACH(2) a->q[i] -= b.q[i];)
OP(punpcklqdq, a->q[1] = b.q[0];)
#define unpcklpd punpcklqdq
OP(unpckhpd, a->q[0] = a->q[1]; a->q[1] = b.q[1];)
IN i16 sat16(i32 v) { return v > 32767 ? 32767 : v < -32768 ? -32768 : (i16)v; }
IN i8 sat8(i16 v) { return v > 127 ? 127 : v < -128 ? -128 : (i8)v; }
OP(packssdw, X o; EACH(4) { o.sw[i] = sat16(a->sd[i]); o.sw[i + 4] = sat16(b.sd[i]); } *a = o;)
OP(packsswb, X o; EACH(8) { o.sb[i] = sat8(a->sw[i]); o.sb[i + 8] = sat8(b.sw[i]); } *a = o;)
OP(pshufb, X o; EACH(16) o.b[i] = b.b[i] & 128 ? 0 : a->b[b.b[i] & 15]; *a = o;)
OP(addpd, EACH(2) a->f[i] += b.f[i];)
OP(mulpd, EACH(2) a->f[i] *= b.f[i];)
OP(divpd, EACH(2) a->f[i] /= b.f[i];)
OP(addsd, a->f[0] += b.f[0];)
OP(subsd, a->f[0] -= b.f[0];)
OP(mulsd, a->f[0] *= b.f[0];)
OP(divsd, a->f[0] /= b.f[0];)
OP(cmpnlesd, a->q[0] = !(a->f[0] <= b.f[0]) ? ~0ull : 0;)
OP(cmpltsd, a->q[0] = a->f[0] < b.f[0] ? ~0ull : 0;)
IN void blendvpd(X *a, X b, X mask) { EACH(2) if (mask.q[i] >> 63) a->q[i] = b.q[i]; }
IN void psrlw(X *a, int n) { EACH(8) a->w[i] = n > 15 ? 0 : (u16)(a->w[i] >> n); }
IN void psllw(X *a, int n) { EACH(8) a->w[i] = n > 15 ? 0 : (u16)(a->w[i] << n); }
IN void psrld(X *a, int n) { EACH(4) a->d[i] = n > 31 ? 0 : a->d[i] >> n; }
IN void pslld(X *a, int n) { EACH(4) a->d[i] = n > 31 ? 0 : a->d[i] << n; }
IN void psrlq(X *a, int n) { EACH(2) a->q[i] = n > 63 ? 0 : a->q[i] >> n; }
IN void psllq(X *a, int n) { EACH(2) a->q[i] = n > 63 ? 0 : a->q[i] << n; }
IN void pslldq(X *a, int n) { X o; EACH(16) o.b[i] = i < n ? 0 : a->b[i - n]; *a = o; }
IN void psrldq(X *a, int n) { X o; EACH(16) o.b[i] = i + n > 15 ? 0 : a->b[i + n]; *a = o; }
IN void pshufd(X *a, X b, int n) { X o; EACH(4) o.d[i] = b.d[n >> 2 * i & 3]; *a = o; }
IN void pshuflw(X *a, X b, int n) { X o = b; EACH(4) o.w[i] = b.w[n >> 2 * i & 3]; *a = o; }
IN void pshufhw(X *a, X b, int n) { X o = b; EACH(4) o.w[i + 4] = b.w[4 + (n >> 2 * i & 3)]; *a = o; }
IN void pblendw(X *a, X b, int n) { EACH(8) if (n >> i & 1) a->w[i] = b.w[i]; }
IN u32 pmovmskb(X a) { u32 v = 0; EACH(16) v |= (u32)(a.b[i] >> 7) << i; return v; }
IN u32 movmskps(X a) { u32 v = 0; EACH(4) v |= a.d[i] >> 31 << i; return v; }
IN u32 movmskpd(X a) { u32 v = 0; EACH(2) v |= (u32)(a.q[i] >> 63) << i; return v; }
#endif
