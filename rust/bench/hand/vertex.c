/*
 * Layouts and attributes in hand-tuned C: lay_out and decode with the answers and effects
 * that include/duckhammock.h promises, and decode_all, every attribute of a vertex at once
 * as decode tells each. See hand.c.
 *
 * A layout's sizes are bytes of three words, and a multiplication adds them up. The
 * components of an attribute are turned round, converted and scaled together, and told by
 * one move.
 */
#include "bytes.h"
#include "sizes.h"

/* ---- Layouts ---- */

/* The sizes of attributes 0 to 7, 8 to 15 and 16 to 20, a byte each, and their sum; BAD
 * and more where refused by 10. */
typedef struct { u64 a, b, c; u32 sum; } Sizes;

INLINE Sizes all_sizes(u32 vcd_0, u32 vcd_1, u32 vat_0, u32 vat_1, u32 vat_2) {
    Sizes z;
    /* Bit i of the VCD, alone in byte i, carried to that byte's highest bit. */
    u64 matrices = ((u64)(vcd_0 & 0xFF) * 0x0101010101010101ull) & 0x8040201008040201ull;
    z.a = ((matrices + 0x7F7F7F7F7F7F7F7Full) >> 7) & 0x0101010101010101ull;
    u32 position = position_size(vcd_0, vat_0);
    z.b = (vcd_0 >> 8 & 1) | (u64)position << 8;
    z.c = 0;
    z.sum = position + bits_of_nine(vcd_0);
    if (vcd_0 & HAS_NORMAL_OR_COLOUR) {
        u32 n = normal_size(vcd_0, vat_0);
        u32 c0 = colour_size(vcd_0, vat_0, 0), c1 = colour_size(vcd_0, vat_0, 1);
        z.b |= (u64)n << 16 | (u64)c0 << 24 | (u64)c1 << 32;
        z.sum += n + c0 + c1;
    }
    if (vcd_1 & 0xFFFF) {
        u32 t0 = texture_size(vcd_1, vat_0 >> 21, 0);
        z.b |= (u64)t0 << 40;
        z.sum += t0;
        if (vcd_1 & HAS_TEXTURES_1_TO_7) {
            u32 t1 = texture_size(vcd_1, vat_1, 1), t2 = texture_size(vcd_1, vat_1 >> 9, 2);
            u32 t3 = texture_size(vcd_1, vat_1 >> 18, 3), t4 = texture_size(vcd_1, vat_1 >> 27, 4);
            u32 t5 = texture_size(vcd_1, vat_2 >> 5, 5), t6 = texture_size(vcd_1, vat_2 >> 14, 6);
            u32 t7 = texture_size(vcd_1, vat_2 >> 23, 7);
            z.b |= (u64)t1 << 48 | (u64)t2 << 56;
            z.c = (u64)t3 | (u64)t4 << 8 | (u64)t5 << 16 | (u64)t6 << 24 | (u64)t7 << 32;
            z.sum += t1 + t2 + t3 + t4 + t5 + t6 + t7;
        }
    }
    return z;
}

#define ONES 0x0101010101010101ull

/* 9, 10 or 0. */
INLINE u32 laid_out(const u32 *format, Sizes *z) {
    if (unlikely(!(format[0] & HAS_POSITION))) return 9;
    *z = all_sizes(format[0], format[1], format[2], format[3], format[4]);
    return likely(z->sum < BAD) ? 0 : 10;
}

u32 hand_lay_out(const u32 *restrict format, u8 *restrict sizes, u8 *restrict offsets,
                 u32 *restrict length) {
    Sizes z;
    u32 r = laid_out(format, &z);
    if (unlikely(r)) return r;
    /* No sum passes 129, so each byte of these products has the sum up to its attribute. */
    u64 a = z.a * ONES, b = (z.b + (a >> 56)) * ONES, c = (z.c + (b >> 56)) * ONES;
    write64(sizes, z.a);
    write64(sizes + 8, z.b);
    write32(sizes + 16, (u32)z.c);
    sizes[20] = (u8)(z.c >> 32);
    write64(offsets, a << 8);
    write64(offsets + 8, b << 8 | a >> 56);
    c = c << 8 | b >> 56;
    write32(offsets + 16, (u32)c);
    offsets[20] = (u8)(c >> 32);
    *length = z.sum;
    return 0;
}

/* ---- Attributes ---- */

/* The kinds of values. */
enum {
    ABSENT, MATRIX, ONE_INDEX, THREE_INDICES, COLOUR, POSITION, TEXTURE, NORMAL, NORMAL_OF_NINE
};
enum { F32 = 4 };

/* Ten words: a kind and three values, the others 0. */
INLINE void tell(u32 *values, u32 kind, __m128i three) {
    write128(values, _mm_or_si128(_mm_slli_si128(three, 4), _mm_cvtsi32_si128((int)kind)));
    write128(values + 4, _mm_setzero_si128());
    write64(values + 8, 0);
}

/* Ten words: a kind and one value. */
INLINE void tell_one(u32 *values, u32 kind, u32 value) {
    write128(values, _mm_cvtsi64_si128((long long)((u64)value << 32 | kind)));
    write128(values + 4, _mm_setzero_si128());
    write64(values + 8, 0);
}

/* 1 to 3 bytes, or numbers of 2 bytes, or of 4, from the lowest lane on; no byte more is
 * read. */
INLINE __m128i lanes8(const u8 *p, u32 n) {
    u32 v = p[0];
    if (n > 1) v |= (u32)p[1] << 8;
    if (n > 2) v |= (u32)p[2] << 16;
    return _mm_cvtsi32_si128((int)v);
}
INLINE __m128i lanes16(const u8 *p, u32 n) {
    u64 v;
    if (n == 1) v = (u64)p[0] | (u64)p[1] << 8;
    else v = read32(p);
    if (n > 2) v |= (u64)p[4] << 32 | (u64)p[5] << 40;
    __m128i lanes = _mm_cvtsi64_si128((long long)v);
    return _mm_or_si128(_mm_srli_epi16(lanes, 8), _mm_slli_epi16(lanes, 8));
}
INLINE __m128i lanes32(const u8 *p, u32 n) {
    if (n == 1) return turned(_mm_cvtsi32_si128((int)read32(p)));
    __m128i lanes = _mm_loadl_epi64((const __m128i *)p);
    if (n > 2) lanes = _mm_unpacklo_epi64(lanes, _mm_cvtsi32_si128((int)read32(p + 8)));
    return turned(lanes);
}

/* Every NaN as 7FC00000; all other bits as they are. */
INLINE __m128i singles(__m128i bits) {
    __m128i size = _mm_and_si128(bits, _mm_set1_epi32(0x7FFFFFFF));
    __m128i nan = _mm_cmpgt_epi32(size, _mm_set1_epi32(0x7F800000));
    __m128i quiet = _mm_and_si128(nan, _mm_set1_epi32(0x7FC00000));
    return _mm_or_si128(_mm_andnot_si128(nan, bits), quiet);
}

/* Whole numbers divided by 2^shift, which is exact. */
INLINE __m128i scaled(__m128i whole, u32 shift) {
    __m128 by = _mm_castsi128_ps(_mm_set1_epi32((int)((127 - shift) << 23)));
    return _mm_castps_si128(_mm_mul_ps(_mm_cvtepi32_ps(whole), by));
}

/* 1 to 3 components as floats' bits; the lanes past them are 0. */
INLINE __m128i components(const u8 *p, u32 n, u32 format, u32 shift) {
    const __m128i zero = _mm_setzero_si128();
    __m128i v;
    switch (format) {
    case 0:
        v = _mm_unpacklo_epi16(_mm_unpacklo_epi8(lanes8(p, n), zero), zero);
        return scaled(v, shift);
    case 1:
        v = _mm_unpacklo_epi16(zero, _mm_unpacklo_epi8(zero, lanes8(p, n)));
        return scaled(_mm_srai_epi32(v, 24), shift);
    case 2:
        return scaled(_mm_unpacklo_epi16(lanes16(p, n), zero), shift);
    case 3:
        v = _mm_unpacklo_epi16(zero, lanes16(p, n));
        return scaled(_mm_srai_epi32(v, 16), shift);
    default:
        return singles(lanes32(p, n));
    }
}

/* The shift of a position or a texture: 0 for 8 bits where bit 30 of group 0 is clear. */
INLINE u32 shift_of(u32 vat_0, u32 format, u32 shift) {
    return format < 2 && !(vat_0 & 0x40000000) ? 0 : shift;
}

INLINE void tell_index(u32 *values, u32 mode, const u8 *p) {
    tell_one(values, ONE_INDEX, mode == 2 ? p[0] : number16(p));
}

INLINE void position(const u32 *format, const u8 *p, u32 *values) {
    u32 mode = format[0] >> 9 & 3, vat_0 = format[2], f = vat_0 >> 1 & 7;
    u32 shift = shift_of(vat_0, f, vat_0 >> 4 & 31);
    if (mode > 1) tell_index(values, mode, p);
    else tell(values, POSITION, components(p, 2 + (vat_0 & 1), f, shift));
}

/* Nine components, three at a time. */
INLINE void normal_of_nine(const u8 *p, u32 f, u32 shift, u32 *values) {
    u32 row = f < 2 ? 3 : f < F32 ? 6 : 12;
    __m128i a = components(p, 3, f, shift), b = components(p + row, 3, f, shift);
    __m128i c = components(p + 2 * row, 3, f, shift);
    write128(values, _mm_or_si128(_mm_slli_si128(a, 4), _mm_cvtsi32_si128(NORMAL_OF_NINE)));
    write128(values + 4, b);
    write128(values + 6, _mm_or_si128(_mm_slli_si128(c, 4), _mm_srli_si128(b, 8)));
}

INLINE void normal(const u32 *format, const u8 *p, u32 *values) {
    static const u8 SHIFTS[8] = {7, 6, 15, 14, 0, 0, 0, 0};
    u32 mode = format[0] >> 11 & 3, vat_0 = format[2], f = vat_0 >> 10 & 7, nine = vat_0 >> 9 & 1;
    if (mode == 0) tell(values, ABSENT, _mm_setzero_si128());
    else if (mode == 1 && nine) normal_of_nine(p, f, SHIFTS[f], values);
    else if (mode == 1) tell(values, NORMAL, components(p, 3, f, SHIFTS[f]));
    else if (!(nine & vat_0 >> 31)) tell_index(values, mode, p);
    else if (mode == 2) tell(values, THREE_INDICES, _mm_set_epi32(0, p[2], p[1], p[0]));
    else {
        int first = (int)number16(p), second = (int)number16(p + 2), third = (int)number16(p + 4);
        tell(values, THREE_INDICES, _mm_set_epi32(0, third, second, first));
    }
}

/* A colour of so many bytes, as it stands. */
INLINE void colour(u32 mode, u32 bytes, const u8 *p, u32 *values) {
    if (mode == 0) tell(values, ABSENT, _mm_setzero_si128());
    else if (mode > 1) tell_index(values, mode, p);
    else if (bytes == 4) tell_one(values, COLOUR, number32(p));
    else tell_one(values, COLOUR, bytes == 2 ? number16(p) : number16(p) << 8 | p[2]);
}

/* A texture by its bits of the VAT: count, format, and the shift. */
INLINE void texture(u32 mode, u32 bits, u32 shift, u32 vat_0, const u8 *p, u32 *values) {
    u32 f = bits >> 1 & 7;
    if (mode == 0) tell(values, ABSENT, _mm_setzero_si128());
    else if (mode > 1) tell_index(values, mode, p);
    else tell(values, TEXTURE, components(p, 1 + (bits & 1), f, shift_of(vat_0, f, shift & 31)));
}

/* Attribute k of so many bytes, at p. */
INLINE void attribute(const u32 *format, u32 k, u32 bytes, const u8 *p, u32 *values) {
    /* Where a texture's bits begin in the VAT, as one number of 96 bits. */
    static const u8 FROM[8] = {21, 32, 41, 50, 59, 69, 78, 87};
    if (k < 9) tell_one(values, bytes, bytes ? p[0] : 0);
    else if (k == 9) position(format, p, values);
    else if (k == 10) normal(format, p, values);
    else if (k < 13) colour(format[0] >> (2 * k - 9) & 3, bytes, p, values);
    else {
        u32 i = k - 13, from = FROM[i], group = from < 32 ? 0 : from < 64 ? 1 : 2;
        u32 bits = format[2 + group] >> (from & 31), shift = i == 4 ? format[4] : bits >> 4;
        texture(format[1] >> 2 * i & 3, bits, shift, format[2], p, values);
    }
}

u32 hand_decode(const u32 *restrict format, u32 k, const u8 *restrict vertex, size_t vertex_len,
                u32 *restrict values) {
    Sizes z;
    u32 r = laid_out(format, &z);
    if (unlikely(r)) return r;
    if (unlikely(k > 20 || vertex_len != z.sum)) return 19;
    /* The sums of the words before, and of the bytes before in its own. */
    u64 before = 0, word = z.a;
    if (k >= 16) { before = z.a + z.b; word = z.c; }
    else if (k >= 8) { before = z.a; word = z.b; }
    u32 place = 8 * (k & 7);
    u64 own = word & ((1ull << place) - 1);
    size_t offset = (before * ONES >> 56) + (own * ONES >> 56);
    attribute(format, k, word >> place & 0xFF, vertex + offset, values);
    return 0;
}

/* All 21 attributes, ten words each, one after the other. Sizes are looked up again, which
 * is quicker than to keep them. */
u32 hand_decode_all(const u32 *restrict format, const u8 *restrict vertex, size_t vertex_len,
                    u32 *restrict values) {
    u32 vcd_0 = format[0], vcd_1 = format[1];
    u32 vat_0 = format[2], vat_1 = format[3], vat_2 = format[4];
    if (unlikely(!(vcd_0 & HAS_POSITION))) return 9;
    u32 size = vertex_size(vcd_0, vcd_1, vat_0, vat_1, vat_2);
    if (unlikely(size >= BAD)) return 10;
    if (unlikely(vertex_len != size)) return 19;
    const u8 *p = vertex;
    /* A position follows, so there is a byte to read also where a matrix is absent. */
    for (u32 k = 0; k < 9; k++, values += 10) {
        u32 present = vcd_0 >> k & 1;
        tell_one(values, present, *p & -present);
        p += present;
    }
    position(format, p, values);
    p += position_size(vcd_0, vat_0);
    values += 10;
    normal(format, p, values);
    p += normal_size(vcd_0, vat_0);
    values += 10;
    for (int i = 0; i < 2; i++, values += 10) {
        u32 bytes = colour_size(vcd_0, vat_0, i);
        colour(vcd_0 >> (13 + 2 * i) & 3, bytes, p, values);
        p += bytes;
    }
    const u32 bits[8] = {
        vat_0 >> 21, vat_1,       vat_1 >> 9,  vat_1 >> 18,
        vat_1 >> 27, vat_2 >> 5,  vat_2 >> 14, vat_2 >> 23,
    };
    for (int i = 0; i < 8; i++, values += 10) {
        texture(vcd_1 >> 2 * i & 3, bits[i], i == 4 ? vat_2 : bits[i] >> 4, vat_0, p, values);
        p += texture_size(vcd_1, bits[i], i);
    }
    return 0;
}
