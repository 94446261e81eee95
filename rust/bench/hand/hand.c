/*
 * The command processor in hand-tuned C, for the benchmark: the calls that it times, with
 * the answers and effects that include/duckhammock.h promises, whatever is lent, under
 * the prefix hand_. Nothing here is proved; tests/hand.rs holds it to the proved library.
 * It is for little-endian x86-64 with no more than SSE2. Layouts and attributes are in
 * vertex.c.
 *
 * What makes it fast:
 * - The state words are used where they lie. Refusals 1 to 5 are tested once a call, the
 *   288 registers four at a time. No unit can break what these tests found good.
 * - A run goes through the pending bytes with a pointer, in one straight stretch and then,
 *   where they wrap, in a second. Only a unit that lies across the ring's end is gathered
 *   into a small buffer.
 * - No-operations are counted sixteen at a time. BP and CP loads that follow each other are
 *   taken in loops of their own. XF words are turned round four at a time.
 * - How long a vertex is comes from tables by its format bits, and a run remembers it for
 *   each of the eight formats until a load of the VCD or the VAT.
 * - All vertices of a draw are passed over in one move. Only the last one's bytes can be
 *   seen in the vertex buffer, so the copy is put off until a shorter vertex or the end.
 */
#include "bytes.h"
#include "sizes.h"

/* The state's words, and other numbers of the header. */
enum {
    START, END, HIGH_MARK, LOW_MARK, WRITE, READ, CONTROL, OPEN, PRIMITIVE, FORMAT, LEFT,
    CP = 11, VCD_0 = 13, VCD_1 = 14, VAT = 15, BASES = 39, STRIDES = 55, BP = 71,
    STATE_WORDS = 327
};
enum { BP_MASK = 0xFE, XF_WORDS = 4184, LONGEST = 129, WAITING = 255 };
enum { SMALLEST_RING = 256, LARGEST_RING = 1048576, MOST_UNITS = 1048575 };

/*
 * Where the number of a CP load is kept, by its address, counted from state word 11:
 * 3X to 6X at 0 to 3, group g of format f at 4 + 3f + g, array bases from 28, strides
 * from 44. NOWHERE: it is accepted and not kept. UNLISTED: refusal 7.
 */
#define NOWHERE 60
#define UNLISTED 255

static const uint8_t CP_PLACES[256] = {
    [0x00 ... 0x1F] = UNLISTED,
    [0x20] = NOWHERE,
    [0x21 ... 0x2F] = UNLISTED,
    [0x30 ... 0x3F] = 0,
    [0x40 ... 0x4F] = 1,
    [0x50 ... 0x5F] = 2,
    [0x60 ... 0x6F] = 3,
    [0x70] = 4, 7, 10, 13, 16, 19, 22, 25, [0x78 ... 0x7F] = UNLISTED,
    [0x80] = 5, 8, 11, 14, 17, 20, 23, 26, [0x88 ... 0x8F] = UNLISTED,
    [0x90] = 6, 9, 12, 15, 18, 21, 24, 27, [0x98 ... 0x9F] = UNLISTED,
    [0xA0] = 28, 29, 30, 31, 32, 33, 34, 35, 36, 37, 38, 39, 40, 41, 42, 43,
    [0xB0] = 44, 45, 46, 47, 48, 49, 50, 51, 52, 53, 54, 55, 56, 57, 58, 59,
    [0xC0 ... 0xFF] = UNLISTED,
};

/* What a CP register keeps of a number, by the address's high four bits: a base has 26
 * bits, a stride 8. */
static const uint32_t CP_MASKS[16] = {
    [0x0 ... 0x9] = 0xFFFFFFFF,
    [0xA] = 0x3FFFFFF,
    [0xB] = 0xFF,
    [0xC ... 0xF] = 0xFFFFFFFF,
};

/* ---- Bytes ---- */

/* Exactly n bytes, 1 to 129, in moves that may overlap. */
INLINE void copy_vertex(u8 *restrict to, const u8 *restrict from, u32 n) {
    if (n >= 16) {
        __m128i last = read128(from + n - 16);
        for (u32 i = 0; i + 16 < n; i += 16) write128(to + i, read128(from + i));
        write128(to + n - 16, last);
    } else if (n >= 8) {
        u64 last = read64(from + n - 8);
        write64(to, read64(from));
        write64(to + n - 8, last);
    } else if (n >= 4) {
        u32 last = read32(from + n - 4);
        write32(to, read32(from));
        write32(to + n - 4, last);
    } else {
        to[0] = from[0];
        if (n > 1) { to[1] = from[1]; to[n - 1] = from[n - 1]; }
    }
}

/* n bytes from a place of the ring on, round its end. */
INLINE void gather(u8 *to, const u8 *ring, u32 size, u32 at, u32 n) {
    u32 straight = size - at < n ? size - at : n;
    memcpy(to, ring + at, straight);
    memcpy(to + straight, ring, n - straight);
}

/* An XF load's n words, 1 to 16. */
INLINE void copy_words(u32 *restrict to, const u8 *restrict from, u32 n) {
    if (n == 16) {
        write128(to, turned(read128(from)));
        write128(to + 4, turned(read128(from + 16)));
        write128(to + 8, turned(read128(from + 32)));
        write128(to + 12, turned(read128(from + 48)));
    } else if (n >= 4) {
        __m128i last = turned(read128(from + 4 * n - 16));
        for (u32 i = 0; i + 4 < n; i += 4) write128(to + i, turned(read128(from + 4 * i)));
        write128(to + n - 4, last);
    } else {
        to[0] = number32(from);
        if (n > 1) { to[1] = number32(from + 4); to[n - 1] = number32(from + 4 * n - 4); }
    }
}

/* Which of 16 bytes are not 0, a bit each. */
INLINE u32 bytes_set(__m128i v) {
    return (u32)_mm_movemask_epi8(_mm_cmpeq_epi8(v, _mm_setzero_si128())) ^ 0xFFFF;
}

/* How many of the first n bytes are 0 before another; n > 0. */
INLINE size_t zeros(const u8 *p, size_t n) {
    size_t i = 0;
    if (n >= 16) {
        u32 set = bytes_set(read128(p));
        if (likely(set)) return (size_t)__builtin_ctz(set);
        for (i = 16; i + 64 <= n; i += 64) {
            __m128i a = _mm_or_si128(read128(p + i), read128(p + i + 16));
            __m128i b = _mm_or_si128(read128(p + i + 32), read128(p + i + 48));
            if (bytes_set(_mm_or_si128(a, b))) break;
        }
        for (; i + 16 <= n; i += 16) {
            set = bytes_set(read128(p + i));
            if (set) return i + (size_t)__builtin_ctz(set);
        }
    }
    while (i < n && p[i] == 0) i++;
    return i;
}

/* ---- The window and the tests 1 to 5 ---- */

/* Start and size are multiples of 32, the size is SMALLEST_RING to LARGEST_RING and the
 * ring's length, and both pointers are inside. A difference that is below 0 counts as a
 * large number. */
INLINE int window_ok(const u32 *s, size_t ring_len) {
    u32 start = s[START], end = s[END], size = end - start;
    return end > start && size - SMALLEST_RING <= LARGEST_RING - SMALLEST_RING
        && ((start | size) & 31) == 0
        && s[WRITE] - start < size && s[READ] - start < size && ring_len == size;
}

/* The pending bytes, where the window is good. */
INLINE u32 count_of(const u32 *s) {
    u32 difference = s[WRITE] - s[READ];
    return s[WRITE] >= s[READ] ? difference : difference + (s[END] - s[START]);
}

/* Whether a BP register has more than 24 bits, a base more than 26 or a stride more than
 * 8: the words are joined first, and then the joined bits tested. The BP words are taken
 * from 68 on, where 16 bytes are aligned if the state is; so the last three strides are
 * tested for 24 bits too, which says nothing new. */
INLINE int registers_wide(const u32 *s) {
#define JOINED(a, b) _mm_or_si128(a, b)
#define WORDS(i) read128(s + (i))
    __m128i a = WORDS(323), b = _mm_setzero_si128(), c = b, d = b;
    for (int i = 68; i < 324; i += 16) {
        a = JOINED(a, WORDS(i));
        b = JOINED(b, WORDS(i + 4));
        c = JOINED(c, WORDS(i + 8));
        d = JOINED(d, WORDS(i + 12));
    }
    a = JOINED(JOINED(a, b), JOINED(c, d));
    b = JOINED(JOINED(WORDS(BASES), WORDS(BASES + 4)), JOINED(WORDS(BASES + 8), WORDS(BASES + 12)));
    c = JOINED(JOINED(WORDS(STRIDES), WORDS(STRIDES + 4)),
               JOINED(WORDS(STRIDES + 8), WORDS(STRIDES + 12)));
    a = _mm_srli_epi32(a, 24);
    b = _mm_srli_epi32(b, 26);
    c = _mm_srli_epi32(c, 8);
    return bytes_set(JOINED(a, JOINED(b, c))) != 0;
#undef JOINED
#undef WORDS
}

/* Whether the words for the open draw are out of range. */
INLINE int draw_wrong(const u32 *s) {
    if (s[OPEN] == 0) return 0;
    return s[OPEN] != 1 || (s[PRIMITIVE] | s[FORMAT]) > 7 || s[LEFT] - 1 > 65535 - 1;
}

/* The first of 1 to 5 that applies, or 0. */
INLINE u32 gate(const u32 *s, size_t ring_len, size_t xf_len, size_t vertex_len) {
    if (unlikely(!window_ok(s, ring_len) || s[CONTROL] > 0x3F)) return 1;
    if (unlikely(draw_wrong(s) || registers_wide(s))) return 1;
    if (unlikely(xf_len != XF_WORDS)) return 2;
    if (unlikely(vertex_len < LONGEST)) return 3;
    if (unlikely(!(s[CONTROL] & 0x01))) return 4;
    if (unlikely(s[CONTROL] & 0x10)) return 5;
    return 0;
}

INLINE void close_draw(u32 *s) {
    s[OPEN] = 0;
    s[PRIMITIVE] = 0;
    s[FORMAT] = 0;
    s[LEFT] = 0;
}

/* ---- One unit ---- */

/* A vertex's bytes in one of the eight formats, 1 to 129, or BAD + 9 or BAD + 10. */
static u32 measure(const u32 *s, u32 format) {
    const u32 *vat = s + VAT + 3 * format;
    u32 vcd_0 = s[VCD_0];
    if (unlikely(!(vcd_0 & HAS_POSITION))) return BAD + 9;
    u32 n = vertex_size(vcd_0, s[VCD_1], vat[0], vat[1], vat[2]);
    return likely(n < BAD) ? n : BAD + 10;
}

/* A look and a take read the unit by the same code. `takes` is a constant wherever this is
 * inlined; where it is 0, nothing is stored but what is told of the unit. */

/* What a unit came to: its bytes, or WAIT and the bytes lacking, or REFUSED and a number. */
#define WAIT 0x10000u
#define REFUSED 0x20000u

INLINE u32 told(u32 *unit, u32 kind, u32 a, u32 b, u32 c, u32 d, u32 bytes) {
    unit[0] = kind;
    unit[1] = a;
    unit[2] = b;
    unit[3] = c;
    unit[4] = d;
    unit[5] = bytes;
    return bytes;
}
#define NEED(n) do { if (unlikely(have < (n))) return WAIT + (n) - have; } while (0)

/* A load through the mask, which the next load finds whole again. */
INLINE u32 load_bp(u32 *bp, const u8 *p, u32 *unit, int takes) {
    u32 v = number32(p + 1), r = v >> 24;
    if (takes) {
        u32 mask = bp[BP_MASK], stored = (bp[r] & ~mask) | (v & mask);
        bp[r] = stored;
        bp[BP_MASK] = r == BP_MASK ? stored : 0xFFFFFF;
    }
    return told(unit, 0x61, r, v & 0xFFFFFF, 0, 0, 5);
}

INLINE u32 load_cp(u32 *s, const u8 *p, u32 have, u32 *unit, int takes) {
    if (unlikely(have < 2)) return WAIT + 6 - have;
    u32 address = p[1], place = CP_PLACES[address];
    if (unlikely(place == UNLISTED)) return REFUSED + 7;
    NEED(6);
    u32 number = number32(p + 2);
    if (takes && likely(place < NOWHERE)) s[CP + place] = number & CP_MASKS[address >> 4];
    return told(unit, 0x08, address, number, 0, 0, 6);
}

INLINE u32 load_xf(const u8 *p, u32 have, u32 *xf, u32 *unit, int takes) {
    NEED(5);
    u32 words = (p[2] & 15) + 1, address = number16(p + 3), bytes = 5 + 4 * words;
    if (unlikely(address + words > XF_WORDS)) return REFUSED + 8;
    NEED(bytes);
    if (takes) copy_words(xf + address, p + 5, words);
    return told(unit, 0x10, words, address, 0, 0, bytes);
}

INLINE u32 load_indexed(const u32 *s, const u8 *p, u32 have, u32 *unit) {
    NEED(5);
    u32 array = 12 + (p[0] >> 3 & 3), index = number16(p + 1), rest = number16(p + 3);
    u32 address = s[BASES + array] + index * s[STRIDES + array];
    return told(unit, p[0], index, (rest >> 12) + 1, rest & 0xFFF, address, 5);
}

/* A draw's head; it opens the draw, but one of no vertices. */
INLINE u32 open_draw(u32 *s, const u8 *p, u32 have, u32 *unit, int takes) {
    u32 primitive = p[0] >> 3 & 7, format = p[0] & 7, size = measure(s, format);
    if (unlikely(size >= BAD)) return REFUSED + (size - BAD);
    NEED(3);
    u32 vertices = number16(p + 1);
    if (takes && vertices) {
        s[OPEN] = 1;
        s[PRIMITIVE] = primitive;
        s[FORMAT] = format;
        s[LEFT] = vertices;
    }
    return told(unit, 0x80, primitive, format, vertices, 0, 3);
}

/* One unit while no draw is open. p holds the pending bytes, or as many as any unit has. */
INLINE u32 one_unit(u32 *s, const u8 *p, u32 have, u32 *xf, u32 *unit, int takes) {
    NEED(1);
    u32 opcode = p[0];
    switch (opcode) {
    case 0x00: case 0x44: case 0x48:
        return told(unit, opcode, 0, 0, 0, 0, 1);
    case 0x08:
        return load_cp(s, p, have, unit, takes);
    case 0x10:
        return load_xf(p, have, xf, unit, takes);
    case 0x20: case 0x28: case 0x30: case 0x38:
        return load_indexed(s, p, have, unit);
    case 0x40:
        NEED(9);
        return told(unit, 0x40, number32(p + 1), number32(p + 5), 0, 0, 9);
    case 0x61:
        NEED(5);
        return load_bp(s + BP, p, unit, takes);
    default:
        if (unlikely((opcode & 0xC0) != 0x80)) return REFUSED + 6;
        return open_draw(s, p, have, unit, takes);
    }
}

/* The next vertex of the open draw. */
INLINE u32 one_vertex(u32 *s, const u8 *p, u32 have, u8 *vertex, u32 *unit, int takes) {
    u32 size = measure(s, s[FORMAT]);
    if (unlikely(size >= BAD)) return REFUSED + (size - BAD);
    NEED(size);
    if (takes) {
        copy_vertex(vertex, p, size);
        if (--s[LEFT] == 0) close_draw(s);
    }
    return told(unit, 0x01, 0, 0, 0, 0, size);
}

INLINE u32 next_unit(u32 *restrict s, const u8 *restrict ring, size_t ring_len,
                     u32 *restrict xf, size_t xf_len, u8 *restrict vertex, size_t vertex_len,
                     u32 *restrict unit, u32 *restrict lacking, int takes) {
    u32 r = gate(s, ring_len, xf_len, vertex_len);
    if (unlikely(r)) return r;
    u32 size = (u32)ring_len, at = s[READ] - s[START], have = count_of(s);
    u8 gathered[LONGEST];
    const u8 *p = ring + at;
    if (unlikely(size - at < LONGEST && have > size - at)) {
        gather(gathered, ring, size, at, have < LONGEST ? have : LONGEST);
        p = gathered;
    }
    r = s[OPEN] ? one_vertex(s, p, have, vertex, unit, takes)
                : one_unit(s, p, have, xf, unit, takes);
    if (likely(r < WAIT)) {
        if (takes) {
            at += r;
            s[READ] = s[START] + (at < size ? at : at - size);
            if (!s[OPEN]) close_draw(s);
        }
        return 0;
    }
    if (r >= REFUSED) return r - REFUSED;
    *lacking = r - WAIT;
    return WAITING;
}

u32 hand_look(const u32 *restrict s, const u8 *restrict ring, size_t ring_len,
              const u32 *restrict xf, size_t xf_len, const u8 *restrict vertex,
              size_t vertex_len, u32 *restrict unit, u32 *restrict lacking) {
    return next_unit((u32 *)s, ring, ring_len, (u32 *)xf, xf_len, (u8 *)vertex, vertex_len,
                     unit, lacking, 0);
}

u32 hand_take(u32 *restrict s, const u8 *restrict ring, size_t ring_len, u32 *restrict xf,
              size_t xf_len, u8 *restrict vertex, size_t vertex_len, u32 *restrict unit,
              u32 *restrict lacking) {
    return next_unit(s, ring, ring_len, xf, xf_len, vertex, vertex_len, unit, lacking, 1);
}

/* ---- A run ---- */

/* Where a run is. It is never passed to a function that is not inlined, so that its parts
 * are in registers. */
typedef struct {
    u32 *s, *xf;
    u8 *vertex;
    const u8 *ring;
    size_t ring_len;
    /* The pending bytes: those from p to end, then so many from the ring's front. */
    const u8 *p, *end;
    size_t wrapped;
    /* The units that the limit still allows. */
    size_t left;
    /* The vertex whose copy was put off; none where it has 0 bytes. */
    const u8 *last;
    u32 last_size;
    u32 lacking;
    /* A byte for each of the eight formats: a vertex's bytes, 0 where they are not known. */
    u64 sizes;
} Run;

/* What taking units came to: an answer of the header that ends the run, ON for more
 * units, or AROUND for a unit that is not whole from p to end. */
enum { ON = 0x100, AROUND = 0x101 };

INLINE u32 run_no_operations(Run *r) {
    size_t n = (size_t)(r->end - r->p);
    n = zeros(r->p, n < r->left ? n : r->left);
    r->p += n;
    r->left -= n;
    return ON;
}

/* A unit without effect of so many bytes. */
INLINE u32 run_past(Run *r, size_t bytes) {
    if (unlikely((size_t)(r->end - r->p) < bytes)) return AROUND;
    r->p += bytes;
    r->left -= 1;
    return ON;
}

/* CP loads that follow each other. */
INLINE u32 run_cp_loads(Run *r) {
    size_t n = (size_t)(r->end - r->p);
    if (unlikely(n < 6)) return AROUND;
    const u8 *p = r->p, *most = p + (6 * r->left < n ? 6 * r->left : n) - 6;
    u32 answer = ON;
    do {
        u32 address = p[1], place = CP_PLACES[address];
        if (likely(place < NOWHERE)) {
            r->s[CP + place] = number32(p + 2) & CP_MASKS[address >> 4];
            /* The VCD and the VAT. */
            if (place - 2 < 26) r->sizes = 0;
        } else if (place == UNLISTED) {
            answer = 7;
            break;
        }
        p += 6;
    } while (p <= most && *p == 0x08);
    r->left -= (size_t)(p - r->p) / 6;
    r->p = p;
    return answer;
}

INLINE u32 run_xf_load(Run *r) {
    const u8 *p = r->p;
    size_t n = (size_t)(r->end - p);
    if (unlikely(n < 5)) return AROUND;
    u32 words = (p[2] & 15) + 1, address = number16(p + 3), bytes = 5 + 4 * words;
    if (unlikely(address + words > XF_WORDS)) return 8;
    if (unlikely(n < bytes)) return AROUND;
    copy_words(r->xf + address, p + 5, words);
    r->p += bytes;
    r->left -= 1;
    return ON;
}

/* BP loads that follow each other. The mask is stored once, after the last: a load of it
 * gives number AND mask, whatever its register held. */
INLINE u32 run_bp_loads(Run *r) {
    size_t n = (size_t)(r->end - r->p);
    if (unlikely(n < 5)) return AROUND;
    const u8 *p = r->p, *most = p + (5 * r->left < n ? 5 * r->left : n) - 5;
    u32 *bp = r->s + BP, mask = bp[BP_MASK];
    do {
        u32 v = number32(p + 1), to = v >> 24, bits = v & mask;
        bp[to] = (bp[to] & ~mask) | bits;
        mask = to == BP_MASK ? bits : 0xFFFFFF;
        p += 5;
    } while (p <= most && *p == 0x61);
    bp[BP_MASK] = mask;
    r->left -= (size_t)(p - r->p) / 5;
    r->p = p;
    return ON;
}

INLINE void copy_last(Run *r) {
    if (r->last_size) copy_vertex(r->vertex, r->last, r->last_size);
}

/* Vertices of the open draw, n of them still to come. */
INLINE u32 run_vertices(Run *r, u32 n, u32 size) {
    size_t straight = (size_t)(r->end - r->p), k = (straight + r->wrapped) / size;
    if (k > n) k = n;
    if (k > r->left) k = r->left;
    if (k) {
        size_t bytes = k * size, last = bytes - size;
        /* The last one lies before the ring's end, after it, or across it. */
        int across = last < straight && bytes > straight;
        if (size < r->last_size || across) {
            copy_last(r);
            r->last_size = 0;
        }
        if (across)
            gather(r->vertex, r->ring, (u32)r->ring_len, (u32)(r->p + last - r->ring), size);
        else {
            r->last = bytes <= straight ? r->p + last : r->ring + (last - straight);
            r->last_size = size;
        }
        if (bytes <= straight) r->p += bytes;
        else {
            r->p = r->ring + (bytes - straight);
            r->end = r->ring + r->wrapped;
            r->wrapped = 0;
        }
        n -= (u32)k;
        r->left -= k;
    }
    if (n == 0) { close_draw(r->s); return ON; }
    r->s[LEFT] = n;
    if (r->left == 0) return 0;
    r->lacking = size - (u32)((size_t)(r->end - r->p) + r->wrapped);
    return WAITING;
}

/* The rest of the draw that the state words say is open. */
INLINE u32 run_open_draw(Run *r) {
    if (r->left == 0) return 0;
    u32 size = measure(r->s, r->s[FORMAT]);
    if (unlikely(size >= BAD)) return size - BAD;
    return run_vertices(r, r->s[LEFT], size);
}

/* A draw's head, and its vertices. Where all of them lie from p to end and within the
 * limit, the draw is never open in the state words. */
INLINE u32 run_draw(Run *r, u32 opcode) {
    u32 format = opcode & 7, size = r->sizes >> 8 * format & 0xFF;
    if (unlikely(size == 0)) {
        size = measure(r->s, format);
        if (unlikely(size >= BAD)) return size - BAD;
        r->sizes |= (u64)size << 8 * format;
    }
    if (unlikely(r->end - r->p < 3)) return AROUND;
    u32 n = number16(r->p + 1);
    size_t bytes = (size_t)n * size;
    r->p += 3;
    r->left -= 1;
    if (likely(bytes <= (size_t)(r->end - r->p) && n <= r->left)) {
        if (unlikely(n == 0)) return ON;
        if (unlikely(size < r->last_size)) copy_last(r);
        r->p += bytes;
        r->left -= n;
        r->last = r->p - size;
        r->last_size = size;
        return ON;
    }
    r->s[OPEN] = 1;
    r->s[PRIMITIVE] = opcode >> 3 & 7;
    r->s[FORMAT] = format;
    return run_vertices(r, n, size);
}

/* Too few bytes lie straight: one unit from gathered bytes, or waiting. */
INLINE u32 run_around(Run *r) {
    u8 gathered[LONGEST];
    u32 unit[6];
    size_t straight = (size_t)(r->end - r->p), have = straight + r->wrapped;
    gather(gathered, r->ring, (u32)r->ring_len, (u32)(r->p - r->ring),
           (u32)(have < LONGEST ? have : LONGEST));
    u32 bytes = one_unit(r->s, gathered, (u32)have, r->xf, unit, 1);
    if (bytes >= REFUSED) return bytes - REFUSED;
    if (bytes >= WAIT) { r->lacking = bytes - WAIT; return WAITING; }
    r->sizes = 0;
    r->left -= 1;
    if (bytes <= straight) r->p += bytes;
    else {
        r->p = r->ring + (bytes - straight);
        r->end = r->ring + r->wrapped;
        r->wrapped = 0;
    }
    return r->s[OPEN] ? run_open_draw(r) : ON;
}

/* The next unit and those of its kind that follow, while no draw is open. */
INLINE u32 run_units(Run *r) {
    u32 opcode = *r->p;
    switch (opcode) {
    case 0x00:
        return run_no_operations(r);
    case 0x44: case 0x48:
        return run_past(r, 1);
    case 0x08:
        return run_cp_loads(r);
    case 0x10:
        return run_xf_load(r);
    case 0x20: case 0x28: case 0x30: case 0x38:
        return run_past(r, 5);
    case 0x40:
        return run_past(r, 9);
    case 0x61:
        return run_bp_loads(r);
    default:
        return likely((opcode & 0xC0) == 0x80) ? run_draw(r, opcode) : 6;
    }
}

/* Units until the limit, waiting or a refusal. */
INLINE u32 run_all(Run *r) {
    u32 answer = r->s[OPEN] ? run_open_draw(r) : ON;
    while (answer == ON) {
        if (unlikely(r->left == 0)) return 0;
        if (unlikely(r->p == r->end)) {
            if (r->wrapped == 0) { r->lacking = 1; return WAITING; }
            r->p = r->ring;
            r->end = r->ring + r->wrapped;
            r->wrapped = 0;
        }
        answer = run_units(r);
        if (unlikely(answer == AROUND)) answer = run_around(r);
    }
    return answer;
}

/* A run that may do units. It stands apart from the tests, so that both have the registers
 * they need. */
static __attribute__((noinline)) u32 run_pending(u32 *restrict s, const u8 *restrict ring,
                                                 size_t ring_len, u32 *restrict xf,
                                                 u8 *restrict vertex, u32 limit,
                                                 u32 *restrict report) {
    size_t at = s[READ] - s[START], have = count_of(s), straight = ring_len - at;
    if (straight > have) straight = have;
    Run r = {
        .s = s, .xf = xf, .vertex = vertex, .ring = ring, .ring_len = ring_len,
        .p = ring + at, .end = ring + at + straight, .wrapped = have - straight,
        .left = limit, .last = ring,
    };
    u32 answer = run_all(&r);
    copy_last(&r);
    u32 units = limit - (u32)r.left;
    if (units) {
        at = (size_t)(r.p - ring);
        s[READ] = s[START] + (u32)(at == ring_len ? 0 : at);
        if (!s[OPEN]) close_draw(s);
    }
    report[0] = units;
    report[1] = r.lacking;
    return answer;
}

u32 hand_run(u32 *restrict s, const u8 *restrict ring, size_t ring_len, u32 *restrict xf,
             size_t xf_len, u8 *restrict vertex, size_t vertex_len, u32 limit,
             u32 *restrict report) {
    u32 answer = gate(s, ring_len, xf_len, vertex_len);
    if (unlikely(answer || limit == 0)) {
        report[0] = 0;
        report[1] = 0;
        return answer;
    }
    if (limit > MOST_UNITS) limit = MOST_UNITS;
    return run_pending(s, ring, ring_len, xf, vertex, limit, report);
}

/* ---- Feeds and registers ---- */

void hand_fresh(u32 *s) {
    memset(s, 0, STATE_WORDS * sizeof *s);
    s[CONTROL] = 0x10;
    s[BP + BP_MASK] = 0xFFFFFF;
}

/* A feed that reaches the ring's end, in two stretches. It stands apart, so that the other
 * one keeps few registers. */
static __attribute__((noinline)) u32 feed_around(u32 *restrict s, u8 *restrict ring,
                                                 const u8 *restrict bytes, size_t n,
                                                 size_t at, size_t straight) {
    s[WRITE] = s[START] + (u32)(n - straight);
    memcpy(ring + at, bytes, straight);
    memcpy(ring, bytes + straight, n - straight);
    return 0;
}

u32 hand_feed(u32 *restrict s, u8 *restrict ring, size_t ring_len, const u8 *restrict bytes,
              size_t n) {
    if (unlikely(!window_ok(s, ring_len))) return 1;
    if (unlikely(n > ring_len - 1 - count_of(s))) return 11;
    size_t at = s[WRITE] - s[START], straight = ring_len - at;
    if (unlikely(n >= straight)) return feed_around(s, ring, bytes, n, at, straight);
    s[WRITE] += (u32)n;
    memcpy(ring + at, bytes, n);
    return 0;
}

/* The state word of each pair of offsets from 20 on; the fifth is the count's. */
static const u8 OFFSET_WORDS[7] = {START, END, HIGH_MARK, LOW_MARK, 255, WRITE, READ};

INLINE int window_offset(u16 offset) {
    return !(offset & 1) && offset >= 0x20 && offset <= 0x3A;
}

u32 hand_read_register(const u32 *s, u16 offset, u32 *value) {
    if (offset == 0x02) { *value = s[CONTROL]; return 0; }
    if (offset == 0x00 || offset == 0x30 || offset == 0x32) {
        if (!window_ok(s, s[END] - s[START])) return 1;
        u32 count = count_of(s);
        if (offset == 0x00) *value = (u32)(count == 0) << 2 | (u32)(s[OPEN] == 0) << 3;
        else *value = offset == 0x30 ? count & 0xFFFF : count >> 16;
        return 0;
    }
    if (!window_offset(offset)) return 17;
    *value = s[OFFSET_WORDS[(offset - 0x20) >> 2]] >> (offset & 2) * 8 & 0xFFFF;
    return 0;
}

u32 hand_write_register(u32 *s, u16 offset, u16 value) {
    if (offset == 0x02) { s[CONTROL] = value & 0x3F; return 0; }
    if (offset == 0x04) return 0;
    if (!window_offset(offset) || offset == 0x30 || offset == 0x32) return 17;
    u32 *word = s + OFFSET_WORDS[(offset - 0x20) >> 2], low = (offset & 2) * 8u;
    *word = (*word & ~(0xFFFFu << low)) | (u32)value << low;
    return 0;
}
