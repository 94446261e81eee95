/*
 * How many bytes an attribute has, by its bits. The row is its two bits of the VCD:
 * absent, direct, an index of 8 bits, of 16 bits. The column is its bits of the VAT:
 * a count bit (lowest) and a format, u8, s8, u16, s16, f32 and three that are none.
 * BAD stands for a format that is none (refusal 10): no good sum of sizes reaches it,
 * and the sum of all twelve attributes that have a format stays below 2^32.
 */
#define BAD 0x8000u

#define NO_FORMAT BAD, BAD, BAD, BAD, BAD, BAD
#define INDEX(bytes) \
    bytes, bytes, bytes, bytes, bytes, bytes, bytes, bytes, bytes, bytes, NO_FORMAT
#define INDEX_OR_THREE(bytes) \
    bytes, 3 * bytes, bytes, 3 * bytes, bytes, 3 * bytes, bytes, 3 * bytes, \
    bytes, 3 * bytes, NO_FORMAT

/* Two components or three. */
static const uint16_t POSITION_SIZES[64] = {
    [16] = 2, 3, 2, 3, 4, 6, 4, 6, 8, 12, NO_FORMAT,
    [32] = INDEX(1),
    [48] = INDEX(2),
};

/* One component or two. */
static const uint16_t TEXTURE_SIZES[64] = {
    [16] = 1, 2, 1, 2, 2, 4, 2, 4, 4, 8, NO_FORMAT,
    [32] = INDEX(1),
    [48] = INDEX(2),
};

/* Three components or nine. The second half is for bit 31 of group 0 of the VAT: three
 * indices where the count bit is set too. */
static const uint16_t NORMAL_SIZES[128] = {
    [16] = 3, 9, 3, 9, 6, 18, 6, 18, 12, 36, NO_FORMAT,
    [32] = INDEX(1),
    [48] = INDEX(2),
    [80] = 3, 9, 3, 9, 6, 18, 6, 18, 12, 36, NO_FORMAT,
    [96] = INDEX_OR_THREE(1),
    [112] = INDEX_OR_THREE(2),
};

/* Eight colour formats and no count bit. */
static const uint16_t COLOUR_SIZES[32] = {
    [8] = 2, 3, 4, 2, 3, 4, BAD, BAD,
    [16] = 1, 1, 1, 1, 1, 1, BAD, BAD,
    [24] = 2, 2, 2, 2, 2, 2, BAD, BAD,
};
