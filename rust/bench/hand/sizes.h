/* How long a vertex and its attributes are, by tables; for both parts of the hand-tuned
 * C. */
#include "tables.h"

/* How many of nine bits are set: of four copies, 15 bits apart, every fourth bit is kept,
 * and the remainder by 15 adds up the groups of four. */
INLINE u32 bits_of_nine(u32 v) {
    return (u32)(((u64)(v & 0x1FF) * 0x200040008001ull & 0x111111111111111ull) % 15);
}

INLINE u32 position_size(u32 vcd_0, u32 vat_0) {
    return POSITION_SIZES[(vcd_0 >> 9 & 3) << 4 | (vat_0 & 15)];
}
INLINE u32 normal_size(u32 vcd_0, u32 vat_0) {
    return NORMAL_SIZES[(vat_0 >> 31) << 6 | (vcd_0 >> 11 & 3) << 4 | (vat_0 >> 9 & 15)];
}
INLINE u32 colour_size(u32 vcd_0, u32 vat_0, int i) {
    return COLOUR_SIZES[(vcd_0 >> (13 + 2 * i) & 3) << 3 | (vat_0 >> (14 + 4 * i) & 7)];
}
/* Texture i, whose count bit and format are the lowest four of `bits`. */
INLINE u32 texture_size(u32 vcd_1, u32 bits, int i) {
    return TEXTURE_SIZES[(vcd_1 >> (2 * i) & 3) << 4 | (bits & 15)];
}

/* Bits of VCD group 0 for the position, and for normal and colours; of group 1 for
 * textures 1 to 7. */
enum { HAS_POSITION = 0x600, HAS_NORMAL_OR_COLOUR = 0x1F800, HAS_TEXTURES_1_TO_7 = 0xFFFC };

/* A vertex's bytes, or BAD and more where refused by 10; its position is present. */
INLINE u32 vertex_size(u32 vcd_0, u32 vcd_1, u32 vat_0, u32 vat_1, u32 vat_2) {
    u32 n = position_size(vcd_0, vat_0);
    if (vcd_0 & 0x1FF) n += bits_of_nine(vcd_0);
    if (vcd_0 & HAS_NORMAL_OR_COLOUR)
        n += normal_size(vcd_0, vat_0) + colour_size(vcd_0, vat_0, 0)
           + colour_size(vcd_0, vat_0, 1);
    if (vcd_1 & 0xFFFF) {
        n += texture_size(vcd_1, vat_0 >> 21, 0);
        if (vcd_1 & HAS_TEXTURES_1_TO_7)
            n += texture_size(vcd_1, vat_1, 1) + texture_size(vcd_1, vat_1 >> 9, 2)
               + texture_size(vcd_1, vat_1 >> 18, 3) + texture_size(vcd_1, vat_1 >> 27, 4)
               + texture_size(vcd_1, vat_2 >> 5, 5) + texture_size(vcd_1, vat_2 >> 14, 6)
               + texture_size(vcd_1, vat_2 >> 23, 7);
    }
    return n;
}
