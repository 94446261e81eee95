/*
 * Duckhammock: the GameCube's graphics command processor, as a static library.
 *
 * The caller keeps the state, 327 words, and lends it with the ring, the XF
 * words and the vertex buffer for the time of one call. Nothing is kept between
 * calls and nothing is allocated. A length counts elements: words of a word
 * pointer, bytes of a byte pointer. What a call may change must not overlap with
 * anything else that is lent to it (a merge is never in place), and a pointer
 * must not be null, also where its length is 0.
 *
 * A function always returns, and only so, whatever the state words, lengths and
 * bytes are: 0 where the call was accepted, a unit was shown or done or the limit
 * was reached, DUCKHAMMOCK_WAITING, or the number of a refusal; where several
 * apply, the first in the order that its comment gives them. (duckhammock_fresh
 * returns nothing, and duckhammock_find_recording_fault a place in a file.)
 *
 * A refused or waiting call changes nothing: no state word, ring byte, XF word
 * or vertex byte, and nothing of what was lent for its values. A look or a take
 * that waits tells in *lacking how many bytes are lacking, and nothing else. A run
 * keeps the units that it did before one was refused or waits, and that one
 * changes nothing; its report is told whatever the answer. An accepted call
 * changes what its comment says and nothing else.
 */
#ifndef DUCKHAMMOCK_H
#define DUCKHAMMOCK_H

#include <stddef.h>
#include <stdint.h>

#ifdef __cplusplus
extern "C" {
#endif

#define DUCKHAMMOCK_STATE_WORDS 327
#define DUCKHAMMOCK_XF_WORDS 4184
/* The shortest vertex buffer, and the longest vertex. */
#define DUCKHAMMOCK_VERTEX_BYTES 129
/* The attributes of a vertex, and the words that give its format: groups 0 and 1
 * of the VCD, and groups 0 to 2 of one format's VAT. */
#define DUCKHAMMOCK_ATTRIBUTES 21
#define DUCKHAMMOCK_FORMAT_WORDS 5
/* What an attribute decodes to: its kind and nine values. */
#define DUCKHAMMOCK_VALUE_WORDS 10
/* A whole vertex: DUCKHAMMOCK_VALUE_WORDS words for each attribute, in order. */
#define DUCKHAMMOCK_VERTEX_WORDS 210
/* The masks of a patch, and its numbers: one for each BP register. */
#define DUCKHAMMOCK_PATCH_ENTRIES 256
/* The longest command, an XF load of 16 words, and the longest patch. */
#define DUCKHAMMOCK_COMMAND_BYTES 69
#define DUCKHAMMOCK_PATCH_BYTES 2550
/* The fewest and the most bytes of a ring. */
#define DUCKHAMMOCK_SMALLEST_RING 256
#define DUCKHAMMOCK_LARGEST_RING 1048576
/* The most units of one run; a higher limit counts as this. */
#define DUCKHAMMOCK_MOST_UNITS 1048575
/* A recording is one file: the BP registers, the CP registers, the XF words and the
 * stream's bytes, each after its count. All but the stream is its head. */
#define DUCKHAMMOCK_RECORDING_HEAD_BYTES 18016
#define DUCKHAMMOCK_LONGEST_STREAM 1048575

/*
 * The state's words. Later versions add words only at the end, and raise
 * DUCKHAMMOCK_STATE_WORDS.
 *
 * A word that its field cannot hold is refused by 1 (DUCKHAMMOCK_INVALID_STATE)
 * by the calls that test the field, look, take and run, and of the BP registers,
 * bases and strides those that write a recording: a control word above 3F; a BP
 * register above FFFFFF; an array base above 3FFFFFF or stride above FF; a word for
 * the open draw that is neither 0 (none is open) nor 1; and of a draw that is
 * open a primitive or format above 7, 0 vertices left, or more than 65,535. A
 * feed and the register calls do not test it and leave it as it is, but that a
 * write of the control register replaces its word; a status read takes any word
 * for the open draw but 0 as open. While no draw is open, words 8 to 10 are not
 * looked at, and a take or a run that does a unit leaves them 0 where none is
 * open after it.
 */
enum duckhammock_state_word {
    DUCKHAMMOCK_START = 0,
    DUCKHAMMOCK_END = 1,
    DUCKHAMMOCK_HIGH_MARK = 2,
    DUCKHAMMOCK_LOW_MARK = 3,
    DUCKHAMMOCK_WRITE_POINTER = 4,
    DUCKHAMMOCK_READ_POINTER = 5,
    DUCKHAMMOCK_CONTROL = 6,
    DUCKHAMMOCK_DRAW_OPEN = 7,
    DUCKHAMMOCK_DRAW_PRIMITIVE = 8,
    DUCKHAMMOCK_DRAW_FORMAT = 9,
    DUCKHAMMOCK_DRAW_LEFT = 10,
    /* CP registers 3X, 4X, 5X and 6X; the last two are the VCD. */
    DUCKHAMMOCK_CP_3X = 11,
    DUCKHAMMOCK_CP_4X = 12,
    DUCKHAMMOCK_VCD_0 = 13,
    DUCKHAMMOCK_VCD_1 = 14,
    /* 24 words: group g of format f is at DUCKHAMMOCK_VAT + 3 * f + g. */
    DUCKHAMMOCK_VAT = 15,
    /* 16 words each. */
    DUCKHAMMOCK_ARRAY_BASES = 39,
    DUCKHAMMOCK_ARRAY_STRIDES = 55,
    /* 256 words. */
    DUCKHAMMOCK_BP = 71
};

/* What a function may return. */
enum duckhammock_answer {
    DUCKHAMMOCK_DONE = 0,
    /* The window's rules are broken (start and size, which is end minus start, are
     * multiples of 32; the size is DUCKHAMMOCK_SMALLEST_RING to
     * DUCKHAMMOCK_LARGEST_RING; both pointers are from start to below end), the
     * ring's length is not the window's size, or a register or the open draw is out
     * of range. */
    DUCKHAMMOCK_INVALID_STATE = 1,
    /* The XF words are not 4,184. */
    DUCKHAMMOCK_XF_MEMORY_LENGTH = 2,
    /* The vertex buffer is under 129 bytes. */
    DUCKHAMMOCK_VERTEX_BUFFER_SHORT = 3,
    /* Control bit 0 is clear. */
    DUCKHAMMOCK_READ_DISABLED = 4,
    /* Control bit 4 is set. */
    DUCKHAMMOCK_LINKED_MODE = 5,
    DUCKHAMMOCK_UNKNOWN_OPCODE = 6,
    DUCKHAMMOCK_UNKNOWN_CP_ADDRESS = 7,
    /* An XF load past 4,184. */
    DUCKHAMMOCK_XF_LOAD_PAST_END = 8,
    /* A draw or a layout without a position. */
    DUCKHAMMOCK_POSITION_ABSENT = 9,
    /* A present attribute in component format 5 to 7 or colour format 6, 7. */
    DUCKHAMMOCK_UNKNOWN_FORMAT = 10,
    /* A feed longer than the room in the ring, its size minus 1 minus count. */
    DUCKHAMMOCK_FEED_TOO_LONG = 11,
    /* The masks or numbers of a patch are not 256. */
    DUCKHAMMOCK_PATCH_LENGTH = 12,
    /* A patch names register FE or gives it a number. */
    DUCKHAMMOCK_PATCH_OF_MASK_REGISTER = 13,
    /* A mask above FFFFFF. */
    DUCKHAMMOCK_PATCH_MASK_TOO_WIDE = 14,
    /* A number with a bit outside its mask. */
    DUCKHAMMOCK_PATCH_NUMBER_OUTSIDE_MASK = 15,
    /* The output is shorter than what is written. */
    DUCKHAMMOCK_OUTPUT_SHORT = 16,
    /* A hardware offset that is not listed, or not to be read or written. */
    DUCKHAMMOCK_UNKNOWN_OFFSET = 17,
    /* A command to write that is a vertex, is none, or has a field out of
     * range. */
    DUCKHAMMOCK_UNWRITABLE_COMMAND = 18,
    /* An attribute number above 20, or a vertex not of the layout's length. */
    DUCKHAMMOCK_NOT_OF_LAYOUT = 19,
    /* A count of a recording is not its section's, or its stream is above
     * DUCKHAMMOCK_LONGEST_STREAM bytes. */
    DUCKHAMMOCK_WRONG_COUNT = 20,
    /* A number of a recording is too wide for its register. */
    DUCKHAMMOCK_NUMBER_TOO_WIDE = 21,
    /* A recording is cut, perhaps within a number, or its stream is shorter than
     * the stream's count. */
    DUCKHAMMOCK_FILE_SHORT = 22,
    /* Something follows the stream. */
    DUCKHAMMOCK_FILE_LONG = 23,
    /* The next unit is not all there. */
    DUCKHAMMOCK_WAITING = 255
};

/* Offsets of the 16-bit hardware registers. From DUCKHAMMOCK_OFFSET_START on a
 * register has two halves: the low one at its offset, the high one two above. */
enum duckhammock_offset {
    /* Read only. Bit 2: the pointers are equal; bit 3: no draw is open. */
    DUCKHAMMOCK_OFFSET_STATUS = 0x000,
    DUCKHAMMOCK_OFFSET_CONTROL = 0x002,
    /* Write only; a write changes nothing. */
    DUCKHAMMOCK_OFFSET_CLEAR = 0x004,
    DUCKHAMMOCK_OFFSET_START = 0x020,
    DUCKHAMMOCK_OFFSET_END = 0x024,
    DUCKHAMMOCK_OFFSET_HIGH_MARK = 0x028,
    DUCKHAMMOCK_OFFSET_LOW_MARK = 0x02C,
    /* Read only. */
    DUCKHAMMOCK_OFFSET_COUNT = 0x030,
    DUCKHAMMOCK_OFFSET_WRITE_POINTER = 0x034,
    DUCKHAMMOCK_OFFSET_READ_POINTER = 0x038,
    /* What is added for a high half. */
    DUCKHAMMOCK_OFFSET_HIGH_HALF = 0x002
};

/* Bits of the control and the status register. */
enum duckhammock_bit {
    DUCKHAMMOCK_CONTROL_READ_ENABLE = 0x01,
    DUCKHAMMOCK_CONTROL_LINKED = 0x10,
    DUCKHAMMOCK_STATUS_EMPTY = 0x04,
    DUCKHAMMOCK_STATUS_IDLE = 0x08
};

/*
 * The kinds of commands, and what their words a, b, c and d are; those not
 * named are 0 where a unit is told, and not looked at where one is written. The
 * ranges in brackets are those of a command to write; other numbers give 18.
 */
enum duckhammock_kind {
    DUCKHAMMOCK_KIND_NO_OPERATION = 0x00,
    /* A vertex of the open draw; once it is taken, its bytes are at the front
     * of the vertex buffer. It is never written. */
    DUCKHAMMOCK_KIND_VERTEX = 0x01,
    /* a address [8 bits, then 7], b number */
    DUCKHAMMOCK_KIND_LOAD_CP = 0x08,
    /* a words [1 to 16], b address [16 bits, then 8] */
    DUCKHAMMOCK_KIND_LOAD_XF = 0x10,
    /* Arrays 12 to 15: a index [16 bits], b words [1 to 16], c XF address [12
     * bits], d memory address [not looked at]. */
    DUCKHAMMOCK_KIND_LOAD_INDEXED_12 = 0x20,
    DUCKHAMMOCK_KIND_LOAD_INDEXED_13 = 0x28,
    DUCKHAMMOCK_KIND_LOAD_INDEXED_14 = 0x30,
    DUCKHAMMOCK_KIND_LOAD_INDEXED_15 = 0x38,
    /* a address, b size */
    DUCKHAMMOCK_KIND_CALL_LIST = 0x40,
    DUCKHAMMOCK_KIND_METRICS = 0x44,
    DUCKHAMMOCK_KIND_INVALIDATE_CACHE = 0x48,
    /* a register [8 bits], b number [24 bits] */
    DUCKHAMMOCK_KIND_LOAD_BP = 0x61,
    /* a primitive [0 to 7], b format [0 to 7], c vertex count [16 bits] */
    DUCKHAMMOCK_KIND_DRAW = 0x80
};

/* The words of a command, and of a unit, whose sixth is how many bytes it has. */
enum duckhammock_command_word {
    DUCKHAMMOCK_COMMAND_KIND = 0,
    DUCKHAMMOCK_COMMAND_A = 1,
    DUCKHAMMOCK_COMMAND_B = 2,
    DUCKHAMMOCK_COMMAND_C = 3,
    DUCKHAMMOCK_COMMAND_D = 4,
    DUCKHAMMOCK_COMMAND_WORDS = 5,
    DUCKHAMMOCK_UNIT_LENGTH = 5,
    DUCKHAMMOCK_UNIT_WORDS = 6
};

/* The words of a run's report: how many units were done, and how many bytes are
 * lacking where it waits, else 0. */
enum duckhammock_report_word {
    DUCKHAMMOCK_REPORT_UNITS = 0,
    DUCKHAMMOCK_REPORT_LACKING = 1,
    DUCKHAMMOCK_REPORT_WORDS = 2
};

/* The words that tell where a recording's stream stands in its file: its first byte,
 * and how many there are. */
enum duckhammock_stream_word {
    DUCKHAMMOCK_STREAM_PLACE = 0,
    DUCKHAMMOCK_STREAM_LENGTH = 1,
    DUCKHAMMOCK_STREAM_WORDS = 2
};

/* The attributes of a vertex, in their order. */
enum duckhammock_attribute {
    DUCKHAMMOCK_POSITION_MATRIX = 0,
    DUCKHAMMOCK_TEXTURE_MATRIX_0 = 1,
    DUCKHAMMOCK_TEXTURE_MATRIX_1 = 2,
    DUCKHAMMOCK_TEXTURE_MATRIX_2 = 3,
    DUCKHAMMOCK_TEXTURE_MATRIX_3 = 4,
    DUCKHAMMOCK_TEXTURE_MATRIX_4 = 5,
    DUCKHAMMOCK_TEXTURE_MATRIX_5 = 6,
    DUCKHAMMOCK_TEXTURE_MATRIX_6 = 7,
    DUCKHAMMOCK_TEXTURE_MATRIX_7 = 8,
    DUCKHAMMOCK_POSITION = 9,
    DUCKHAMMOCK_NORMAL = 10,
    DUCKHAMMOCK_COLOUR_0 = 11,
    DUCKHAMMOCK_COLOUR_1 = 12,
    DUCKHAMMOCK_TEXTURE_0 = 13,
    DUCKHAMMOCK_TEXTURE_1 = 14,
    DUCKHAMMOCK_TEXTURE_2 = 15,
    DUCKHAMMOCK_TEXTURE_3 = 16,
    DUCKHAMMOCK_TEXTURE_4 = 17,
    DUCKHAMMOCK_TEXTURE_5 = 18,
    DUCKHAMMOCK_TEXTURE_6 = 19,
    DUCKHAMMOCK_TEXTURE_7 = 20
};

/* What an attribute decodes to, with its values; floats by their bits. */
enum duckhammock_value {
    DUCKHAMMOCK_VALUE_ABSENT = 0,
    DUCKHAMMOCK_VALUE_MATRIX = 1,
    DUCKHAMMOCK_VALUE_INDEX = 2,
    DUCKHAMMOCK_VALUE_THREE_INDICES = 3,
    DUCKHAMMOCK_VALUE_COLOUR = 4,
    /* Three floats. */
    DUCKHAMMOCK_VALUE_POSITION = 5,
    /* Two floats. */
    DUCKHAMMOCK_VALUE_TEXTURE = 6,
    /* Three floats. */
    DUCKHAMMOCK_VALUE_NORMAL = 7,
    /* Nine floats. */
    DUCKHAMMOCK_VALUE_NORMAL_OF_NINE = 8
};

/* The fresh state. */
void duckhammock_fresh(uint32_t state[DUCKHAMMOCK_STATE_WORDS]);

/* Reads a 16-bit hardware register: 17, and of status and count 1. The control
 * register is read as its state word holds it, also where that is wider. */
uint32_t duckhammock_read_register(const uint32_t state[DUCKHAMMOCK_STATE_WORDS],
                                   uint16_t offset, uint32_t *value);

/* Writes a 16-bit hardware register: 17 alone. At most one state word of 0 to 6
 * changes. */
uint32_t duckhammock_write_register(uint32_t state[DUCKHAMMOCK_STATE_WORDS],
                                    uint16_t offset, uint16_t value);

/* Feeds bytes to the ring at the write pointer: 1, 11. The fed places and the
 * write pointer's state word change. */
uint32_t duckhammock_feed(uint32_t state[DUCKHAMMOCK_STATE_WORDS],
                          uint8_t *ring, size_t ring_len,
                          const uint8_t *bytes, size_t bytes_len);

/*
 * Looks at the next unit: 1 to 10, or waiting. Where it is all there, unit tells
 * the command's five words, an indexed load's memory address among them, and how
 * many bytes the unit has. Where it waits, *lacking is how many bytes are lacking,
 * as duckhammock_take counts them; else it stays. Nothing but these two changes:
 * the unit is not consumed and has no effect.
 *
 * The answer is that of duckhammock_take with the same arguments. A look and then
 * a take, with nothing between, return the same number and tell the same unit, or
 * the same bytes lacking; and so 2 and 3 are given too, although a look stores no
 * XF word and no vertex byte.
 */
uint32_t duckhammock_look(const uint32_t state[DUCKHAMMOCK_STATE_WORDS],
                          const uint8_t *ring, size_t ring_len,
                          const uint32_t *xf, size_t xf_len,
                          const uint8_t *vertex, size_t vertex_len,
                          uint32_t unit[DUCKHAMMOCK_UNIT_WORDS],
                          uint32_t *lacking);

/*
 * Takes the next unit: 1 to 10, or waiting. Where it was done, the state words are
 * those of the state after it, an XF load has stored its words in xf, a vertex's
 * bytes stand at the front of vertex and the rest of that stays, and unit tells
 * the command's five words and how many bytes the unit has.
 *
 * Where it waits, *lacking is how many bytes are lacking; else it stays. In an
 * empty ring with no draw open that is 1, the opcode, and then the rest of the
 * unit: of an XF load first the rest of its head of five bytes, then of its words;
 * in an open draw the rest of the vertex. It is at least 1 and never more than the
 * ring's free room (size - 1 - count), so a feed of just that many bytes is
 * accepted. A loader that always feeds that many needs at most three feeds for a
 * unit: the opcode, an XF load's head, the rest.
 */
uint32_t duckhammock_take(uint32_t state[DUCKHAMMOCK_STATE_WORDS],
                          const uint8_t *ring, size_t ring_len,
                          uint32_t *xf, size_t xf_len,
                          uint8_t *vertex, size_t vertex_len,
                          uint32_t unit[DUCKHAMMOCK_UNIT_WORDS],
                          uint32_t *lacking);

/*
 * Takes units until the limit, waiting or a refusal, 1 to 10, the limit tested
 * first; a run of limit 0 still gives 1 to 5. The report is told whatever the
 * answer. Where units were done, state words, xf and vertex are as those units
 * leave them, one take after the other. A run that waits tells the bytes lacking
 * as a look or a take at the same place would; one that its limit ended tells 0,
 * also where the ring is empty.
 */
uint32_t duckhammock_run(uint32_t state[DUCKHAMMOCK_STATE_WORDS],
                         const uint8_t *ring, size_t ring_len,
                         uint32_t *xf, size_t xf_len,
                         uint8_t *vertex, size_t vertex_len,
                         uint32_t limit,
                         uint32_t report[DUCKHAMMOCK_REPORT_WORDS]);

/*
 * The layout of a vertex: 9, 10. It tells how many bytes each attribute has, 0
 * where it is absent, the sum of those before it, and the length of the vertex.
 */
uint32_t duckhammock_lay_out(const uint32_t format[DUCKHAMMOCK_FORMAT_WORDS],
                             uint8_t sizes[DUCKHAMMOCK_ATTRIBUTES],
                             uint8_t offsets[DUCKHAMMOCK_ATTRIBUTES],
                             uint32_t *length);

/*
 * Decodes one attribute of a vertex of the layout's length: 9, 10, 19. It tells
 * the kind (enum duckhammock_value) and nine values, 0 where unused. A float is
 * told by its bits, every NaN as 7FC00000 (hex): duckhammock_raw_words keeps a
 * NaN's pattern. An integer component n is n / 2^s. For a normal s is 7 for u8, 6
 * for s8, 15 for u16 and 14 for s16, whatever bit 30 of group 0 of the VAT is;
 * for a position or a texture it is its shift in the VAT, but 0 for 8-bit
 * components where that bit is clear.
 */
uint32_t duckhammock_decode(const uint32_t format[DUCKHAMMOCK_FORMAT_WORDS],
                            uint32_t attribute,
                            const uint8_t *vertex, size_t vertex_len,
                            uint32_t values[DUCKHAMMOCK_VALUE_WORDS]);

/*
 * Decodes a whole vertex of the layout's length: 9, 10, 19 (the length alone). It
 * tells ten words for each attribute in order, word 10 k + i being what
 * duckhammock_decode tells of attribute k in values[i].
 */
uint32_t duckhammock_decode_all(const uint32_t format[DUCKHAMMOCK_FORMAT_WORDS],
                                const uint8_t *vertex, size_t vertex_len,
                                uint32_t values[DUCKHAMMOCK_VERTEX_WORDS]);

/*
 * The f32 components of one attribute as their bits stand in the vertex, a
 * NaN's too: 9, 10, 19. It tells how many there are, 0 where the attribute has
 * none, then nine words, 0 where unused.
 */
uint32_t duckhammock_raw_words(const uint32_t format[DUCKHAMMOCK_FORMAT_WORDS],
                               uint32_t attribute,
                               const uint8_t *vertex, size_t vertex_len,
                               uint32_t values[DUCKHAMMOCK_VALUE_WORDS]);

/*
 * Writes one command to the front of the output, and to *written how many bytes
 * that were: 18, 7, 8, 16. An XF load's words are lent beside it, as many as it
 * names; for other commands they are not looked at.
 */
uint32_t duckhammock_write_command(const uint32_t command[DUCKHAMMOCK_COMMAND_WORDS],
                                   const uint32_t *words, size_t words_len,
                                   uint8_t *output, size_t output_len,
                                   uint32_t *written);

/* Whether a patch (a correction sheet) is accepted: 12, then by register
 * ascending 13, 14, 15. */
uint32_t duckhammock_check_patch(const uint32_t *masks, size_t masks_len,
                                 const uint32_t *numbers, size_t numbers_len);

/* Merges the patches a and b into masks and numbers, 256 entries each too: the
 * bits that either names, b's where both do; every other bit of a number is 0.
 * 12 for any of the three, then a's faults, then b's. */
uint32_t duckhammock_merge_patches(const uint32_t *a_masks, size_t a_masks_len,
                                   const uint32_t *a_numbers, size_t a_numbers_len,
                                   const uint32_t *b_masks, size_t b_masks_len,
                                   const uint32_t *b_numbers, size_t b_numbers_len,
                                   uint32_t *masks, size_t masks_len,
                                   uint32_t *numbers, size_t numbers_len);

/* Writes a patch as commands to the front of the output, and to *written how
 * many bytes that were: 12 to 16. For each mask that is not 0 it is a load of
 * register FE and one of the register. */
uint32_t duckhammock_write_patch(const uint32_t *masks, size_t masks_len,
                                 const uint32_t *numbers, size_t numbers_len,
                                 uint8_t *output, size_t output_len,
                                 uint32_t *written);

/*
 * Recordings. The file's sections stand in this order, each after its count: 256 BP
 * registers; 60 CP registers, in the order of the state's words 11 to 70; 4,184 XF
 * words; the stream's bytes, 0 to DUCKHAMMOCK_LONGEST_STREAM. Counts and numbers are 4
 * bytes, big-endian, and nothing follows. So the numbers stand in the first 18,016
 * bytes, the head, the stream's count in its last four, and the stream from byte 18,016
 * on.
 *
 * A BP register has 24 bits, an array base 26 and a stride 8; every other register and
 * an XF word have 32 and are never too wide. A number that is not whole is no number:
 * it gives 22, also where its first bytes are too wide or a wrong count already. A
 * stream's count above the longest gives 20, whatever follows it. A library from before
 * this limit has 65,535 for the longest stream: a recording that it accepts is read alike
 * here, a stream of at most 65,535 bytes is written as the same bytes, and a recording
 * with a longer stream it refuses by 20, at byte 18,012.
 */

/*
 * Reads a recording: 2, then 20 to 23 by the first place in the file. The state's
 * words 11 to 326 become the file's CP and BP registers, words 7 to 10 become 0 (no
 * draw is open), words 0 to 6 (window and control) stay, whatever they hold; xf becomes
 * the file's XF words; and stream tells where the stream stands in the file: it is to
 * be fed to an empty ring.
 */
uint32_t duckhammock_read_recording(uint32_t state[DUCKHAMMOCK_STATE_WORDS],
                                    const uint8_t *file, size_t file_len,
                                    uint32_t *xf, size_t xf_len,
                                    uint32_t stream[DUCKHAMMOCK_STREAM_WORDS]);

/*
 * The same of a recording's head alone, for a caller who does not hold the whole file:
 * 2, then 20 to 22. The head is the file's first 18,016 bytes, or fewer where the file
 * is shorter; what stands behind them is not looked at. *length tells the stream's
 * length by its count. To read a head and then to check the rest is to read the file,
 * but that the state and xf have changed already where the rest is refused.
 */
uint32_t duckhammock_read_recording_head(uint32_t state[DUCKHAMMOCK_STATE_WORDS],
                                         const uint8_t *head, size_t head_len,
                                         uint32_t *xf, size_t xf_len,
                                         uint32_t *length);

/* Whether so many bytes behind the head are the stream that the head tells: 22 where
 * they are fewer than length, 23 where they are more. */
uint32_t duckhammock_check_recording_rest(uint32_t length, size_t rest);

/*
 * No refusal, but where the first fault of a recording's head stands: of a wrong count
 * or a number too wide its first byte; of a number that is not whole the first byte
 * that is not there, head_len; and 18,016 where none is found. What stands behind the
 * first 18,016 bytes is not looked at: 22 of a stream that is cut stands at the file's
 * length, and 23 at 18,016 plus the length that the head tells.
 */
uint32_t duckhammock_find_recording_fault(const uint8_t *head, size_t head_len);

/*
 * Writes a recording to the front of the output, and to *written how many bytes that
 * were, 18,016 and the stream's: 1, 2, 20, 16. Of the state only words 11 to 326 are
 * looked at, so that 1 is given for a BP register, an array base or a stride alone;
 * an open draw and what the ring holds are not recorded.
 * What is written is accepted by duckhammock_read_recording and gives the same
 * registers, XF words and stream; and an accepted file is just what is written for
 * what it holds.
 */
uint32_t duckhammock_write_recording(const uint32_t state[DUCKHAMMOCK_STATE_WORDS],
                                     const uint32_t *xf, size_t xf_len,
                                     const uint8_t *stream, size_t stream_len,
                                     uint8_t *output, size_t output_len,
                                     uint32_t *written);

/* Writes the head alone of the recording that duckhammock_write_recording writes for a
 * stream of length bytes: 1, 2, 20, 16. *written is then 18,016. */
uint32_t duckhammock_write_recording_head(const uint32_t state[DUCKHAMMOCK_STATE_WORDS],
                                          const uint32_t *xf, size_t xf_len,
                                          size_t length,
                                          uint8_t *output, size_t output_len,
                                          uint32_t *written);

#ifdef __cplusplus
}
#endif

#endif
