/*
 * Sets a window, feeds a few commands, looks at each unit and then takes it, and
 * decodes a position; loads a stream that is read piece by piece, each piece just
 * as long as the processor says is lacking; then checks, merges and writes two
 * patches of one BP register, feeds them, runs and reads the register back; and
 * writes all registers and a stream as a recording, reads it back in two parts on a
 * fresh machine and runs its stream. Ends with 0 only where all was as expected.
 */
#include "duckhammock.h"

#include <inttypes.h>
#include <stdbool.h>
#include <stdio.h>
#include <stdlib.h>

enum { RING_START = 0x1000, RING_BYTES = 256, HALF_BITS = 16, NO_WORDS = 0, FRONT = 0 };
/* A draw of one vertex: a direct position of three unsigned bytes. */
enum { CP_VCD_0 = 0x50, CP_VAT_0 = 0x70, DIRECT_POSITION = 0x200, THREE_BYTES = 0x1 };
enum { TRIANGLES = 2, FORMAT = 0, VERTICES = 1, X = 1, Y = 2, Z = 3, AXES = 3 };
enum { ONE = 0x3F800000, TWO = 0x40000000, THREE = 0x40400000 }; /* f32 by their bits */
enum { VALUE_KIND, VALUE_X, VALUE_Y, VALUE_Z };
/* Two people's corrections of one BP register: four bits each. */
enum { REGISTER = 0x41, MASK_REGISTER = 0xFE, EVERY_BIT = 0xFFFFFF };
enum { FIRST_MASK = 0x0F, FIRST_NUMBER = 0x05, SECOND_MASK = 0xF0, SECOND_NUMBER = 0x30 };
enum { MERGED_MASK = 0xFF, MERGED_NUMBER = 0x35, BEFORE = 0x123456, AFTER = 0x123435 };
/* A stream to load: one XF word, and a no-operation. */
enum { XF_PLACE = 5, XF_WORD = 0x3F800000, STREAM_UNITS = 2 };
enum { XF_LOAD_FEEDS = 3, STREAM_FEEDS = XF_LOAD_FEEDS + 1 };
/* The commands and the vertex; the loads of two patches; those of BEFORE and of one. */
enum { COMMAND_UNITS = 5, TWO_PATCHES_UNITS = 4, MERGED_UNITS = 3 };
/* A recording's stream: the register becomes BEFORE again. A file that is cut. */
enum { RECORDED_UNITS = 1, RECORDED_BYTES = 5, HEAD_BYTES = DUCKHAMMOCK_RECORDING_HEAD_BYTES };
enum { CUT = HEAD_BYTES - 1 };

typedef struct {
    uint32_t masks[DUCKHAMMOCK_PATCH_ENTRIES], numbers[DUCKHAMMOCK_PATCH_ENTRIES];
} patch;

static const uint32_t commands[][DUCKHAMMOCK_COMMAND_WORDS] = {
    { DUCKHAMMOCK_KIND_LOAD_BP, REGISTER, BEFORE },
    { DUCKHAMMOCK_KIND_LOAD_CP, CP_VCD_0, DIRECT_POSITION },
    { DUCKHAMMOCK_KIND_LOAD_CP, CP_VAT_0, THREE_BYTES },
    { DUCKHAMMOCK_KIND_DRAW, TRIANGLES, FORMAT, VERTICES }
};
static const uint8_t bytes_of_vertex[AXES] = { X, Y, Z };
static const uint8_t stream[] = { 0x10, 0x00, 0x00, 0x00, XF_PLACE, 0x3F, 0x80, 0x00, 0x00, 0x00 };
static const uint8_t recorded[RECORDED_BYTES] = { 0x61, REGISTER, 0x12, 0x34, 0x56 };
static const patch first = { { [REGISTER] = FIRST_MASK }, { [REGISTER] = FIRST_NUMBER } };
static const patch second = { { [REGISTER] = SECOND_MASK }, { [REGISTER] = SECOND_NUMBER } };

static uint32_t state[DUCKHAMMOCK_STATE_WORDS], xf[DUCKHAMMOCK_XF_WORDS], written;
static uint8_t ring[RING_BYTES], vertex[DUCKHAMMOCK_VERTEX_BYTES], output[DUCKHAMMOCK_PATCH_BYTES];
static uint8_t file[HEAD_BYTES + RECORDED_BYTES];
static patch merged;
static bool wrong;
#define LENT ring, sizeof ring, xf, DUCKHAMMOCK_XF_WORDS, vertex, sizeof vertex
#define WHOLE(p) (p).masks, DUCKHAMMOCK_PATCH_ENTRIES, (p).numbers, DUCKHAMMOCK_PATCH_ENTRIES

/* Silent where it is as expected. */
static void expect(const char *what, uint32_t found, uint32_t expected)
{
    if (found != expected) {
        printf("%s: %" PRIX32 " and not %" PRIX32 "\n", what, found, expected);
        wrong = true;
    }
}

static void done(const char *what, uint32_t answer) { expect(what, answer, DUCKHAMMOCK_DONE); }

/* Both halves of a window register. */
static void write_word(uint16_t offset, uint32_t word)
{
    uint16_t high = (uint16_t)(offset + DUCKHAMMOCK_OFFSET_HIGH_HALF);
    done("low half", duckhammock_write_register(state, offset, (uint16_t)word));
    done("high half", duckhammock_write_register(state, high, (uint16_t)(word >> HALF_BITS)));
}

static void feed(const char *what, const uint8_t *bytes, size_t length)
{
    done("feed", duckhammock_feed(state, ring, sizeof ring, bytes, length));
    printf("fed %s, %u byte%s\n", what, (unsigned)length, length == 1 ? "" : "s");
}

static void feed_command(const uint32_t *words)
{
    done("write", duckhammock_write_command(words, xf, NO_WORDS, output, sizeof output, &written));
    feed("a command", output, written);
}

static void feed_patch(const char *what, const patch *p)
{
    done("write", duckhammock_write_patch(WHOLE(*p), output, sizeof output, &written));
    feed(what, output, written);
}

/* Shows each unit and then takes it: the take must tell the same. */
static void look_and_take(void)
{
    uint32_t seen[DUCKHAMMOCK_UNIT_WORDS] = { 0 }, taken[DUCKHAMMOCK_UNIT_WORDS] = { 0 }, lacking;
    for (uint32_t unit = 0; unit < COMMAND_UNITS; unit++) {
        done("look", duckhammock_look(state, LENT, seen, &lacking));
        printf("next: kind %02" PRIX32 ", %" PRIX32 " %" PRIX32 ", %" PRIu32 " bytes\n",
               seen[DUCKHAMMOCK_COMMAND_KIND], seen[DUCKHAMMOCK_COMMAND_A],
               seen[DUCKHAMMOCK_COMMAND_B], seen[DUCKHAMMOCK_UNIT_LENGTH]);
        done("take", duckhammock_take(state, LENT, taken, &lacking));
        for (size_t at = FRONT; at < DUCKHAMMOCK_UNIT_WORDS; at++)
            expect("word of a unit", taken[at], seen[at]);
    }
    expect("last look", duckhammock_look(state, LENT, seen, &lacking), DUCKHAMMOCK_WAITING);
    expect("last take", duckhammock_take(state, LENT, taken, &lacking), DUCKHAMMOCK_WAITING);
}

/* VCD 0 and 1 and format 0's VAT stand in the state one after the other. */
static void decode_position(void)
{
    uint32_t values[DUCKHAMMOCK_VALUE_WORDS];
    done("decode", duckhammock_decode(state + DUCKHAMMOCK_VCD_0, DUCKHAMMOCK_POSITION, vertex,
                                      sizeof bytes_of_vertex, values));
    expect("kind", values[VALUE_KIND], DUCKHAMMOCK_VALUE_POSITION);
    expect("x", values[VALUE_X], ONE);
    expect("y", values[VALUE_Y], TWO);
    expect("z", values[VALUE_Z], THREE);
    printf("position: %08" PRIX32 " %08" PRIX32 " %08" PRIX32 "\n", values[VALUE_X],
           values[VALUE_Y], values[VALUE_Z]);
}

/* Runs, and where the run waits reads and feeds just the bytes that are lacking. */
static void load(const uint8_t *bytes, size_t length)
{
    uint32_t report[DUCKHAMMOCK_REPORT_WORDS], answer, lacking, loaded = 0, feeds = 0;
    for (;;) {
        answer = duckhammock_run(state, LENT, DUCKHAMMOCK_MOST_UNITS, report);
        loaded += report[DUCKHAMMOCK_REPORT_UNITS];
        lacking = report[DUCKHAMMOCK_REPORT_LACKING];
        if (answer != DUCKHAMMOCK_WAITING || lacking == 0 || length < lacking)
            break;
        feed("what is lacking", bytes, lacking);
        bytes += lacking;
        length -= lacking;
        feeds++;
    }
    expect("last run", answer, DUCKHAMMOCK_WAITING);
    expect("bytes left", (uint32_t)length, 0);
    expect("units", loaded, STREAM_UNITS);
    expect("feeds", feeds, STREAM_FEEDS);
    expect("XF word", xf[XF_PLACE], XF_WORD);
    printf("loaded: XF word %d holds %08" PRIX32 "\n", XF_PLACE, xf[XF_PLACE]);
}

/* Runs all that was fed, so many units; the register must then hold the number. */
static void run(uint32_t units, uint32_t number)
{
    uint32_t report[DUCKHAMMOCK_REPORT_WORDS];
    uint32_t answer = duckhammock_run(state, LENT, DUCKHAMMOCK_MOST_UNITS, report);
    expect("run", answer, DUCKHAMMOCK_WAITING);
    expect("units", report[DUCKHAMMOCK_REPORT_UNITS], units);
    printf("run: register %X holds %06" PRIX32 "\n", REGISTER, state[DUCKHAMMOCK_BP + REGISTER]);
    expect("register", state[DUCKHAMMOCK_BP + REGISTER], number);
    expect("mask register", state[DUCKHAMMOCK_BP + MASK_REGISTER], EVERY_BIT);
}

/* A fresh state with an empty ring that is read. */
static void start(void)
{
    duckhammock_fresh(state);
    write_word(DUCKHAMMOCK_OFFSET_START, RING_START);
    write_word(DUCKHAMMOCK_OFFSET_END, RING_START + RING_BYTES);
    write_word(DUCKHAMMOCK_OFFSET_WRITE_POINTER, RING_START);
    write_word(DUCKHAMMOCK_OFFSET_READ_POINTER, RING_START);
    done("control", duckhammock_write_register(state, DUCKHAMMOCK_OFFSET_CONTROL,
                                               DUCKHAMMOCK_CONTROL_READ_ENABLE));
}

/* All registers and XF words as they are, and the stream. */
static void write_recording(void)
{
    done("write", duckhammock_write_recording(state, xf, DUCKHAMMOCK_XF_WORDS, recorded,
                                              sizeof recorded, file, sizeof file, &written));
    expect("written", written, sizeof file);
    expect("fault", duckhammock_find_recording_fault(file, written), HEAD_BYTES);
    expect("fault of a cut file", duckhammock_find_recording_fault(file, CUT), CUT);
    printf("recorded, %" PRIu32 " bytes\n", written);
}

/* First the head, then what is behind it, as a caller does who holds a part at a time. */
static void read_recording(void)
{
    uint32_t length = 0, answer;
    answer = duckhammock_read_recording_head(state, file, CUT, xf, DUCKHAMMOCK_XF_WORDS, &length);
    expect("cut file", answer, DUCKHAMMOCK_FILE_SHORT);
    done("head", duckhammock_read_recording_head(state, file, HEAD_BYTES, xf,
                                                 DUCKHAMMOCK_XF_WORDS, &length));
    done("rest", duckhammock_check_recording_rest(length, written - HEAD_BYTES));
    expect("register", state[DUCKHAMMOCK_BP + REGISTER], AFTER);
    expect("XF word", xf[XF_PLACE], XF_WORD);
    feed("a recording's stream", file + HEAD_BYTES, length);
}

int main(void)
{
    start();
    for (size_t at = FRONT; at < sizeof commands / sizeof *commands; at++)
        feed_command(commands[at]);
    feed("a vertex", bytes_of_vertex, sizeof bytes_of_vertex);
    look_and_take();
    decode_position();
    load(stream, sizeof stream);
    done("check", duckhammock_check_patch(WHOLE(first)));
    done("check", duckhammock_check_patch(WHOLE(second)));
    done("merge", duckhammock_merge_patches(WHOLE(first), WHOLE(second), WHOLE(merged)));
    expect("merged mask", merged.masks[REGISTER], MERGED_MASK);
    expect("merged number", merged.numbers[REGISTER], MERGED_NUMBER);
    feed_patch("the first patch", &first);
    feed_patch("the second patch", &second);
    run(TWO_PATCHES_UNITS, AFTER);
    feed_command(commands[FRONT]);
    feed_patch("both merged", &merged);
    run(MERGED_UNITS, AFTER);
    write_recording();
    start();
    xf[XF_PLACE] = 0;
    read_recording();
    run(RECORDED_UNITS, BEFORE);
    return wrong ? EXIT_FAILURE : EXIT_SUCCESS;
}
