//! Every refusal from every call that can give it, whatever the seed.

use crate::call::Patch;
use crate::duo::Duo;
use crate::world::{word, USUAL};

pub fn every_refusal(duo: &mut Duo) {
    duo.scenario("every refusal");
    of_state(duo);
    of_wide_words(duo);
    of_lent_lengths(duo);
    of_units(duo);
    of_vertices(duo);
    of_registers_and_feeds(duo);
    of_the_writer(duo);
    of_patches(duo);
}

/// A good bench for the next refusal: a ring of 256 bytes at 1000, empty,
/// position present as two bytes. A draw's words are stale.
pub fn good_bench(duo: &mut Duo) {
    duo.fresh();
    duo.hold(USUAL);
    for (index, value) in [
        (word::START, 0x1000),
        (word::END, 0x1100),
        (word::WRITE, 0x10F8),
        (word::READ, 0x10F8),
        (word::CONTROL, 1),
        (word::VCD_0, 0x200),
        (word::PRIMITIVE, 0x109),
        (word::FORMAT, 0x10A),
        (word::LEFT, 0x1_000B),
    ] {
        duo.poke(index, value);
    }
}

/// State words and what they become.
type Change<'a> = &'a [(usize, u32)];

/// Changes of a good bench, each followed by every call that looks.
fn probe_each(duo: &mut Duo, changes: &[Change]) {
    for change in changes {
        good_bench(duo);
        for &(index, value) in *change {
            duo.poke(index, value);
        }
        probe(duo);
    }
}

fn probe(duo: &mut Duo) {
    for offset in [0x000, 0x002, 0x030, 0x032] {
        duo.read(offset);
    }
    duo.feed(&[0x00, 0x00]);
    duo.look();
    duo.run(0);
    duo.look_and_take();
    duo.run(1);
    duo.write(0x02C, 0x1234);
    duo.write(0x002, 0xFFFF);
}

/// 1, 4 and 5 of feed, look, take, run, count and status.
fn of_state(duo: &mut Duo) {
    probe_each(
        duo,
        &[
            &[(0, 0x1010)],
            &[(0, 0x1010), (1, 0x1110)],
            &[(1, 0x1110)],
            &[(1, 0x10E0), (4, 0x1000), (5, 0x1000)],
            &[(1, 0x10_1020)],
            &[(1, 0x0F00)],
            &[(4, 0x0FFF)],
            &[(4, 0x1100)],
            &[(5, 0x0FFF)],
            &[(5, 0x1100)],
            &[(71, 0x100_0000)],
            &[(326, 0x100_0000)],
            &[(39, 0x400_0000)],
            &[(54, 0x400_0000)],
            &[(55, 0x100)],
            &[(70, 0x100)],
            &[(6, 0x41)],
            &[(7, 1), (8, 0), (9, 0), (10, 0)],
            &[(7, 1), (8, 8), (9, 0), (10, 1)],
            &[(7, 1), (8, 0), (9, 8), (10, 1)],
            &[(6, 0)],
            &[(6, 0x11)],
        ],
    );
}

/// 1 of words that are good modulo some width.
fn of_wide_words(duo: &mut Duo) {
    probe_each(
        duo,
        &[
            &[(6, 0x101)],
            &[(6, 0x1_0001)],
            &[(6, 0x8000_0001)],
            &[(7, 2), (8, 0), (9, 0), (10, 1)],
            &[(7, 0x101), (8, 0), (9, 0), (10, 1)],
            &[(7, 0x1_0001), (8, 0), (9, 0), (10, 1)],
            &[(7, 0x100)],
            &[(7, 0x1_0000)],
            &[(7, 1), (8, 0x102), (9, 0), (10, 1)],
            &[(7, 1), (8, 0x1_0002), (9, 0), (10, 1)],
            &[(7, 1), (8, 0), (9, 0x102), (10, 1)],
            &[(7, 1), (8, 0), (9, 0x1_0002), (10, 1)],
            &[(7, 1), (8, 0), (9, 0), (10, 0x1_0000)],
            &[(7, 1), (8, 0), (9, 0), (10, 0x1_0001)],
            &[(7, 1), (8, 0), (9, 0), (10, 0xFFFF)],
            &[(7, 1), (8, 7), (9, 7), (10, 1)],
        ],
    );
}

/// 1, 2 and 3, also with what comes later in the order.
fn of_lent_lengths(duo: &mut Duo) {
    for (ring, xf, vertex) in [
        (255, 4184, 129),
        (257, 4184, 129),
        (0, 4184, 129),
        (256, 4183, 129),
        (256, 4185, 129),
        (256, 0, 129),
        (256, 4184, 128),
        (256, 4184, 0),
        (256, 4184, 130),
        (255, 4183, 128),
        (256, 4183, 128),
    ] {
        for control in [1, 0x10] {
            good_bench(duo);
            duo.lend(ring, xf, vertex);
            duo.poke(word::CONTROL, control);
            probe(duo);
        }
    }
}

/// 6 to 10 of look, take and run, each byte by byte.
fn of_units(duo: &mut Duo) {
    let bad_position = (word::VAT, 5 << 1);
    let draw = [(7, 1), (8, 0), (9, 0), (10, 1)];
    let absent = (word::VCD_0, 0);
    let cases: [(Change, &[u8]); 8] = [
        (&[], &[0x01]),
        (&[], &[0x68, 0x44]),
        (&[], &[0x08, 0x21, 0]),
        (&[], &[0x10, 0, 1, 0x10, 0x57, 0]),
        (&[absent], &[0x80, 0, 0]),
        (&[bad_position], &[0x80, 0, 0]),
        (&[absent, draw[0], draw[1], draw[2], draw[3]], &[0, 0, 0]),
        (
            &[bad_position, draw[0], draw[1], draw[2], draw[3]],
            &[0, 0, 0],
        ),
    ];
    for (changes, bytes) in cases {
        good_bench(duo);
        for &(index, value) in changes {
            duo.poke(index, value);
        }
        duo.look_and_take();
        duo.run(1);
        for &byte in bytes {
            duo.feed(&[byte]);
            duo.look_and_take();
            duo.run(1);
        }
    }
}

/// 9, 10 and 19 of layouts, attributes and raw words.
fn of_vertices(duo: &mut Duo) {
    for (vcd, vat, attribute, length) in [
        (0, 10, 21, 1),
        (0x200, 10, 21, 1),
        (0x200, 0, 21, 2),
        (0x200, 0, 256 + 9, 2),
        (0x200, 0, 0x1_0009, 2),
        (0x200, 0, 20, 1),
        (0x200, 0, 20, 2),
        (0x200, 0, 20, 258),
        (0x200, 0, 20, 0),
    ] {
        let format = [vcd, 0, vat, 0, 0];
        let vertex = vec![1; length];
        duo.lay_out(&format);
        duo.decode(&format, attribute, &vertex);
        duo.decode_all(&format, &vertex);
        duo.raw_words(&format, attribute, &vertex);
    }
}

/// 11 and 17.
fn of_registers_and_feeds(duo: &mut Duo) {
    good_bench(duo);
    duo.feed(&[0; 256]);
    duo.feed(&[0; 255]);
    duo.feed(&[0]);
    duo.feed(&[]);
    for offset in [
        0x000, 0x001, 0x004, 0x006, 0x00E, 0x01E, 0x030, 0x032, 0x03C, 0x120, 0xFFFE,
    ] {
        duo.read(offset);
        duo.write(offset, 0xFFFF);
    }
}

/// 18, 7, 8 and 16, in this order.
fn of_the_writer(duo: &mut Duo) {
    let lent = [9; 17];
    for (command, words, output) in [
        ([0x01, 0, 0, 0, 0], 0, 9),
        ([0x02, 0, 0, 0, 0], 0, 9),
        ([0x68, 0, 0, 0, 0], 0, 9),
        ([0x68, 0, 0, 0, 0], 0, 0),
        ([0x144, 0, 0, 0, 0], 0, 9),
        ([0x161, 0, 0, 0, 0], 0, 9),
        ([0x08, 0x120, 0, 0, 0], 0, 0),
        ([0x08, 0x21, 0, 0, 0], 0, 0),
        ([0x08, 0x20, 0, 0, 0], 0, 5),
        ([0x10, 0, 0, 0, 0], 0, 99),
        ([0x10, 17, 0, 0, 0], 17, 99),
        ([0x10, 2, 9999, 0, 0], 1, 0),
        ([0x10, 2, 9999, 0, 0], 3, 0),
        ([0x10, 2, 9999, 0, 0], 2, 0),
        ([0x10, 2, 0x1_0000, 0, 0], 2, 0),
        ([0x10, 0x102, 0, 0, 0], 2, 99),
        ([0x10, 2, 4183, 0, 0], 2, 99),
        ([0x10, 2, 4182, 0, 0], 2, 12),
        ([0x28, 0x1_0000, 1, 0, 0], 0, 9),
        ([0x30, 0, 17, 0, 0], 0, 9),
        ([0x30, 0, 0, 0, 0], 0, 9),
        ([0x38, 0, 16, 0x1000, 0], 0, 9),
        ([0x61, 0xFE, 0x100_0000, 0, 0], 0, 9),
        ([0x61, 0x141, 0, 0, 0], 0, 9),
        ([0x80, 8, 0, 0, 0], 0, 9),
        ([0x80, 7, 8, 0, 0], 0, 9),
        ([0x80, 7, 7, 0x1_0000, 0], 0, 9),
        ([0x80, 7, 7, 0xFFFF, 0], 0, 2),
    ] {
        duo.write_command(command, &lent[..words], output);
    }
}

/// 12 to 16 of patches checked, merged on either side and written.
fn of_patches(duo: &mut Duo) {
    let empty = Patch::empty();
    let mut short = Patch::empty();
    short.numbers.pop();
    let mut long = Patch::of(&[(0xFE, 1, 0)]);
    long.masks.push(0);
    for patch in [
        short,
        long,
        Patch::of(&[(0xFE, 0x100_0000, 0)]),
        Patch::of(&[(0xFE, 0, 1)]),
        Patch::of(&[(0x41, 0x100_0000, 1)]),
        Patch::of(&[(0x41, 0xFF_FFFF, 0x100_0000)]),
        Patch::of(&[(0x41, 0x0F, 0x10)]),
        Patch::of(&[(0x41, 0, 1), (0xFE, 1, 0)]),
        Patch::of(&[(0xFF, 1, 0)]),
    ] {
        duo.check_patch(&patch);
        duo.merge_patches(&patch, &Patch::of(&[(0, 0x200_0000, 0)]), 256, 256);
        duo.merge_patches(&empty, &patch, 256, 256);
        duo.merge_patches(&patch, &patch, 257, 256);
        duo.merge_patches(&patch, &empty, 256, 0);
        duo.write_patch(&patch, 9);
        duo.write_patch(&patch, 10);
    }
}
