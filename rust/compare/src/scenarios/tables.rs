//! Every row of the tables once: CP addresses, units, commands, arrays,
//! attributes, normals, textures, colours, and a merge of patches that name the
//! same bits.

use crate::call::Patch;
use crate::duo::Duo;
use crate::scenarios::refusals::good_bench;
use crate::world::word;

pub fn every_table_row(duo: &mut Duo) {
    duo.scenario("every row of the tables");
    cp_addresses(duo);
    units(duo);
    commands(duo);
    arrays(duo);
    attributes(duo);
    normals(duo);
    textures(duo);
    colours(duo);
    let a = Patch::of(&[(0x41, 0x00_FFFF, 0x00_5A5A)]);
    let b = Patch::of(&[(0x41, 0xFF_FF00, 0xA5_0F00)]);
    duo.merge_patches(&a, &b, 256, 256);
    duo.merge_patches(&b, &a, 256, 256);
}

fn cp_addresses(duo: &mut Duo) {
    for address in 0..=255 {
        duo.write_command([0x08, address, 0x1234_5678, 0, 0], &[], 6);
    }
    for address in [
        0x1F, 0x20, 0x21, 0x2F, 0x30, 0x4F, 0x5A, 0x6F, 0x70, 0x77, 0x78, 0x7F, 0x80, 0x87, 0x88,
        0x90, 0x97, 0x98, 0x9F, 0xA0, 0xAF, 0xB0, 0xBF, 0xC0, 0xFF,
    ] {
        good_bench(duo);
        duo.feed(&[0x08, address]);
        duo.look_and_take();
        duo.feed(&[0xFF; 4]);
        duo.look_and_take();
    }
}

/// Units that no other part of the fixed calls has.
fn units(duo: &mut Duo) {
    good_bench(duo);
    duo.feed(&[0x40, 1, 2, 3, 4, 5, 6, 7, 8, 0x00, 0x48, 0x44, 0x80, 0, 1]);
    duo.feed(&[9, 9]);
    for _ in 0..6 {
        duo.look_and_take();
    }
}

/// Each kind of command, written.
fn commands(duo: &mut Duo) {
    for kind in [
        0x00, 0x08, 0x10, 0x20, 0x28, 0x30, 0x38, 0x40, 0x44, 0x48, 0x61, 0x80,
    ] {
        // An XF load's one word, and a CP address that is listed.
        let a = if kind == 0x08 { 0x30 } else { 1 };
        duo.write_command([kind, a, 5, 7, 9], &[0x1234_5678], 9);
    }
}

/// Each kind of attribute: a matrix, floats, a colour, indices of both widths,
/// a normal of nine.
fn attributes(duo: &mut Duo) {
    let vertex: Vec<u8> = (0x70..0x70 + 38).collect();
    for (format, length) in [
        ([0x2A01, 0x09, 0x4621_4C09, 0, 0], 26),
        ([0xA00, 0, 0x1200, 0, 0], 38),
        ([0x1A00, 0, 0x8000_0200, 0, 0], 8),
        ([0x1200, 0, 0x8000_0200, 0, 0], 5),
    ] {
        duo.lay_out(&format);
        for attribute in 0..21 {
            duo.decode(&format, attribute, &vertex[..length]);
            duo.raw_words(&format, attribute, &vertex[..length]);
        }
        duo.decode_all(&format, &vertex[..length]);
    }
}

/// Normals of three components and of nine in every format, bit 30 clear and
/// set.
fn normals(duo: &mut Duo) {
    let vertex: Vec<u8> = (0..38).map(|at: u8| at.wrapping_mul(0x35)).collect();
    for (number, bytes) in [(0, 1), (1, 1), (2, 2), (3, 2), (4, 4)] {
        for (nine, components) in [(0, 3), (1 << 9, 9)] {
            for bit_30 in [0, 1 << 30] {
                let format = [0xA00, 0, nine | number << 10 | bit_30, 0, 0];
                let vertex = &vertex[..2 + components * bytes];
                duo.decode(&format, 10, vertex);
                duo.decode_all(&format, vertex);
                duo.raw_words(&format, 10, vertex);
            }
        }
    }
}

/// Each indexed load with a base and a stride of its own.
fn arrays(duo: &mut Duo) {
    good_bench(duo);
    for array in 0..4 {
        duo.poke(word::BASES + 12 + array, 0x100_0000 * array as u32 + 5);
        duo.poke(word::STRIDES + 12 + array, 16 * array as u32 + 192);
        duo.feed(&[0x20 + 8 * array as u8, 0x12, 0x34, 0x9A, 0xBC]);
        duo.look_and_take();
    }
}

/// Each texture with each bit of its shift, in every format.
fn textures(duo: &mut Duo) {
    const PLACES: [[(usize, u32); 3]; 8] = [
        [(2, 21), (2, 22), (2, 25)],
        [(3, 0), (3, 1), (3, 4)],
        [(3, 9), (3, 10), (3, 13)],
        [(3, 18), (3, 19), (3, 22)],
        [(3, 27), (3, 28), (4, 0)],
        [(4, 5), (4, 6), (4, 9)],
        [(4, 14), (4, 15), (4, 18)],
        [(4, 23), (4, 24), (4, 27)],
    ];
    let vertex = [0, 0, 0x81, 0x42, 0x43, 0x44, 0xC5, 0x46, 0x47, 0x48];
    for (texture, [count, kind, shift]) in PLACES.into_iter().enumerate() {
        for (number, bytes) in [(0, 1), (1, 1), (2, 2), (3, 2), (4, 4)] {
            let mut format = [0x200, 1 << (2 * texture), 1 << 30, 0, 0];
            format[count.0] |= 1 << count.1;
            format[kind.0] |= number << kind.1;
            format[shift.0] |= (0x11 + number) << shift.1;
            let vertex = &vertex[..2 + 2 * bytes];
            duo.decode_all(&format, vertex);
            duo.decode(&format, 13 + texture as u32, vertex);
            duo.raw_words(&format, 13 + texture as u32, vertex);
        }
    }
}

fn colours(duo: &mut Duo) {
    for format in 0..8 {
        let vat = format << 14 | format << 18;
        for vcd in [0x2200, 0x8200, 0x4200, 0x1_8200] {
            duo.lay_out(&[vcd, 0, vat, 0, 0]);
        }
    }
}
