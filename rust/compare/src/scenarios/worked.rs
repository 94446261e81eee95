//! Document 01's worked numbers.

use crate::call::Patch;
use crate::duo::Duo;
use crate::world::{word, USUAL};
use model::MOST_UNITS;

pub fn worked(duo: &mut Duo) {
    duo.scenario("worked numbers");
    duo.fresh();
    duo.hold(USUAL);
    for (index, value) in [
        (word::START, 0x1000),
        (word::END, 0x1100),
        (word::WRITE, 0x1003),
        (word::READ, 0x10FE),
        (word::CONTROL, 1),
    ] {
        duo.poke(index, value);
    }
    duo.read(0x030);
    duo.poke(word::READ, 0x1003);
    layouts(duo);
    components(duo);
    units(duo);
    patches(duo);
}

fn layouts(duo: &mut Duo) {
    // The longest: all components f32, largest counts, colour format 5.
    let longest = [
        1 | 4 << 1 | 1 << 9 | 4 << 10 | 5 << 14 | 5 << 18 | 1 << 21 | 4 << 22,
        1 | 4 << 1 | 1 << 9 | 4 << 10 | 1 << 18 | 4 << 19 | 1 << 27 | 4 << 28,
        1 << 5 | 4 << 6 | 1 << 14 | 4 << 15 | 1 << 23 | 4 << 24,
    ];
    for format in [
        [0x200, 0, 9, 0, 0],
        [0x2200, 0, 0x14009, 0, 0],
        [0xABFF, 0x5555, longest[0], longest[1], longest[2]],
        [0x400, 0, 0, 0, 0],
        [0x1A00, 0, 0x8000_0200, 0, 0],
        [0x1A00, 0, 0x8000_0000, 0, 0],
        [0x1A00, 0, 0x0000_0200, 0, 0],
    ] {
        duo.lay_out(&format);
    }
}

fn components(duo: &mut Duo) {
    let cases: [(u32, &[u8]); 4] = [
        (1 << 1 | 6 << 4 | 1 << 30, &[0x80, 0]),
        (2 << 1 | 16 << 4, &[0xFF, 0xFF, 0, 0]),
        (3 << 1 | 31 << 4, &[0xFF, 0xFF, 0, 0]),
        (3 << 4, &[0x08, 0]),
    ];
    for (vat, vertex) in cases {
        duo.decode(&[0x200, 0, vat, 0, 0], 9, vertex);
    }
}

fn units(duo: &mut Duo) {
    let units: [&[u8]; 6] = [
        &[0x61, 0xFE, 0, 0, 0xF0],
        &[0x61, 0xFE, 0, 0, 0x3C],
        &[
            0x10, 0x00, 0xF3, 0x10, 0x00, 0, 0, 0, 1, 0, 0, 0, 2, 0, 0, 0, 3, 0, 0, 0, 4,
        ],
        &[0x10, 0x00, 0x00, 0x10, 0x57, 1, 2, 3, 4],
        &[0x20, 0x00, 0x03, 0xB0, 0x00],
        &[0x90, 0x00, 0x00],
    ];
    duo.poke(word::BASES + 12, 0x1000);
    duo.poke(word::STRIDES + 12, 0x40);
    duo.poke(word::VCD_0, 0x200);
    for unit in units {
        duo.feed(unit);
        duo.look_and_take();
    }
    duo.poke(word::BP + 0x41, 0x12_3450);
    duo.poke(word::BP + 0xFE, 0x00_000F);
    duo.feed(&[0x61, 0x41, 0x00, 0x00, 0xA5]);
    duo.look_and_take();
    duo.feed(&[0; 255]);
    duo.feed(&[0]);
    duo.run(MOST_UNITS);
    duo.feed(&[0x10, 0x00, 0x01, 0x10, 0x57]);
    duo.look_and_take();
}

fn patches(duo: &mut Duo) {
    let low = Patch::of(&[(0x41, 0x0F, 0x05)]);
    let high = Patch::of(&[(0x41, 0xF0, 0x30)]);
    duo.write_patch(&low, 10);
    let (_, merged) = duo.merge_patches(&low, &high, 256, 256);
    duo.write_patch(&merged, 10);
}
