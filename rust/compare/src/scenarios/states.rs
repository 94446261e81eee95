//! Good benches with faults, and every call that looks for them.

use crate::duo::Duo;
use crate::random::Random;
use crate::stream::{open_ring, scatter_registers, take_one, Ring};
use crate::units::Units;
use crate::world::word;
use model::LARGEST_RING;

/// Values of a control word that are at its width or past it.
const CONTROLS: [u32; 12] = [
    0x3F,
    0x40,
    0x41,
    0x2F,
    0x0101,
    0x8001,
    0xFFFF,
    0x1_0000,
    0x1_0001,
    0x1_0011,
    0x8000_0001,
    u32::MAX,
];

/// Values of the open draw's word that are neither 0 nor 1.
const OPEN: [u32; 8] = [
    2,
    3,
    0x100,
    0x101,
    0x1_0000,
    0x1_0001,
    0x8000_0000,
    u32::MAX,
];

/// A good bench with one to three faults, and every call that looks for them.
pub fn broken(duo: &mut Duo, random: &mut Random) {
    duo.scenario("broken window or registers");
    let ring = open_ring(duo, random);
    let mut units = Units::new(scatter_registers(duo, random));
    if random.once_in(4) {
        units.add_refused(random);
    }
    for _ in 0..3 {
        units.add(random);
    }
    let bytes = units.bytes();
    let held = random.below(ring.size).min(bytes.len() as u32);
    duo.feed(&bytes[..held as usize]);
    for _ in 0..random.pick(&[1, 1, 1, 2, 2, 3]) {
        break_something(duo, random, &ring);
    }
    probe(duo, random, &ring);
    if random.once_in(3) {
        // Mended by setting the window whole again; what else is broken stays.
        poke_window(
            duo,
            [
                ring.start,
                ring.start + ring.size,
                ring.pointer,
                ring.pointer,
            ],
        );
        probe(duo, random, &ring);
    }
}

fn probe(duo: &mut Duo, random: &mut Random, ring: &Ring) {
    for offset in [0x000, 0x030, 0x032, 0x002] {
        duo.read(offset);
    }
    duo.feed(&[]);
    duo.feed(&[0x00, 0x48]);
    if random.once_in(8) {
        duo.feed(&vec![0; ring.size as usize]);
    }
    take_one(duo, random);
    duo.look();
    duo.run(0);
    duo.run(random.between(1, 5));
    if random.once_in(6) {
        duo.write(
            random.pick(&[0x002, 0x004, 0x020, 0x028, 0x030]),
            random.u16(),
        );
    }
}

fn poke_window(duo: &mut Duo, words: [u32; 4]) {
    for (index, word) in [word::START, word::END, word::WRITE, word::READ]
        .into_iter()
        .zip(words)
    {
        duo.poke(index, word);
    }
}

fn break_something(duo: &mut Duo, random: &mut Random, ring: &Ring) {
    match random.below(13) {
        0..=2 => break_window(duo, random, ring),
        3 => break_ring_length(duo, random, ring),
        4 | 5 => break_registers(duo, random),
        6..=8 => break_draw(duo, random),
        9 | 10 => break_lent(duo, random, ring),
        11 => break_control(duo, random),
        _ => duo.poke(random.below(327) as usize, random.word()),
    }
}

fn break_window(duo: &mut Duo, random: &mut Random, ring: &Ring) {
    let Ring {
        start,
        size,
        pointer,
    } = *ring;
    let end = start + size;
    match random.below(11) {
        0 => {
            let by = random.between(1, 31);
            let inside = pointer.max(start + by);
            poke_window(duo, [start + by, end.wrapping_add(by), inside, inside]);
        }
        1 => duo.poke(word::END, end - random.between(1, 31)),
        2 => poke_window(duo, [start, start + 224, start, start + 223]),
        3 => {
            let size = LARGEST_RING + 32;
            let start = start.min(0xFF00_0000);
            poke_window(duo, [start, start + size, start, start + 1]);
            // Seldom, as whole rings are compared.
            if random.once_in(4) {
                duo.lend(size as usize, 4184, 129);
            }
        }
        4 => duo.poke(word::END, start.wrapping_sub(256)),
        5 => duo.poke(word::END, start),
        6 => duo.poke(word::READ, start.wrapping_sub(random.between(1, 32))),
        7 => duo.poke(word::READ, end + random.below(32)),
        8 => duo.poke(word::WRITE, start.wrapping_sub(random.between(1, 32))),
        9 => duo.poke(word::WRITE, end + random.below(32)),
        _ => {
            let offset = random.pick(&[0x20, 0x22, 0x24, 0x26, 0x34, 0x36, 0x38, 0x3A]);
            duo.write(offset, random.u16());
        }
    }
}

fn break_ring_length(duo: &mut Duo, random: &mut Random, ring: &Ring) {
    let size = ring.size as usize;
    let length = random.pick(&[size - 1, size + 1, 2 * size, 0, 32, 256, 65_536]);
    duo.lend(length, 4184, 129);
}

/// Registers at and above their widths.
fn break_registers(duo: &mut Duo, random: &mut Random) {
    let array = random.below(16) as usize;
    let register = word::BP + random.below(256) as usize;
    match random.below(5) {
        0 | 1 => duo.poke(register, 0x100_0000 << random.below(8)),
        2 => duo.poke(register, 0xFF_FFFF),
        3 => duo.poke(
            word::BASES + array,
            random.pick(&[0x3FF_FFFF, 0x400_0000, 0x8000_0000, u32::MAX]),
        ),
        _ => duo.poke(
            word::STRIDES + array,
            random.pick(&[0xFF, 0x100, 0x1_0000, u32::MAX]),
        ),
    }
}

/// A draw that is open and not possible, possible, or neither open nor closed.
fn break_draw(duo: &mut Duo, random: &mut Random) {
    let mut draw = [1, random.below(8), random.below(8), random.between(1, 3)];
    let wide = random.pick(&[8, 0x80, 0x100, 0x102, 0x1_0000, 0x1_0003, 0x8000_0000]);
    match random.below(7) {
        0 => draw[3] = 0,
        1 => draw[1] = wide,
        2 => draw[2] = wide,
        3 => draw[3] = random.pick(&[0xFFFF, 0x1_0000, 0x1_0001, 0x2_0000, 0x8000_0001]),
        4 => draw[0] = random.pick(&OPEN),
        // Stale: not looked at.
        5 => draw = [0, random.word(), random.word(), random.word()],
        _ => {}
    }
    for (at, value) in draw.into_iter().enumerate() {
        duo.poke(word::DRAW_OPEN + at, value);
    }
}

/// XF words and vertex buffer.
fn break_lent(duo: &mut Duo, random: &mut Random, ring: &Ring) {
    let size = ring.size as usize;
    if random.once_in(2) {
        let xf = random.pick(&[4183, 4185, 0, 1, 4200, 5000]);
        duo.lend(size, xf, random.pick(&[129, 128]));
    } else {
        duo.lend(size, 4184, random.pick(&[128, 0, 1, 127, 129]));
    }
}

fn break_control(duo: &mut Duo, random: &mut Random) {
    match random.below(3) {
        0 => duo.poke(word::CONTROL, random.pick(&[0, 0x2E, 0x10, 0x3E])),
        1 => {
            duo.write(0x002, random.pick(&[0x11, 0x3F, 0x31, 0xFFD1]));
        }
        _ => duo.poke(word::CONTROL, random.pick(&CONTROLS)),
    }
}
