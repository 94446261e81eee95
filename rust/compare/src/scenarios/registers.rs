//! Hardware registers, and everything of some small spaces.

use crate::duo::Duo;
use crate::random::Random;
use crate::stream::{leave_stale_words, open_ring, open_ring_of, Ring};
use crate::world::word;

/// Reads and writes at listed and other offsets.
pub fn registers(duo: &mut Duo, random: &mut Random) {
    duo.scenario("hardware registers");
    if random.once_in(2) {
        open_ring(duo, random);
    } else {
        duo.fresh();
        leave_stale_words(duo, random);
    }
    if random.once_in(3) {
        let index = random.pick(&[word::CONTROL, word::DRAW_OPEN]);
        duo.poke(index, random.word());
    }
    for _ in 0..random.between(5, 40) {
        let offset = any_offset(random);
        match random.below(5) {
            0 | 1 => {
                duo.write(offset, random.u16());
            }
            2 => {
                duo.write(offset, random.pick(&[0, 1, 0x20, 0x100, 0x1000, 0xFFFF]));
                duo.read(offset);
            }
            _ => {
                duo.read(offset);
            }
        }
    }
    duo.read(0x000);
}

pub fn any_offset(random: &mut Random) -> u16 {
    match random.below(5) {
        0 => random.below(0x44) as u16,
        1 => random.u16(),
        2 => random.pick(&[
            0x000, 0x002, 0x004, 0x030, 0x032, 0x00E, 0x010, 0x016, 0x03C, 0x03E,
        ]),
        _ => 0x20 + 2 * random.below(14) as u16,
    }
}

/// Every offset up to 41.
pub fn offsets(duo: &mut Duo, random: &mut Random) {
    duo.scenario("every offset");
    open_ring_of(duo, random, 256);
    for offset in 0..0x42 {
        duo.read(offset);
    }
    for offset in 0..0x42 {
        duo.write(offset, random.u16());
    }
}

/// Every opcode, or every CP address.
pub fn first_bytes(duo: &mut Duo, random: &mut Random) {
    duo.scenario("every opcode or CP address");
    let ring = open_ring_of(duo, random, 256);
    if random.once_in(2) {
        duo.poke(word::VCD_0, random.pick(&[0x200, 0]));
        for opcode in 0..=255 {
            sweep_one(duo, &ring, &[opcode]);
        }
    } else {
        for address in 0..=255 {
            sweep_one(duo, &ring, &[0x08, address]);
            duo.feed(&random.word().to_be_bytes());
            duo.look_and_take();
        }
    }
}

/// A few bytes in an empty ring, looked at and taken; no draw is left open.
fn sweep_one(duo: &mut Duo, ring: &Ring, bytes: &[u8]) {
    duo.poke(word::WRITE, ring.pointer);
    duo.poke(word::READ, ring.pointer);
    duo.feed(bytes);
    duo.look_and_take();
    duo.poke(word::DRAW_OPEN, 0);
}
