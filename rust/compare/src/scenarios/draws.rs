//! Draws: open ones whose registers change, every format, long ones.

use crate::duo::Duo;
use crate::formats::{bad_vat, good_format, good_vat, good_vcd, length_of, vertex_bytes};
use crate::random::Random;
use crate::stream::{
    open_ring, open_ring_of, play, set_vat, sometimes_look, sometimes_read, take_one, Pace,
};
use crate::units::Units;
use crate::world::word;
use model::words::FormatWords;
use model::CpRegisters;

/// Looks and takes within an open draw while its registers change: 9 and 10
/// without any byte, waiting, vertices.
pub fn open_draw(duo: &mut Duo, random: &mut Random) {
    duo.scenario("open draw");
    open_ring(duo, random);
    let format = random.below(8);
    let left = random.between(1, 5);
    for (at, value) in [1, random.below(8), format, left].into_iter().enumerate() {
        duo.poke(word::DRAW_OPEN + at, value);
    }
    for _ in 0..random.between(2, 6) {
        let vcd = if random.once_in(4) {
            [random.u32() & !0x600, random.u32()]
        } else {
            good_vcd(random)
        };
        let vat = if random.once_in(3) {
            bad_vat(random)
        } else {
            good_vat(random)
        };
        duo.poke(word::VCD_0, vcd[0]);
        duo.poke(word::VCD_1, vcd[1]);
        set_vat(duo, format as usize, &vat);
        take_one(duo, random);
        duo.run(2);
        let length = random.below(131) as usize;
        duo.feed(&vertex_bytes(random, length));
        take_one(duo, random);
        sometimes_look(duo, random);
        duo.run(random.below(3));
        sometimes_read(duo, random);
    }
}

pub fn set_format(duo: &mut Duo, format: usize, words: &FormatWords) {
    let &[vcd_0, vcd_1, vat @ ..] = words;
    duo.poke(word::VCD_0, vcd_0);
    duo.poke(word::VCD_1, vcd_1);
    set_vat(duo, format, &vat);
}

/// Draws of every attribute format, their last vertices decoded.
pub fn draws(duo: &mut Duo, random: &mut Random) {
    duo.scenario("draws");
    open_ring(duo, random);
    let format = random.below(8) as u8;
    for _ in 0..random.between(1, 4) {
        let words = good_format(random);
        set_format(duo, format.into(), &words);
        duo.lay_out(&words);
        let Some(length) = length_of(&words) else {
            continue;
        };
        let mut units = Units::new(CpRegisters::default());
        let count = random.pick(&[1, 2, 3, 5, 30]);
        let head = 0x80 | random.u8() & 0x38 | format;
        units.draw(random, head, count, length);
        let pace = random.pick(&[Pace::Bulk, Pace::Mixed, Pace::Mixed]);
        play(duo, random, &units.bytes(), pace);
        // As the last vertex stands in the buffer.
        let last = duo.world().vertex[..length].to_vec();
        for attribute in 0..21 {
            duo.decode(&words, attribute, &last);
        }
        duo.decode_all(&words, &last);
    }
}

/// Tens of thousands of vertices, run in few calls.
pub fn big_draw(duo: &mut Duo, random: &mut Random) {
    duo.scenario("big draw");
    open_ring_of(duo, random, 65_536);
    // Position by an index of one byte, or two or three bytes of its own.
    let (vcd, vat, length) = random.pick(&[(0x400, 0, 1), (0x200, 0, 2), (0x200, 1, 3)]);
    set_format(duo, 0, &[vcd, 0, vat, 0, 0]);
    let count = if length == 1 {
        60_000
    } else {
        random.between(20_000, 30_000) as u16
    };
    let mut units = Units::new(CpRegisters::default());
    let head = 0x80 | random.u8() & 0x38;
    units.draw(random, head, count, length);
    units.units.push(vec![0x48]);
    play(duo, random, &units.bytes(), Pace::Bulk);
}
