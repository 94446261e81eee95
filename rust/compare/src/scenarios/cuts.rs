//! Runs that end, or come to the ring's end, inside a draw or a row of zeros;
//! and XF loads that end at and past the last word.

use crate::course::{Lie, LIES, MOST_ZEROS};
use crate::duo::Duo;
use crate::formats::{good_format, length_of};
use crate::random::Random;
use crate::scenarios::draws::set_format;
use crate::scenarios::refusals::good_bench;
use crate::stream::{open_ring_of, scatter_registers, Ring};
use crate::units::Units;
use crate::world::word;
use model::MOST_UNITS;

/// Where a draw is cut: so many of its bytes are before the ring's end, so many
/// are written before the first run, and that has a limit.
struct Cut {
    before_end: usize,
    written: usize,
    limit: u32,
}

/// No draw open, and both pointers so many bytes before the ring's end.
pub fn place(duo: &mut Duo, ring: &Ring, before_end: usize) {
    let pointer = ring.start + (ring.size - before_end as u32) % ring.size;
    duo.poke(word::DRAW_OPEN, 0);
    duo.poke(word::WRITE, pointer);
    duo.poke(word::READ, pointer);
}

fn play_cut(duo: &mut Duo, ring: &Ring, bytes: &[u8], cut: &Cut) {
    place(duo, ring, cut.before_end);
    let (first, second) = bytes.split_at(cut.written);
    duo.feed(first);
    duo.run(cut.limit);
    duo.feed(second);
    duo.run(MOST_UNITS);
}

/// A draw of three vertices cut at every byte by the write pointer, at every
/// byte by the ring's end and after every unit by the limit.
pub fn every_cut(duo: &mut Duo) {
    duo.scenario("every cut of a draw");
    good_bench(duo);
    let ring = Ring {
        start: 0x1000,
        size: 256,
        pointer: 0x10F8,
    };
    let bytes = [0x90, 0, 3, 1, 2, 3, 4, 5, 6, 0x48];
    for before_end in 0..=bytes.len() {
        for written in 0..=bytes.len() {
            for limit in [0, 1, 2, 3, 4, 5, MOST_UNITS] {
                let cut = Cut {
                    before_end,
                    written,
                    limit,
                };
                play_cut(duo, &ring, &bytes, &cut);
            }
        }
    }
}

/// A draw by chance, cut at some of its bytes.
pub fn draws_cut(duo: &mut Duo, random: &mut Random) {
    duo.scenario("cut draws");
    let words = good_format(random);
    let Some(length) = length_of(&words) else {
        return;
    };
    let ring = open_ring_of(duo, random, 1024);
    let format = random.below(8) as u8;
    set_format(duo, format.into(), &words);
    let count = random.pick(&[1, 2, 3, 4, 7]).min(1000 / length) as u32;
    let mut units = Units::new(Default::default());
    let head = 0x80 | random.u8() & 0x38 | format;
    units.draw(random, head, count as u16, length);
    units
        .units
        .push(random.pick(&[&[][..], &[0x48], &[0, 0]]).to_vec());
    let bytes = units.bytes();
    for _ in 0..30 {
        let few = random.below(count + 3);
        let cut = Cut {
            before_end: random.below(bytes.len() as u32 + 1) as usize,
            written: random.below(bytes.len() as u32 + 1) as usize,
            limit: random.pick(&[MOST_UNITS, count, few, few]),
        };
        play_cut(duo, &ring, &bytes, &cut);
    }
}

/// Zeros in a row, so many and so lying, between other units: a run that its
/// limit may end, and then one from their beginning.
fn zeros_at(duo: &mut Duo, random: &mut Random, ring: &Ring, zeros: usize, lie: Lie) {
    let bp_load = [0x61, random.u8(), 1, 2, 3];
    let cp_load = [0x08, 0x30, 1, 2, 3, 4];
    let around: [&[u8]; 4] = [&[], &[0x48], &bp_load, &cp_load];
    let (before, after) = (random.pick(&around), random.pick(&around));
    let bytes = [before, &vec![0; zeros], after].concat();
    let before_end = before.len()
        + match lie {
            Lie::Within => zeros + random.between(1, 180) as usize,
            Lie::UpToTheEnd => zeros,
            Lie::OverTheEnd => random.between(1, (zeros - 1) as u32) as usize,
        };
    place(duo, ring, before_end);
    let read = duo.world().state[word::READ];
    duo.feed(&bytes);
    duo.run(random.below(zeros as u32 + 3));
    duo.poke(word::READ, read);
    duo.run(MOST_UNITS);
}

/// Zeros in a row of every length, about blocks of 8 and of 128: of each length
/// those of the ways to lie whose number modulo 3 comes up.
fn zeros_of(duo: &mut Duo, random: &mut Random, comes_up: impl Fn(usize) -> bool) {
    duo.scenario("zeros in a row");
    let ring = open_ring_of(duo, random, 512);
    for zeros in 1..=MOST_ZEROS {
        // One byte does not lie over the end.
        let lies = &LIES[..if zeros == 1 { 2 } else { 3 }];
        for (number, &lie) in lies.iter().enumerate() {
            if comes_up((zeros + number) % 3) {
                zeros_at(duo, random, &ring, zeros, lie);
            }
        }
    }
}

/// Each length lying in one way.
pub fn zeros(duo: &mut Duo, random: &mut Random) {
    let way = random.below(3) as usize;
    zeros_of(duo, random, |number| number == way);
}

/// Each length lying in every way.
pub fn every_zeros(duo: &mut Duo, random: &mut Random) {
    zeros_of(duo, random, |_| true);
}

/// XF loads of every number of words that end at 4,184 and at 4,185, between
/// draws.
pub fn xf_ends(duo: &mut Duo, random: &mut Random) {
    duo.scenario("XF loads to the end");
    let ring = open_ring_of(duo, random, 1024);
    let cp = scatter_registers(duo, random);
    for words in 1..=16 {
        let mut units = Units::new(cp);
        units.draw_of(random, 0, 1);
        units.xf_load(random, words, 4184 - words);
        units.draw_of(random, 7, 1);
        units.xf_load(random, words, 4185 - words);
        units.draw_of(random, 0, 1);
        place(duo, &ring, random.between(1, 500) as usize);
        duo.feed(&units.bytes());
        duo.run(random.pick(&[2, 3, 5, MOST_UNITS]));
        duo.run(MOST_UNITS);
    }
}
