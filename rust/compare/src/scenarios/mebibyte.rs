//! Document 02's L9: rings above 65,536 bytes, runs of more units than before it, and
//! recordings with longer streams.

use crate::duo::Duo;
use crate::formats::{good_format, length_of};
use crate::random::Random;
use crate::scenarios::cuts::place;
use crate::scenarios::draws::set_format;
use crate::scenarios::recordings::written_and_run;
use crate::scenarios::refusals::good_bench;
use crate::stream::{any_limit, large_size, open_ring_of, play, scatter_registers, Pace, Ring};
use crate::units::Units;
use crate::world::{word, Lent, USUAL};
use model::words::FormatWords;
use model::{LARGEST_RING, LONGEST_STREAM, MOST_UNITS};

/// The most bytes that a ring holds.
const MOST_BYTES: usize = LARGEST_RING as usize - 1;

/// A good bench with a ring of a size, both pointers at a place of it.
fn bench_of(duo: &mut Duo, start: u32, size: u32, place: u32) {
    good_bench(duo);
    let ring = size as usize;
    duo.hold(Lent { ring, ..USUAL });
    for (index, value) in [
        (word::START, start),
        (word::END, start + size),
        (word::WRITE, start + place),
        (word::READ, start + place),
    ] {
        duo.poke(index, value);
    }
}

/// The bounds, whatever the seed.
pub fn every_bound(duo: &mut Duo) {
    duo.scenario("every bound of rings and runs");
    every_size(duo);
    every_half(duo);
    every_limit(duo);
    over_the_end(duo);
}

/// Sizes at, about and past the limit, by every call that tests the window.
fn every_size(duo: &mut Duo) {
    for (size, place) in [
        (65_536, 65_534),
        (65_568, 65_566),
        (LARGEST_RING - 32, LARGEST_RING - 34),
        (LARGEST_RING, LARGEST_RING - 2),
        (LARGEST_RING + 32, 5),
    ] {
        bench_of(duo, 0x1000, size, place);
        duo.feed(&[]);
        duo.feed(&[0x48; 4]);
        for offset in [0x000, 0x030, 0x032] {
            duo.read(offset);
        }
        duo.write(0x02E, 0x1234);
        duo.run(0);
        duo.look_and_take();
        duo.run(1);
        duo.run(MOST_UNITS);
    }
}

/// A ring that is filled and emptied by pieces, and its count in both halves. Where the
/// low half is 0, there is a unit all the same.
fn every_half(duo: &mut Duo) {
    bench_of(duo, 0, LARGEST_RING, 1_000_000);
    let mut held = 0;
    for count in [0xFFFF, 0x1_0000, 0x1_2345, 0xF_0000, MOST_BYTES] {
        duo.feed(&vec![0x00; count - held]);
        for offset in [0x030, 0x032, 0x034, 0x036] {
            duo.read(offset);
        }
        duo.look_and_take();
        held = count - 1;
    }
    duo.feed(&[0x00]);
    duo.feed(&[0x00]);
    duo.feed(&vec![0x00; MOST_BYTES + 1]);
    for limit in [0x1_0000, 0x1_2345, 0x8_0000] {
        duo.run(limit);
        for offset in [0x030, 0x032, 0x038, 0x03A] {
            duo.read(offset);
        }
    }
    // Not as many as there is room for, but the room's low half.
    duo.feed(&vec![0x00; MOST_BYTES]);
}

/// Units of one byte, as many as a run can do, with limits of so many and above; and one
/// fewer, with limits of before.
fn every_limit(duo: &mut Duo) {
    for (byte, limit) in [(0x00, MOST_UNITS), (0x44, MOST_UNITS + 1), (0x48, u32::MAX)] {
        bench_of(duo, 0x1000, LARGEST_RING, 700_001);
        duo.feed(&vec![byte; MOST_BYTES]);
        duo.run(limit);
        duo.run(limit);
    }
    duo.feed(&vec![0x00; MOST_BYTES - 1]);
    for limit in [65_535, 65_536, MOST_UNITS] {
        duo.run(limit);
    }
}

/// A load and a draw over the end of the largest ring, which ends as far up as can be.
fn over_the_end(duo: &mut Duo) {
    let ring = Ring {
        start: 0xFFFF_FFE0 - LARGEST_RING,
        size: LARGEST_RING,
        pointer: 0xFFFF_FFDF,
    };
    bench_of(duo, ring.start, ring.size, ring.size - 1);
    let bytes = [0x61, 0x41, 1, 2, 3, 0x90, 0, 2, 4, 5, 6, 7, 0x48];
    for before_end in 0..=bytes.len() {
        place(duo, &ring, before_end);
        duo.feed(&bytes);
        duo.look_and_take();
        duo.run(MOST_UNITS);
    }
}

/// A large ring by chance, or a recording with a stream for one.
pub fn large(duo: &mut Duo, random: &mut Random) {
    match random.below(8) {
        0 => many_kinds(duo, random),
        1..=4 => single_bytes(duo, random),
        5 => long_draws(duo, random),
        _ => {
            let any = random.between(65_536, LONGEST_STREAM as u32) as usize;
            let length = random.pick(&[LONGEST_STREAM, LONGEST_STREAM, 65_536, any]);
            written_and_run(duo, random, Some(length));
        }
    }
}

fn open_large_ring(duo: &mut Duo, random: &mut Random) -> Ring {
    let size = large_size(random);
    open_ring_of(duo, random, size)
}

/// The same units again and again, more than a ring holds.
fn many_kinds(duo: &mut Duo, random: &mut Random) {
    duo.scenario("large ring");
    let ring = open_large_ring(duo, random);
    let mut units = Units::new(scatter_registers(duo, random));
    units.load_formats();
    for _ in 0..random.between(20, 400) {
        units.add(random);
    }
    let piece = units.bytes();
    let times = ring.size as usize * 5 / 4 / piece.len();
    let pace = random.pick(&[Pace::Bulk, Pace::Bulk, Pace::Pieces]);
    play(duo, random, &piece.repeat(times + 1), pace);
}

/// So many bytes of a ring of a size: often all that it holds, or such that the low half
/// of the count is 0.
fn any_count(random: &mut Random, size: u32) -> u32 {
    let most = size - 1;
    let any = random.below(size);
    let high = most & 0x1_0000 << random.below(4);
    random.pick(&[most, most, most, most, most - 1, any, high, high])
}

/// Units of one byte, and runs of any limits; a feed that may be too long.
fn single_bytes(duo: &mut Duo, random: &mut Random) {
    duo.scenario("large ring of single bytes");
    let size = large_size(random);
    let size = random.pick(&[LARGEST_RING, LARGEST_RING, size]);
    open_ring_of(duo, random, size);
    let count = any_count(random, size);
    let mut bytes = vec![random.pick(&[0x00, 0x00, 0x44, 0x48]); size as usize];
    for _ in 0..random.below(4) {
        bytes[random.below(size) as usize] = random.pick(&[0x00, 0x44, 0x48]);
    }
    duo.feed(&bytes[..count as usize]);
    duo.read(0x030);
    duo.read(0x032);
    if count & 0xFFFF == 0 {
        duo.look_and_take();
    }
    let room = duo.world().room();
    let any = random.below(size);
    let more = random.pick(&[room + 1, room + 1, any]);
    duo.feed(&bytes[..more as usize]);
    if random.once_in(3) {
        duo.run(any_limit(random));
    }
    duo.run(random.pick(&[MOST_UNITS, MOST_UNITS + 1, u32::MAX]));
    duo.run(MOST_UNITS);
}

/// A format of few bytes, or any.
fn short_format(random: &mut Random) -> FormatWords {
    let any = good_format(random);
    random.pick(&[[0x400, 0, 0, 0, 0], [0x200, 0, 1, 0, 0], any])
}

/// Draws of up to 65,535 vertices, as many as a ring holds; the last one is cut.
fn long_draws(duo: &mut Duo, random: &mut Random) {
    duo.scenario("large ring of draws");
    let ring = open_large_ring(duo, random);
    let words = short_format(random);
    set_format(duo, 0, &words);
    let length = length_of(&words).unwrap_or(1);
    let mut bytes = Vec::new();
    while bytes.len() < ring.size as usize {
        let count = random.between(1, 65_535);
        let count = random.pick(&[65_535, count, count]);
        bytes.extend([0x80 | random.u8() & 0x38, (count >> 8) as u8, count as u8]);
        bytes.extend(random.bytes(count as usize * length));
    }
    bytes.truncate(ring.size as usize + random.below(1000) as usize);
    let pace = random.pick(&[Pace::Bulk, Pace::Bulk, Pace::Pieces]);
    play(duo, random, &bytes, pace);
}
