//! Streams of units, good and spoilt, and feeds about the room that is left.

use crate::duo::Duo;
use crate::random::Random;
use crate::stream::{
    load, open_ring, open_ring_of, play, scatter_registers, skip, take_one, take_some, Pace, Ring,
};
use crate::units::{bad_opcode, Units};
use model::words::{DONE, WAITING};
use model::MOST_UNITS;

/// Units that mean something; sometimes the last is refused.
pub fn stream(duo: &mut Duo, random: &mut Random) {
    duo.scenario("stream");
    open_ring(duo, random);
    let mut units = Units::new(scatter_registers(duo, random));
    let (pace, most) = match random.below(6) {
        0 => (Pace::ByteByByte, 5),
        1 | 2 => (Pace::Bulk, 40),
        _ => (Pace::Mixed, 25),
    };
    for _ in 0..random.between(1, most) {
        units.add(random);
    }
    play(duo, random, &units.bytes(), pace);
    if random.once_in(2) {
        units.units.clear();
        units.add_refused(random);
        play(duo, random, &units.bytes(), Pace::ByteByByte);
        duo.feed(&[0]);
        take_one(duo, random);
        duo.run(3);
    }
}

/// Many units, taken by runs alone: their limits cut draws and rows of loads.
pub fn runs(duo: &mut Duo, random: &mut Random) {
    duo.scenario("runs");
    let size = random.pick(&[256, 512, 2048]);
    open_ring_of(duo, random, size);
    let mut units = Units::new(scatter_registers(duo, random));
    for _ in 0..random.between(20, 80) {
        if random.once_in(2) {
            units.add_loads(random);
        } else {
            units.add(random);
        }
    }
    play(duo, random, &units.bytes(), Pace::Runs);
}

/// Units that are fed just as many bytes at a time as are lacking; sometimes the
/// last is refused.
pub fn loaded(duo: &mut Duo, random: &mut Random) {
    duo.scenario("loader");
    open_ring(duo, random);
    let mut units = Units::new(scatter_registers(duo, random));
    for _ in 0..random.between(1, 20) {
        units.add(random);
    }
    if random.once_in(3) {
        units.add_refused(random);
    }
    load(duo, random, &units.bytes());
}

/// A caller who looks at every unit before it is taken: some are looked at again,
/// with more bytes fed or without, and some are passed by, as many bytes as the
/// look tells.
pub fn judged(duo: &mut Duo, random: &mut Random) {
    duo.scenario("looks before takes");
    let ring = open_ring(duo, random);
    let mut units = Units::new(scatter_registers(duo, random));
    for _ in 0..random.between(1, 20) {
        units.add(random);
    }
    if random.once_in(3) {
        units.add_refused(random);
    }
    let bytes = units.bytes();
    let mut rest = &bytes[..];
    while duo.fault().is_none() {
        match duo.look() {
            (DONE, [.., length], _) => match random.below(8) {
                0 => skip(duo, &ring, length),
                1 => rest = feed_some(duo, random, rest),
                _ => {
                    duo.take();
                }
            },
            (WAITING, ..) if !rest.is_empty() => rest = feed_some(duo, random, rest),
            _ => return,
        }
    }
}

/// Feeds some of the bytes, as far as there is room; the rest.
fn feed_some<'a>(duo: &mut Duo, random: &mut Random, bytes: &'a [u8]) -> &'a [u8] {
    let most = duo.world().room().min(bytes.len() as u32);
    let piece = random.between(1, 90).min(most);
    let (now, later) = bytes.split_at(piece as usize);
    duo.feed(now);
    later
}

/// Units with bytes changed, put in or left out, and opcodes that are none
/// between them; feeds may be refused.
pub fn mutated(duo: &mut Duo, random: &mut Random) {
    duo.scenario("mutated stream");
    let ring = open_ring(duo, random);
    let mut units = Units::new(scatter_registers(duo, random));
    for _ in 0..random.between(1, 20) {
        if random.once_in(12) {
            units.units.push(vec![bad_opcode(random)]);
        } else {
            units.add(random);
        }
    }
    let mut bytes = units.bytes();
    for _ in 0..random.between(1, 6) {
        mutate(random, &mut bytes);
    }
    let mut rest = &bytes[..];
    while !rest.is_empty() {
        let (piece, after) = rest.split_at(random.between(1, 90).min(rest.len() as u32) as usize);
        duo.feed(piece);
        rest = after;
        take_some(duo, random, 20);
        if random.once_in(3) {
            skip_some(duo, random, &ring);
        }
    }
    duo.run(MOST_UNITS);
}

fn mutate(random: &mut Random, bytes: &mut Vec<u8>) {
    if bytes.is_empty() {
        return;
    }
    let at = random.below(bytes.len() as u32) as usize;
    match random.below(4) {
        0 => bytes[at] ^= 1 << random.below(8),
        1 => bytes[at] = random.u8(),
        2 => bytes.insert(at, random.u8()),
        _ => {
            bytes.remove(at);
        }
    }
}

/// Moves the read pointer, as a caller would after a refusal.
fn skip_some(duo: &mut Duo, random: &mut Random, ring: &Ring) {
    let pointer = ring.start + random.below(ring.size);
    duo.write(0x038, pointer as u16);
    duo.write(0x03A, (pointer >> 16) as u16);
}

/// Feeds about the room that is left, with no-operations run between.
pub fn feeds(duo: &mut Duo, random: &mut Random) {
    duo.scenario("feeds");
    let ring = open_ring(duo, random);
    let mut held = 0;
    let rounds = if ring.size > 4096 { 4 } else { 12 };
    for _ in 0..rounds {
        let room = ring.size - 1 - held;
        let length = match random.below(7) {
            0 => room,
            1 => room + 1,
            2 => 0,
            3 => room.saturating_sub(1),
            4 => room + random.between(1, 300),
            5 if random.once_in(4) => random.pick(&[65_535, 65_536, 70_000]),
            _ => random.below(room + 1),
        };
        let bytes: Vec<u8> = (0..length)
            .map(|_| random.pick(&[0x00, 0x44, 0x48]))
            .collect();
        duo.feed(&bytes);
        if length <= room {
            held += length;
        }
        duo.read(0x030);
        duo.read(0x000);
        if random.once_in(2) {
            let limit = random.below(held + 2);
            duo.run(limit);
            held -= limit.min(held);
        }
    }
}
