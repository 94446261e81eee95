//! Rings, and how streams of units are fed to them and taken.

use crate::duo::Duo;
use crate::formats::{good_vat, good_vcd};
use crate::random::Random;
use crate::world::{word, Lent, USUAL};
use model::words::{UnitWords, DONE, WAITING};
use model::{CpRegisters, LARGEST_RING, MOST_UNITS};

/// Where the ring stands and how many bytes it has.
pub struct Ring {
    pub start: u32,
    pub size: u32,
    /// The place where both pointers begin.
    pub pointer: u32,
}

/// Pokes or writes a good window, lends as much, and enables reading.
pub fn open_ring(duo: &mut Duo, random: &mut Random) -> Ring {
    let size = match random.below(16) {
        0..=7 => 256,
        8 => 288,
        9 => 512,
        10 => 1024,
        11 => 4096,
        12 if random.once_in(12) => 65_536,
        13 if random.once_in(150) => large_size(random),
        _ => 32 * random.between(8, 64),
    };
    open_ring_of(duo, random, size)
}

/// A ring of more than 65,536 bytes, the most until document 02's L9. Whole rings are
/// compared after every call, so these are seldom.
pub fn large_size(random: &mut Random) -> u32 {
    let any = 32 * random.between(2049, LARGEST_RING / 32);
    random.pick(&[LARGEST_RING, LARGEST_RING, LARGEST_RING - 32, 65_568, any])
}

pub fn open_ring_of(duo: &mut Duo, random: &mut Random, size: u32) -> Ring {
    let last_start = 0xFFFF_FFE0 - size;
    let start = match random.below(5) {
        0 => 0,
        1 => 0x1000,
        2 => last_start,
        _ => random.below(last_start / 32) * 32,
    };
    let pointer = match random.below(3) {
        0 => start,
        1 => start + size - random.between(1, 16),
        _ => start + random.below(size),
    };
    let ring = Ring {
        start,
        size,
        pointer,
    };
    duo.fresh();
    duo.hold(Lent {
        ring: size as usize,
        vertex: random.pick(&[129, 129, 130, 200, 256, 999]),
        ..USUAL
    });
    set_window(duo, random, &ring);
    let control = 1 | random.u16() & 0x2E;
    if random.once_in(2) {
        duo.write(0x002, control | random.u16() & 0xFFC0);
    } else {
        duo.poke(word::CONTROL, control.into());
    }
    leave_stale_words(duo, random);
    ring
}

/// The window registers, by pokes or by hardware writes.
fn set_window(duo: &mut Duo, random: &mut Random, ring: &Ring) {
    let words = [
        (word::START, 0x20, ring.start),
        (word::END, 0x24, ring.start + ring.size),
        (word::WRITE, 0x34, ring.pointer),
        (word::READ, 0x38, ring.pointer),
    ];
    let by_hardware = random.once_in(4);
    for (index, offset, value) in words {
        if by_hardware {
            duo.write(offset, value as u16);
            duo.write(offset + 2, (value >> 16) as u16);
        } else {
            duo.poke(index, value);
        }
    }
}

/// Moves the read pointer past bytes, as a caller would after a refusal.
pub fn skip(duo: &mut Duo, ring: &Ring, bytes: u32) {
    let place = duo.world().state[word::READ] - ring.start + bytes;
    duo.poke(word::READ, ring.start + place % ring.size);
}

/// Words that no call looks at: the marks, and a draw's while none is open.
pub fn leave_stale_words(duo: &mut Duo, random: &mut Random) {
    if random.once_in(2) {
        duo.poke(word::HIGH_MARK, random.word());
        duo.poke(word::LOW_MARK, random.word());
    }
    if random.once_in(3) {
        for index in [word::PRIMITIVE, word::FORMAT, word::LEFT] {
            duo.poke(index, random.word());
        }
    }
}

/// Some registers that are not zero, so that what should stay can be seen.
pub fn scatter_registers(duo: &mut Duo, random: &mut Random) -> CpRegisters {
    let mut cp = CpRegisters::default();
    for _ in 0..random.below(8) {
        let register = random.below(254) as usize;
        duo.poke(word::BP + register, random.u32() & 0xFF_FFFF);
    }
    for array in 12..16 {
        duo.poke(word::BASES + array, random.u32() & 0x3FF_FFFF);
        duo.poke(word::STRIDES + array, random.u32() & 0xFF);
    }
    cp.vcd = good_vcd(random);
    duo.poke(word::VCD_0, cp.vcd[0]);
    duo.poke(word::VCD_1, cp.vcd[1]);
    for format in 0..8 {
        if random.once_in(4) {
            cp.vat[format] = good_vat(random);
            set_vat(duo, format, &cp.vat[format]);
        }
    }
    cp
}

pub fn set_vat(duo: &mut Duo, format: usize, vat: &[u32; 3]) {
    for (group, &number) in vat.iter().enumerate() {
        duo.poke(word::VAT + 3 * format + group, number);
    }
}

/// How a stream is fed and taken.
#[derive(Clone, Copy)]
pub enum Pace {
    /// One byte, one take: every deciding byte is seen.
    ByteByByte,
    /// As much as there is room for, then a run.
    Bulk,
    /// At most 64 KiB, then runs of any limits.
    Pieces,
    /// Pieces, and runs that end by their limit, at waiting or at a refusal.
    Runs,
    Mixed,
}

/// Feeds the units in pieces that fit, with looks, takes, runs and reads between.
pub fn play(duo: &mut Duo, random: &mut Random, bytes: &[u8], pace: Pace) {
    let mut at = 0;
    while at < bytes.len() && duo.fault().is_none() {
        let most = duo.world().room().min((bytes.len() - at) as u32);
        let piece = match pace {
            Pace::ByteByByte => most.min(1),
            Pace::Bulk => most,
            Pace::Pieces => most.min(random.pick(&[4096, 65_535, 65_536])),
            Pace::Runs => most.min(random.between(1, 600)),
            Pace::Mixed => random.below(most + 1).min(random.between(1, 300)),
        };
        duo.feed(&bytes[at..at + piece as usize]);
        at += piece as usize;
        take_at(duo, random, pace);
        // A full ring whose next unit is refused takes nothing more.
        if most == 0 && !took_some(duo) {
            return;
        }
    }
    end_of_stream(duo, random);
}

/// Takes what a pace has after a feed.
fn take_at(duo: &mut Duo, random: &mut Random, pace: Pace) {
    match pace {
        Pace::ByteByByte => {
            take_one(duo, random);
        }
        Pace::Bulk => {
            duo.run(MOST_UNITS);
        }
        Pace::Pieces => {
            duo.read(random.pick(&[0x030, 0x032]));
            for _ in 0..random.below(3) {
                duo.run(any_limit(random));
            }
        }
        Pace::Runs => {
            for _ in 0..random.between(1, 3) {
                sometimes_look(duo, random);
                duo.run(random.below(24));
            }
        }
        Pace::Mixed => take_some(duo, random, 8),
    }
}

/// Feeds just the bytes that are lacking, as a take or a run tells them, until
/// the stream ends or a unit is refused.
pub fn load(duo: &mut Duo, random: &mut Random, bytes: &[u8]) {
    let mut rest = bytes;
    while duo.fault().is_none() {
        let (answer, lacking) = if random.once_in(2) {
            let (answer, [_, lacking]) = duo.run(random.between(1, 40));
            (answer, lacking)
        } else {
            let (answer, _, lacking) = take_one(duo, random);
            (answer, lacking)
        };
        match answer {
            DONE => {}
            WAITING if !rest.is_empty() => {
                let (piece, after) = rest.split_at(rest.len().min(lacking as usize));
                duo.feed(piece);
                rest = after;
            }
            _ => return,
        }
    }
}

/// Runs as far as it goes; whether a unit was done.
fn took_some(duo: &mut Duo) -> bool {
    let (_, [units, _]) = duo.run(MOST_UNITS);
    units != 0
}

/// Takes a unit, about every second time right after a look.
pub fn take_one(duo: &mut Duo, random: &mut Random) -> (u32, UnitWords, u32) {
    if random.once_in(2) {
        duo.look();
    }
    duo.take()
}

/// Units by takes and by runs, sometimes looked at before; then sometimes a read.
pub fn take_some(duo: &mut Duo, random: &mut Random, most: u32) {
    for _ in 0..random.below(4) {
        if random.once_in(3) {
            sometimes_look(duo, random);
            duo.run(random.below(most));
        } else {
            take_one(duo, random);
        }
    }
    sometimes_look(duo, random);
    sometimes_read(duo, random);
}

/// What is left, so that the next stream finds the ring empty.
fn end_of_stream(duo: &mut Duo, random: &mut Random) {
    if random.once_in(2) {
        duo.run(any_limit(random));
    } else {
        for _ in 0..5 {
            take_one(duo, random);
        }
    }
    duo.run(MOST_UNITS);
}

/// Limits at and past the most of a run, and small ones.
pub fn any_limit(random: &mut Random) -> u32 {
    let highest = random.pick(&[MOST_UNITS, u32::MAX]);
    match random.below(6) {
        0 => random.pick(&[0, 65_535, 65_536, 0x8000_0000, u32::MAX]),
        1 => random.between(MOST_UNITS - 1, MOST_UNITS + 1),
        2 => 0x1_0000 * random.below(18) + random.below(3),
        3 => random.between(65_536, highest),
        _ => random.below(1000),
    }
}

/// Sometimes a look, whatever comes next.
pub fn sometimes_look(duo: &mut Duo, random: &mut Random) {
    if random.once_in(4) {
        duo.look();
    }
}

/// Sometimes a read.
pub fn sometimes_read(duo: &mut Duo, random: &mut Random) {
    if random.once_in(4) {
        duo.read(random.pick(&[0x000, 0x030, 0x030, 0x032, 0x034, 0x036, 0x038, 0x03A]));
    }
}
