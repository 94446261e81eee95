//! Recordings: written, read back, fed and run; files that are damaged; writings
//! that are refused.

use crate::before::{LARGEST_BEFORE, LONGEST_BEFORE};
use crate::duo::Duo;
use crate::random::Random;
use crate::recording::{Holds, Section, NUMBER_BYTES, SECTIONS};
use crate::stream::{open_ring, open_ring_of, play, scatter_registers, Pace};
use crate::units::Units;
use crate::world::{word, Lent, USUAL};
use model::words::DONE;
use model::{LARGEST_RING, LONGEST_STREAM, RECORDING_HEAD_BYTES as HEAD};

/// The bits of the registers that are narrower than a word.
const NARROW: [(usize, usize, u32); 3] = [
    (word::BASES, 16, 0x3FF_FFFF),
    (word::STRIDES, 16, 0xFF),
    (word::BP, 256, 0xFF_FFFF),
];

/// XF words that are not 4,184.
const OTHER_LENGTHS: [usize; 5] = [0, 1, 4183, 4185, 8368];

/// The first and the last word of each kind of register.
const REGISTERS: [usize; 10] = [11, 14, 15, 38, 39, 54, 55, 70, 71, 326];

/// A recording by chance: written, read back by another machine, and run; or a
/// damaged one, or writings that are refused.
pub fn recordings(duo: &mut Duo, random: &mut Random) {
    match random.below(9) {
        0..=2 => {
            let long = random.once_in(6);
            let length = random.pick(&[LONGEST_BEFORE, LONGEST_BEFORE, 40_000]);
            written_and_run(duo, random, long.then_some(length));
        }
        3..=5 => damaged(duo, random),
        6 | 7 => refused_writings(duo, random),
        _ => rests(duo, random),
    }
}

/// Some of the registers that no vertex looks at, within their widths; sometimes
/// all of them.
fn record_registers(duo: &mut Duo, random: &mut Random) {
    let once_in = random.pick(&[1, 4, 30]);
    for index in [11, 12] {
        duo.poke(index, random.word());
    }
    for (from, count, bits) in NARROW {
        for index in from..from + count {
            if random.once_in(once_in) {
                duo.poke(index, random.word() & bits);
            }
        }
    }
}

/// An open draw, or words of one.
fn leave_a_draw(duo: &mut Duo, random: &mut Random) {
    let draw = [random.below(2), random.below(8), 0, random.between(1, 9)];
    for (at, value) in draw.into_iter().enumerate() {
        duo.poke(word::DRAW_OPEN + at, value);
    }
}

/// A ring for a stream of so many bytes, or of any.
fn ring_for(duo: &mut Duo, random: &mut Random, length: Option<usize>) {
    match length {
        None => open_ring(duo, random),
        Some(length) if length <= LONGEST_BEFORE => open_ring_of(duo, random, LARGEST_BEFORE),
        Some(_) => open_ring_of(duo, random, LARGEST_RING),
    };
}

/// What one machine recorded another reads, whole or in two parts, and runs. A stream may
/// be brought to a length.
pub fn written_and_run(duo: &mut Duo, random: &mut Random, length: Option<usize>) {
    duo.scenario("recordings");
    open_ring(duo, random);
    let mut units = Units::new(scatter_registers(duo, random));
    record_registers(duo, random);
    for _ in 0..random.pick(&[0, 1, 5, 20]) {
        units.add(random);
    }
    let mut stream = units.bytes();
    if let Some(length) = length {
        stream.resize(length, random.pick(&[0x00, 0x00, 0x48]));
    }
    let tail = random.pick(&[0, 0, 1, 500]);
    let (_, file) = duo.write_recording(&stream, HEAD + stream.len() + tail);
    duo.write_recording_head(stream.len(), HEAD + tail);
    ring_for(duo, random, length);
    scatter_registers(duo, random);
    leave_a_draw(duo, random);
    read(duo, random, &file);
    let paces = match length {
        None => [Pace::Bulk, Pace::Runs, Pace::Mixed],
        Some(_) => [Pace::Bulk, Pace::Bulk, Pace::Pieces],
    };
    let recorded = file.get(HEAD..).unwrap_or_default();
    let pace = random.pick(&paces);
    play(duo, random, recorded, pace);
}

/// A whole file, or its head and the count of what is behind it.
fn read(duo: &mut Duo, random: &mut Random, file: &[u8]) {
    if random.once_in(2) {
        duo.read_recording(file);
        return;
    }
    let looked_at = random.pick(&[HEAD, file.len()]).min(file.len());
    let (answer, length) = duo.read_recording_head(&file[..looked_at]);
    if answer == DONE && duo.fault().is_none() {
        duo.check_recording_rest(length, file.len() - HEAD);
    }
}

/// A fresh machine of the usual lengths with registers by chance; window, control
/// and draw by chance too, as no recording looks at them.
fn any_machine(duo: &mut Duo, random: &mut Random) {
    duo.fresh();
    duo.hold(USUAL);
    record_registers(duo, random);
    for index in 0..word::BASES {
        if random.once_in(2) {
            duo.poke(index, random.word());
        }
    }
}

fn lend_xf(duo: &mut Duo, xf: usize) {
    let Lent { ring, vertex, .. } = USUAL;
    duo.lend(ring, xf, vertex);
}

/// Files with a fault or a few, each read whole and in parts.
fn damaged(duo: &mut Duo, random: &mut Random) {
    duo.scenario("damaged recordings");
    any_machine(duo, random);
    let length = random.pick(&[0, 1, 3, 4, 40, 700]);
    let stream = random.bytes(length);
    let (_, file) = duo.write_recording(&stream, HEAD + length);
    for _ in 0..random.between(6, 12) {
        if duo.fault().is_some() {
            return;
        }
        let mut spoilt = file.clone();
        for _ in 0..random.pick(&[1, 1, 1, 2, 2, 3]) {
            damage(random, &mut spoilt, length);
        }
        let mut xf = USUAL.xf;
        if random.once_in(10) {
            xf = random.pick(&OTHER_LENGTHS);
        }
        read_every_way(duo, random, &spoilt, xf);
    }
}

/// Memory that holds other things than the file, with so many XF words; window,
/// control and an open draw by chance.
fn another_machine(duo: &mut Duo, random: &mut Random, xf: usize) {
    duo.hold(Lent { xf, ..USUAL });
    for index in 0..=word::LEFT {
        duo.poke(index, random.word());
    }
    duo.poke(word::DRAW_OPEN, 1);
    for index in REGISTERS {
        duo.poke(index, random.word());
    }
}

/// Where its fault is, read whole and by its head alone, each by another machine, and
/// what is behind the head.
fn read_every_way(duo: &mut Duo, random: &mut Random, file: &[u8], xf: usize) {
    duo.find_recording_fault(file);
    another_machine(duo, random, xf);
    duo.read_recording(file);
    another_machine(duo, random, xf);
    let (answer, length) = duo.read_recording_head(file);
    if answer == DONE && duo.fault().is_none() {
        duo.check_recording_rest(length, file.len() - HEAD);
    }
}

/// A fault of one kind.
fn damage(random: &mut Random, file: &mut Vec<u8>, length: usize) {
    let section = random.below(SECTIONS.len() as u32) as usize;
    let section = &SECTIONS[section];
    let last = section.numbers - 1;
    let any = random.below(section.numbers as u32) as usize;
    let number = random.pick(&[0, last, any, any]);
    match random.below(12) {
        0..=4 => cut(random, file, section, number),
        5..=8 => put(file, section.place(number), any_number(random, section)),
        9 => file.resize(file.len() + random.pick(&[1, 4, 9, 700]), random.u8()),
        10 => file.truncate(HEAD + random.below(length as u32 + 1) as usize),
        _ => count_stream(random, file, length as u32),
    }
}

/// Cuts the file within a number or right before it; sometimes the number would
/// be wrong.
fn cut(random: &mut Random, file: &mut Vec<u8>, section: &Section, number: usize) {
    if random.once_in(2) {
        put(file, section.place(number), u32::MAX);
    }
    file.truncate(section.place(number) + random.below(4) as usize);
}

/// Puts a number into the file, where it is still there.
fn put(file: &mut [u8], place: usize, number: u32) {
    if let Some(four) = file.get_mut(place..place + NUMBER_BYTES) {
        four.copy_from_slice(&number.to_be_bytes());
    }
}

/// A number that is often just past what may stand there.
fn any_number(random: &mut Random, section: &Section) -> u32 {
    let (Holds::Count(right) | Holds::AtMost(right)) = section.holds;
    let past = right.wrapping_add(1);
    let bit = right | 1 << random.below(32);
    let any = random.word();
    random.pick(&[right, past, past, right.wrapping_sub(1), bit, bit, any])
}

/// Another count of the stream; sometimes there are as many bytes behind it.
fn count_stream(random: &mut Random, file: &mut Vec<u8>, length: u32) {
    let any = random.word();
    let (before, longest) = (LONGEST_BEFORE as u32, LONGEST_STREAM as u32);
    let count = random.pick(&[
        length + 1,
        length.saturating_sub(1),
        0x1_0000 + length,
        0x10_0000 + length,
        0x100_0000 + length,
        before,
        before + 1,
        longest,
        longest + 1,
        longest + 1,
        any,
    ]);
    put(file, HEAD - NUMBER_BYTES, count);
    if count <= longest + 1 && file.len() >= HEAD && random.once_in(2) {
        file.resize(HEAD + count as usize, 0x48);
    }
}

/// Writings with a fault or a few: a register too wide, XF words of another length,
/// a stream too long, an output too short.
fn refused_writings(duo: &mut Duo, random: &mut Random) {
    duo.scenario("refused recordings");
    for _ in 0..random.between(4, 8) {
        any_machine(duo, random);
        let past = LONGEST_BEFORE + 1;
        let mut length = random.pick(&[0, 1, 100, LONGEST_BEFORE, past, LONGEST_STREAM]);
        let mut short = 0;
        for _ in 0..random.pick(&[0, 1, 1, 1, 2, 3]) {
            match random.below(4) {
                0 => widen_register(duo, random),
                1 => lend_xf(duo, random.pick(&OTHER_LENGTHS)),
                2 => length = LONGEST_STREAM + random.pick(&[1, 1, 2, 100]),
                _ => short = random.pick(&[1, 1, 2, 5000, HEAD, HEAD + length]),
            }
        }
        // A stream of a mebibyte is seldom there; its head is written always.
        if length <= past || random.once_in(8) {
            let room = HEAD + length - short.min(HEAD + length);
            let stream = random.bytes(length);
            duo.write_recording(&stream, room);
        }
        let wide = 0x1_0000_0000 + length;
        let told = random.pick(&[length, length, wide, usize::MAX]);
        duo.write_recording_head(told, HEAD - short.min(HEAD));
    }
}

/// A register above its width, often by one.
fn widen_register(duo: &mut Duo, random: &mut Random) {
    let (from, count, bits) = random.pick(&NARROW);
    let any = random.below(count as u32) as usize;
    let at = random.pick(&[0, count - 1, any]);
    let wide = bits | (bits + 1) << random.below(bits.leading_zeros());
    duo.poke(from + at, random.pick(&[bits + 1, wide, u32::MAX]));
}

/// Streams of any lengths beside counts of any.
fn rests(duo: &mut Duo, random: &mut Random) {
    duo.scenario("rests of recordings");
    let (before, longest) = (LONGEST_BEFORE as u32, LONGEST_STREAM as u32);
    for _ in 0..random.between(3, 10) {
        let any = random.word();
        let length = random.pick(&[0, 1, 700, before, before + 1, longest, longest + 1, any]);
        let (bytes, any) = (length as usize, random.word() as usize);
        let rest = random.pick(&[
            bytes,
            bytes + 1,
            bytes.saturating_sub(1),
            bytes + 0x1_0000,
            bytes + 0x10_0000,
            bytes + 0x1_0000_0000,
            0,
            usize::MAX,
            any,
        ]);
        duo.check_recording_rest(length, rest);
    }
}

/// The seed of the fixed part.
const FIXED: u64 = 0x7265_636F;

/// A recording with a stream of nine bytes.
fn recorded(duo: &mut Duo, random: &mut Random) -> Vec<u8> {
    any_machine(duo, random);
    duo.poke(word::BP + 0xFE, 0x12_3456);
    let stream = random.bytes(9);
    let (_, file) = duo.write_recording(&stream, HEAD + 9);
    duo.write_recording_head(9, HEAD);
    file
}

/// Files and writings with each kind of fault, whatever the seed.
pub fn every_fault(duo: &mut Duo) {
    duo.scenario("every fault of a recording");
    let random = &mut Random::new(FIXED);
    let file = recorded(duo, random);
    for section in &SECTIONS {
        for number in [0, section.numbers - 1] {
            every_number(duo, random, &file, section, number);
        }
    }
    every_rest(duo, random, &file, &RESTS);
    every_length(duo, random, &file);
    every_writing(duo, &WRITINGS);
}

/// Those with a stream of a mebibyte, which take longer.
pub fn every_long_fault(duo: &mut Duo) {
    duo.scenario("every fault of a long recording");
    let random = &mut Random::new(FIXED);
    let file = recorded(duo, random);
    every_rest(duo, random, &file, &LONG_RESTS);
    every_writing(duo, &LONG_WRITINGS);
}

/// A number at and past its bounds, and the file cut behind it and at each of its
/// bytes.
fn every_number(duo: &mut Duo, random: &mut Random, file: &[u8], section: &Section, number: usize) {
    let place = section.place(number);
    let (Holds::Count(right) | Holds::AtMost(right)) = section.holds;
    let mut spoilt = file.to_vec();
    for number in [
        right,
        right.wrapping_sub(1),
        right.wrapping_add(1),
        u32::MAX,
    ] {
        put(&mut spoilt, place, number);
        read_every_way(duo, random, &spoilt, USUAL.xf);
    }
    for bytes in (0..=NUMBER_BYTES).rev() {
        spoilt.truncate(place + bytes);
        read_every_way(duo, random, &spoilt, USUAL.xf);
    }
}

/// A stream one byte too long.
const LONG: usize = LONGEST_STREAM + 1;

/// A stream's count, and the bytes behind the head.
type Rest = (usize, usize);

const RESTS: [Rest; 17] = [
    (9, 9),
    (9, 8),
    (9, 10),
    (9, 0),
    (0, 0),
    (0, 1),
    (LONGEST_BEFORE, LONGEST_BEFORE),
    (LONGEST_BEFORE, LONGEST_BEFORE - 1),
    (LONGEST_BEFORE, LONGEST_BEFORE + 1),
    (LONGEST_BEFORE + 1, 0),
    (LONGEST_BEFORE + 1, LONGEST_BEFORE + 1),
    (LONGEST_BEFORE + 1, LONGEST_BEFORE + 2),
    (0x1_0009, 9),
    (0x10_0009, 9),
    (0x100_0009, 9),
    (LONGEST_STREAM, LONGEST_BEFORE),
    (LONG, 0),
];

const LONG_RESTS: [Rest; 4] = [
    (LONGEST_STREAM, LONGEST_STREAM - 1),
    (LONGEST_STREAM, LONGEST_STREAM),
    (LONGEST_STREAM, LONG),
    (LONG, LONG),
];

/// What is behind the head: cut, too long, and with a count above the limit.
fn every_rest(duo: &mut Duo, random: &mut Random, file: &[u8], rests: &[Rest]) {
    for &(count, bytes) in rests {
        let count = count as u32;
        let mut spoilt = file.to_vec();
        spoilt.resize(HEAD + bytes, 0x48);
        put(&mut spoilt, HEAD - NUMBER_BYTES, count);
        read_every_way(duo, random, &spoilt, USUAL.xf);
        duo.check_recording_rest(count, bytes);
        duo.check_recording_rest(count, bytes + 0x1_0000_0000);
    }
}

/// 2 before the faults of a file.
fn every_length(duo: &mut Duo, random: &mut Random, file: &[u8]) {
    let mut spoilt = file.to_vec();
    put(&mut spoilt, 0, 255);
    let mut longer = file.to_vec();
    longer.push(0);
    for xf in OTHER_LENGTHS {
        for file in [file, &spoilt, &longer, &[]] {
            read_every_way(duo, random, file, xf);
        }
    }
}

/// A register too wide, XF words, a stream's bytes and the output's.
type Writing = (Option<(usize, u32)>, usize, usize, usize);

const WRITINGS: [Writing; 8] = [
    (Some((word::BASES + 15, 0x400_0000)), 4184, 0, HEAD),
    (Some((word::STRIDES, 0x100)), 4184, 0, HEAD),
    (None, 4185, 0, HEAD),
    (None, 4184, 9, HEAD + 8),
    (None, 4184, 9, HEAD - 1),
    (None, 4184, 9, HEAD + 20),
    (None, 4184, LONGEST_BEFORE, HEAD + LONGEST_BEFORE),
    (None, 4184, LONGEST_BEFORE + 1, HEAD + LONGEST_BEFORE + 1),
];

const LONG_WRITINGS: [Writing; 6] = [
    (Some((word::BP + 0xFE, 0x100_0000)), 4183, LONG, 0),
    (None, 4183, LONG, 0),
    (None, 4184, LONG, 0),
    (None, 4184, LONG, HEAD + LONG),
    (None, 4184, LONGEST_STREAM, HEAD + LONGEST_STREAM - 1),
    (None, 4184, LONGEST_STREAM, HEAD + LONGEST_STREAM),
];

/// 1, 2, 20 and 16, each with all that come later; window, control and draw are such
/// as no machine has.
fn every_writing(duo: &mut Duo, writings: &[Writing]) {
    for &(wide, xf, length, room) in writings {
        duo.fresh();
        (0..=word::LEFT).for_each(|index| duo.poke(index, u32::MAX));
        lend_xf(duo, xf);
        if let Some((index, number)) = wide {
            duo.poke(index, number);
        }
        duo.write_recording(&vec![0x48; length], room);
        duo.write_recording_head(length, room);
        duo.write_recording_head(0x1_0000_0000 + length, room);
    }
    lend_xf(duo, USUAL.xf);
}
