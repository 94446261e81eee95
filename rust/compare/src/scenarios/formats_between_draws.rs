//! Draws and loads of vertex formats that follow each other closely, so that
//! one run has many of both.

use crate::duo::Duo;
use crate::formats::{any_format, good_vat, good_vcd, length_of};
use crate::random::Random;
use crate::scenarios::draws::set_format;
use crate::stream::{open_ring_of, scatter_registers, skip};
use crate::units::Units;
use model::words::{FormatWords, DONE};
use model::MOST_UNITS;

/// Streams in a ring that often wraps, whose runs have many draws and loads.
pub fn stream(duo: &mut Duo, random: &mut Random) {
    duo.scenario("formats between draws");
    let size = random.pick(&[256, 256, 512, 512, 1024, 1024, 4096, 65_536]);
    open_ring_of(duo, random, size);
    let mut units = Units::new(scatter_registers(duo, random));
    let mut bytes = Vec::new();
    while bytes.len() < 6 * size.min(4096) as usize {
        add_some(&mut units, random);
        bytes.extend(units.bytes());
        units.units.clear();
    }
    let mut rest = &bytes[..];
    while !rest.is_empty() && duo.fault().is_none() {
        let room = duo.world().room();
        if room == 0 {
            return;
        }
        let any = random.between(1, room);
        let few = random.between(1, room.min(40));
        let piece = random.pick(&[any, any, few]) as usize;
        let (now, later) = rest.split_at(piece.min(rest.len()));
        feed(duo, random, now);
        take(duo, random);
        rest = later;
    }
}

/// Bytes that have room, in one feed or in bursts of 32.
fn feed(duo: &mut Duo, random: &mut Random, bytes: &[u8]) {
    if bytes.len() <= 256 && random.once_in(4) {
        bytes.chunks(32).for_each(|burst| {
            duo.feed(burst);
        });
    } else {
        duo.feed(bytes);
    }
}

/// Runs, until what is there is taken.
fn take(duo: &mut Duo, random: &mut Random) {
    let few = random.below(20);
    duo.run(random.pick(&[MOST_UNITS, MOST_UNITS, 100_000, few]));
    for _ in 0..random.pick(&[0, 0, 8]) {
        if duo.run(random.between(1, 9)).0 != DONE {
            return;
        }
    }
    duo.run(MOST_UNITS);
}

/// A number of a vertex format, the first and the last more often.
fn format_number(random: &mut Random) -> u8 {
    let any = random.below(8) as u8;
    random.pick(&[0, 7, any])
}

/// A few units, or a draw with its vertices.
fn add_some(units: &mut Units, random: &mut Random) {
    match random.below(16) {
        0..=4 => load_words(units, random),
        5..=10 => draw_some(units, random),
        11 => units.units.push(vec![0; random.between(1, 40) as usize]),
        12 => units.add_loads(random),
        13 => units.add_xf_load(random),
        14 => units.add_without_effect(random),
        _ => units.cp_load(0xA0 + random.below(32) as u8, random.u32()),
    }
}

/// One to four of the five words of a good format.
fn load_words(units: &mut Units, random: &mut Random) {
    let format = format_number(random);
    let [vcd, vat] = [good_vcd(random).to_vec(), good_vat(random).to_vec()];
    let words = [vcd, vat].concat();
    for _ in 0..random.between(1, 4) {
        let at = random.below(5) as usize;
        units.load_word(at, format, words[at]);
    }
}

/// A draw of a format that is often the one of the last draws and loads.
fn draw_some(units: &mut Units, random: &mut Random) {
    let format = format_number(random);
    let count = random.pick(&[0, 1, 2, 3, 4, 4, 9, 40]);
    units.draw_of(random, format, count);
}

/// In one run a draw, a load of one word of its format, and a draw that then
/// has other bytes or is refused: so for each word.
pub fn each_word(duo: &mut Duo, random: &mut Random) {
    duo.scenario("a word of a format between draws");
    for at in 0..5 {
        for refused in [false, true] {
            one_word(duo, random, at, refused);
        }
    }
}

fn one_word(duo: &mut Duo, random: &mut Random, at: usize, refused: bool) {
    let (from, to) = two_formats(random, at, refused);
    let format = random.below(8) as u8;
    let size = random.pick(&[1024, 4096]);
    open_ring_of(duo, random, size);
    set_format(duo, format.into(), &from);
    let mut units = Units::new(Default::default());
    for (at, &word) in from.iter().enumerate() {
        units.follow(at, format, word);
    }
    let (first, second) = (random.between(1, 3), random.between(1, 3));
    units.draw_of(random, format, first as u16);
    units.load_word(at, format, to[at]);
    if random.once_in(3) {
        units.add_bp_load(random);
    }
    let head = 0x80 | random.u8() & 0x38 | format;
    let length = length_of(&to).unwrap_or(2);
    units.draw(random, head, second as u16, length);
    duo.feed(&units.bytes());
    duo.run(MOST_UNITS);
}

/// A format that is good, and one that differs in one word and is refused, or
/// whose vertices have other bytes.
fn two_formats(random: &mut Random, at: usize, refused: bool) -> (FormatWords, FormatWords) {
    loop {
        let from = any_format(random);
        let mut to = from;
        to[at] = any_format(random)[at];
        let lengths = (length_of(&from), length_of(&to));
        if lengths.0.is_some() && lengths.0 != lengths.1 && lengths.1.is_none() == refused {
            return (from, to);
        }
    }
}

/// CP loads of every address between draws; where one is refused, the caller
/// passes it by.
pub fn each_address(duo: &mut Duo, random: &mut Random) {
    duo.scenario("every CP address between draws");
    let ring = open_ring_of(duo, random, 1024);
    let mut units = Units::new(scatter_registers(duo, random));
    for address in 0..=255 {
        units.units.clear();
        let any = random.below(8) as u8;
        let format = random.pick(&[address & 7, address & 7, any]);
        let counts = [random.below(3), random.below(3)].map(|count| count as u16);
        units.draw_of(random, format, counts[0]);
        if random.once_in(2) {
            units.cp_load(0x30 | random.u8() & 15, random.word());
        }
        load_address(&mut units, random, address);
        units.draw_of(random, format, counts[1]);
        duo.feed(&units.bytes());
        if duo.run(MOST_UNITS).0 == 7 {
            skip(duo, &ring, 6);
            duo.run(MOST_UNITS);
        }
    }
}

/// A number that leaves every format good.
fn load_address(units: &mut Units, random: &mut Random, address: u8) {
    let number = match address >> 4 {
        5 => good_vcd(random)[0],
        6 => good_vcd(random)[1],
        group @ 7..=9 => good_vat(random)[usize::from(group - 7)],
        _ => random.word(),
    };
    units.cp_load(address, number);
}
