//! Holds the hand-tuned C, whose times stand beside the proved library's, to the proved
//! library: the calls of `compare`, from seeds, and whole vertices at once.
#![cfg(hand_c)]

mod common;

use common::format::format;
use common::Hand;
use compare::duo::Duo;
use compare::random::Random;
use compare::scenarios::{self, cuts, formats_between_draws};
use compare::side::Proved;
use model::words::{FormatWords, ValueWords, VertexWords};
use model::ATTRIBUTES;

/// Values before a call.
const BEFORE: ValueWords = [0xA5A5_A5A5; 10];

/// At least so many calls from a seed; how many there were.
fn compared(seed: u64, calls: u64) -> u64 {
    let mut duo = Duo::new(Box::new(Proved), Box::new(Hand));
    scenarios::compare(&mut duo, seed, calls);
    if let Some(fault) = duo.fault() {
        panic!("seed {seed}, {fault}");
    }
    assert_eq!(duo.tally.unreached(), Vec::<String>::new());
    duo.tally.calls
}

/// `compare`'s streams of draws and loads of formats, many of both in a run, and its draws
/// that are cut: many more of them than among the calls of a seed.
fn drawn(seed: u64, times: u32) {
    let mut random = Random::new(seed);
    let mut duo = Duo::new(Box::new(Proved), Box::new(Hand));
    for _ in 0..times {
        formats_between_draws::stream(&mut duo, &mut random);
        formats_between_draws::each_word(&mut duo, &mut random);
        cuts::draws_cut(&mut duo, &mut random);
    }
    if let Some(fault) = duo.fault() {
        panic!("seed {seed}, {fault}");
    }
}

/// A vertex of the format's length, or now and then of another; bytes of NaNs among it.
fn vertex(format: &FormatWords, random: &mut Random) -> Vec<u8> {
    let mut length = 0;
    let laid = proved::lay_out(format, &mut [0; 21], &mut [0; 21], &mut length);
    let other = laid != 0 || random.below(16) == 0;
    let bytes = if other { random.below(140) } else { length };
    let mut vertex = random.bytes(bytes as usize);
    if random.below(2) == 0 {
        for byte in &mut vertex {
            *byte = [*byte, 0x7F, 0xFF, 0x80, 0x00][random.below(5) as usize];
        }
    }
    vertex
}

/// The ten words of each attribute one after the other.
fn flat(values: &mut [ValueWords; ATTRIBUTES]) -> &mut VertexWords {
    let words = values.as_flattened_mut();
    words.try_into().expect("ten words for each attribute")
}

/// One call for all attributes beside the proved library's, and beside its one for each.
fn whole_vertices(seed: u64, times: u32) {
    let mut random = Random::new(seed);
    for _ in 0..times {
        let format = format(&mut random);
        let vertex = vertex(&format, &mut random);
        let mut expected = [BEFORE; ATTRIBUTES];
        let mut answer = 0;
        for (attribute, values) in expected.iter_mut().enumerate() {
            answer = proved::decode(&format, attribute as u32, &vertex, values);
        }
        let mut values = [BEFORE; ATTRIBUTES];
        let told = hand::decode_all(&format, &vertex, flat(&mut values));
        assert_eq!(
            (told, values),
            (answer, expected),
            "{format:X?} {vertex:X?}"
        );
        let mut values = [BEFORE; ATTRIBUTES];
        let told = proved::decode_all(&format, &vertex, flat(&mut values));
        assert_eq!(
            (told, values),
            (answer, expected),
            "proved, {format:X?} {vertex:X?}"
        );
    }
}

#[test]
fn calls_are_the_same() {
    compared(1, 500_000);
}

#[test]
fn draws_are_the_same() {
    drawn(1, 500);
}

#[test]
fn whole_vertices_are_the_same() {
    whole_vertices(1, 200_000);
}

/// `cargo test --release -p bench -- --ignored --nocapture`
#[test]
#[ignore = "takes a minute"]
fn many_calls_are_the_same() {
    let calls: u64 = (2..=6).map(|seed| compared(seed, 4_000_000)).sum();
    drawn(2, 10_000);
    whole_vertices(2, 2_000_000);
    println!("{calls} calls, 10,000 streams of draws, 2,000,000 whole vertices: no difference");
}
