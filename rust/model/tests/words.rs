//! The calls over words, by `include/duckhammock.h`: words wider than their
//! fields, words that are not looked at, and what a refused call leaves.
#![forbid(unsafe_code)]

use model::words::{self, StateWords, DONE, WAITING};
use model::XF_WORDS;

const WRITE: usize = 4;
const CONTROL: usize = 6;
const DRAW: usize = 7;
const VCD_0: usize = 13;
const BASE_12: usize = 39 + 12;
const STRIDE_12: usize = 55 + 12;

/// What outputs hold before a call.
const BEFORE: u32 = 0xEEEE_EEEE;

struct Bench {
    state: StateWords,
    ring: Vec<u8>,
    xf: Vec<u32>,
    vertex: Vec<u8>,
    unit: [u32; 6],
    lacking: u32,
}

impl Bench {
    /// An empty ring of 256 bytes at 1000 (hex) that reads; a position of two
    /// bytes.
    fn new() -> Bench {
        let mut state = [BEFORE; words::STATE_WORDS];
        words::fresh(&mut state);
        for (index, value) in [(0, 0x1000), (1, 0x1100), (4, 0x10FE), (5, 0x10FE)] {
            state[index] = value;
        }
        state[CONTROL] = 1;
        state[VCD_0] = 0x200;
        Bench {
            state,
            ring: vec![0xCC; 256],
            xf: vec![0xAAAA_AAAA; XF_WORDS],
            vertex: vec![0x55; 129],
            unit: [BEFORE; 6],
            lacking: BEFORE,
        }
    }

    fn with(changes: &[(usize, u32)]) -> Bench {
        let mut bench = Bench::new();
        for &(index, value) in changes {
            bench.state[index] = value;
        }
        bench
    }

    fn feed(&mut self, bytes: &[u8]) -> u32 {
        words::feed(&mut self.state, &mut self.ring, bytes)
    }

    fn look(&mut self) -> u32 {
        words::look(
            &self.state,
            &self.ring,
            &self.xf,
            &self.vertex,
            &mut self.unit,
            &mut self.lacking,
        )
    }

    fn take(&mut self) -> u32 {
        words::take(
            &mut self.state,
            &self.ring,
            &mut self.xf,
            &mut self.vertex,
            &mut self.unit,
            &mut self.lacking,
        )
    }

    /// The number and the bytes lacking of a take; a look before it tells the
    /// same, and leaves the state words.
    fn look_and_take(&mut self) -> (u32, u32) {
        let (state, lacking) = (self.state, self.lacking);
        let seen = (self.look(), self.lacking);
        assert_eq!(self.state, state);
        self.lacking = lacking;
        let taken = (self.take(), self.lacking);
        assert_eq!(seen, taken);
        taken
    }

    fn run(&mut self, limit: u32, report: &mut [u32; 2]) -> u32 {
        words::run(
            &mut self.state,
            &self.ring,
            &mut self.xf,
            &mut self.vertex,
            limit,
            report,
        )
    }
}

/// A look, a take and a run by 1, without a change but of the run's report.
fn refused_by_1(changes: &[(usize, u32)]) {
    let mut bench = Bench::with(changes);
    let before = bench.state;
    assert_eq!((bench.look(), bench.take()), (1, 1), "{changes:X?}");
    assert_eq!((bench.unit, bench.lacking), ([BEFORE; 6], BEFORE));
    let mut report = [BEFORE; 2];
    assert_eq!(bench.run(0, &mut report), 1);
    assert_eq!(report, [0, 0]);
    assert_eq!(bench.state, before);
}

#[test]
fn words_that_their_fields_cannot_hold() {
    for control in [0x40, 0x101, 0x1_0001, 0x8000_0001] {
        refused_by_1(&[(CONTROL, control)]);
    }
    for draw in [
        [2, 0, 0, 1],
        [0x100, 0, 0, 1],
        [0x101, 0, 0, 1],
        [1, 8, 0, 1],
        [1, 0x100, 0, 1],
        [1, 0, 8, 1],
        [1, 0, 0x1_0000, 1],
        [1, 0, 0, 0],
        [1, 0, 0, 0x1_0000],
        [1, 0, 0, 0x1_0001],
    ] {
        let [open, primitive, format, left] = draw;
        refused_by_1(&[(7, open), (8, primitive), (9, format), (10, left)]);
    }
}

#[test]
fn words_of_no_draw_are_not_looked_at() {
    let mut bench = Bench::with(&[(8, 9), (9, 0x109), (10, 0x1_0009)]);
    let before = bench.state;
    assert_eq!(bench.look_and_take(), (WAITING, 1));
    assert_eq!(bench.unit, [BEFORE; 6]);
    assert_eq!(bench.run(0, &mut [0; 2]), DONE);
    assert_eq!(bench.state, before);
    assert_eq!(bench.feed(&[0x48]), DONE);
    assert_eq!(bench.look(), DONE);
    assert_eq!(bench.state[DRAW..=10], before[DRAW..=10]);
    assert_eq!(bench.take(), DONE);
    assert_eq!(bench.state[DRAW..=10], [0; 4]);
    assert_eq!((bench.unit, bench.lacking), ([0x48, 0, 0, 0, 0, 1], 1));
}

/// "Where it waits, *lacking is how many bytes are lacking; else it stays."
#[test]
fn bytes_lacking_are_told_by_waiting_alone() {
    let mut bench = Bench::new();
    assert_eq!(bench.feed(&[0x48, 0x61, 0x41]), DONE);
    assert_eq!(bench.look_and_take(), (DONE, BEFORE));
    assert_eq!(bench.look_and_take(), (WAITING, 3));
    assert_eq!(bench.feed(&[0, 0, 5, 0x02]), DONE);
    assert_eq!(bench.look_and_take(), (DONE, 3));
    assert_eq!(bench.look_and_take(), (6, 3));
    bench.state[CONTROL] = 0;
    assert_eq!(bench.look_and_take(), (4, 3));
    let mut report = [BEFORE; 2];
    assert_eq!((bench.run(1, &mut report), report), (4, [0, 0]));
}

/// "unit tells the command's five words, an indexed load's memory address among
/// them, and how many bytes the unit has"
#[test]
fn a_look_tells_the_words_of_the_unit() {
    let mut bench = Bench::with(&[(BASE_12, 0x1000), (STRIDE_12, 0x40)]);
    assert_eq!(bench.feed(&[0x20, 0x00, 0x03, 0xB0, 0x00]), DONE);
    let indexed = [0x20, 3, 12, 0, 0x10C0, 5];
    assert_eq!((bench.look(), bench.unit), (DONE, indexed));
    bench.unit = [BEFORE; 6];
    assert_eq!((bench.take(), bench.unit), (DONE, indexed));
    // A look that waits, or is refused, tells none.
    bench.unit = [BEFORE; 6];
    assert_eq!((bench.look(), bench.unit), (WAITING, [BEFORE; 6]));
    assert_eq!(bench.feed(&[0x68]), DONE);
    assert_eq!((bench.look(), bench.unit), (6, [BEFORE; 6]));
}

#[test]
fn calls_that_do_not_test_a_word_leave_it() {
    let mut bench = Bench::with(&[(CONTROL, 0x1_0001), (7, 9), (8, 0x109)]);
    let before = bench.state;
    let mut value = BEFORE;
    assert_eq!(words::read_register(&bench.state, 0x002, &mut value), DONE);
    assert_eq!(value, 0x1_0001);
    assert_eq!(words::read_register(&bench.state, 0x004, &mut value), 17);
    assert_eq!(value, 0x1_0001);
    assert_eq!(bench.feed(&[0; 256]), 11);
    assert_eq!(words::write_register(&mut bench.state, 0x030, 1), 17);
    assert_eq!(words::write_register(&mut bench.state, 0x004, 1), DONE);
    assert_eq!(bench.state, before);
    assert_eq!(bench.feed(&[1, 2, 3]), DONE);
    assert_eq!(bench.ring[254..], [1, 2]);
    assert_eq!(bench.ring[0], 3);
    let mut after = before;
    after[WRITE] = 0x1001;
    assert_eq!(bench.state, after);
    assert_eq!(words::write_register(&mut bench.state, 0x002, 0xFFFF), DONE);
    after[CONTROL] = 0x3F;
    assert_eq!(bench.state, after);
}

#[test]
fn refused_calls_leave_their_outputs() {
    let mut values = [BEFORE; 10];
    for attribute in [21, 256 + 9, u32::MAX] {
        assert_eq!(
            words::decode(&[0x200, 0, 0, 0, 0], attribute, &[1, 2], &mut values),
            19
        );
    }
    assert_eq!(words::raw_words(&[0; 5], 9, &[1, 2], &mut values), 9);
    assert_eq!(values, [BEFORE; 10]);
    let (mut sizes, mut offsets, mut length) = ([0xEE; 21], [0xEE; 21], BEFORE);
    assert_eq!(
        words::lay_out(&[0; 5], &mut sizes, &mut offsets, &mut length),
        9
    );
    assert_eq!((sizes, offsets, length), ([0xEE; 21], [0xEE; 21], BEFORE));
    let (mut output, mut written) = ([0xEE; 4], BEFORE);
    for (command, answer) in [
        ([0x61, 0x41, 5, 0, 0], 16),
        ([0x161, 0x41, 5, 0, 0], 18),
        ([0x08, 0x120, 5, 0, 0], 18),
        ([0x08, 0x21, 5, 0, 0], 7),
    ] {
        let told = words::write_command(&command, &[], &mut output, &mut written);
        assert_eq!(told, answer);
    }
    assert_eq!((output, written), ([0xEE; 4], BEFORE));
}
