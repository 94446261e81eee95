//! Document 02's L6, of the proved library and of the twin, in a ring of 256
//! bytes. With a unit of every kind from every place, and cut at every byte from
//! some, with units that are refused and with each of the refusals 1 to 5: a look
//! leaves the state words, the ring, the XF words and the vertex buffer as they
//! were, and a take right after it returns the same number and tells the same unit,
//! or the same bytes lacking.
#![forbid(unsafe_code)]

use compare::side::{Proved, Side, Twin};
use compare::world::word;
use model::words::{StateWords, UnitWords, DONE, STATE_WORDS, WAITING};

const START: u32 = 0x1000;
const SIZE: usize = 256;
const XF_WORDS: usize = 4184;
/// What is lent holds this before a call; no answer is this number.
const BEFORE: u32 = 0x5A5A_5A5A;

/// What is lent to a look, and to the take after it.
#[derive(Clone, PartialEq)]
struct Bench {
    state: StateWords,
    ring: Vec<u8>,
    xf: Vec<u32>,
    vertex: Vec<u8>,
}

/// The number, the unit and the bytes lacking, as they are after a call.
type Told = (u32, UnitWords, u32);

const UNTOLD: UnitWords = [BEFORE; 6];

impl Bench {
    /// An empty ring from a place on. Vertices of format 0 have 12 bytes, and the
    /// position of format 1 an unknown format; array 12 begins at 1000 and has a
    /// stride of 40. The words of a draw that is not open are stale.
    fn new(place: usize) -> Bench {
        let mut state = [0; STATE_WORDS];
        Twin.fresh(&mut state);
        for (index, value) in [
            (word::START, START),
            (word::END, START + SIZE as u32),
            (word::WRITE, START + place as u32),
            (word::READ, START + place as u32),
            (word::CONTROL, 1),
            (word::PRIMITIVE, 0x109),
            (word::FORMAT, 0x10A),
            (word::LEFT, 0x1_000B),
            (word::VCD_0, 0x200),
            (word::VAT, 9),
            (word::VAT + 3, 5 << 1),
            (word::BASES + 12, 0x1000),
            (word::STRIDES + 12, 0x40),
        ] {
            state[index] = value;
        }
        Bench {
            state,
            ring: vec![0xEE; SIZE],
            xf: vec![0xAAAA_AAAA; XF_WORDS],
            vertex: vec![0x55; 129],
        }
    }

    fn fed(mut self, bytes: &[u8]) -> Bench {
        let answer = Twin.feed(&mut self.state, &mut self.ring, bytes);
        assert_eq!(answer, DONE);
        self
    }

    fn with_draw(mut self, format: u32) -> Bench {
        self.state[word::DRAW_OPEN..=word::LEFT].copy_from_slice(&[1, 2, format, 2]);
        self
    }

    fn look(&mut self, side: &dyn Side) -> Told {
        let (mut unit, mut lacking) = (UNTOLD, BEFORE);
        let Bench {
            state,
            ring,
            xf,
            vertex,
        } = self;
        let answer = side.look(state, ring, xf, vertex, &mut unit, &mut lacking);
        (answer, unit, lacking)
    }

    fn take(&mut self, side: &dyn Side) -> Told {
        let (mut unit, mut lacking) = (UNTOLD, BEFORE);
        let Bench {
            state,
            ring,
            xf,
            vertex,
        } = self;
        let answer = side.take(state, ring, xf, vertex, &mut unit, &mut lacking);
        (answer, unit, lacking)
    }

    /// Looks twice and then takes, of either side: all tell this, and the looks
    /// change nothing.
    #[track_caller]
    fn tells(&self, told: Told) {
        for side in [&Proved as &dyn Side, &Twin] {
            let mut bench = self.clone();
            for _ in 0..2 {
                assert_eq!(bench.look(side), told, "look of {}", side.name());
                assert!(bench == *self, "{} changed something", side.name());
            }
            assert_eq!(bench.take(side), told, "take of {}", side.name());
            // No unit is without bytes.
            assert_eq!(bench == *self, told.0 != DONE);
        }
    }

    #[track_caller]
    fn waits(&self, lacking: usize) {
        self.tells((WAITING, UNTOLD, lacking as u32));
    }

    #[track_caller]
    fn refuses(&self, refusal: u32) {
        self.tells((refusal, UNTOLD, BEFORE));
    }

    #[track_caller]
    fn shows(&self, unit: UnitWords) {
        self.tells((DONE, unit, BEFORE));
    }
}

/// A unit of every kind while no draw is open, and its six words.
fn units() -> Vec<(Vec<u8>, UnitWords)> {
    let mut longest = vec![0x10, 0xFF, 0xFF, 0x10, 0x48];
    longest.resize(69, 0xA5);
    vec![
        (vec![0x00], [0x00, 0, 0, 0, 0, 1]),
        (vec![0x44], [0x44, 0, 0, 0, 0, 1]),
        (vec![0x48], [0x48, 0, 0, 0, 0, 1]),
        (
            vec![0x08, 0xAC, 0xFF, 0, 0, 1],
            [0x08, 0xAC, 0xFF00_0001, 0, 0, 6],
        ),
        (vec![0x10, 0, 0, 0, 7, 1, 2, 3, 4], [0x10, 1, 7, 0, 0, 9]),
        (longest, [0x10, 16, 0x1048, 0, 0, 69]),
        (
            vec![0x20, 0x00, 0x03, 0xBA, 0xBC],
            [0x20, 3, 12, 0xABC, 0x10C0, 5],
        ),
        (vec![0x28, 0, 2, 0x10, 0x05], [0x28, 2, 2, 5, 0, 5]),
        (vec![0x30, 0, 1, 0xF0, 0], [0x30, 1, 16, 0, 0, 5]),
        (vec![0x38, 0, 1, 0, 0], [0x38, 1, 1, 0, 0, 5]),
        (
            vec![0x40, 1, 2, 3, 4, 5, 6, 7, 8],
            [0x40, 0x0102_0304, 0x0506_0708, 0, 0, 9],
        ),
        (vec![0x61, 0xFE, 0, 0, 9], [0x61, 0xFE, 9, 0, 0, 5]),
        (vec![0x90, 0, 2], [0x80, 2, 0, 2, 0, 3]),
        (vec![0xB8, 0, 0], [0x80, 7, 0, 0, 0, 3]),
    ]
}

#[test]
fn a_unit_is_shown_and_then_taken() {
    for (bytes, unit) in units() {
        for place in 0..SIZE {
            Bench::new(place).fed(&bytes).shows(unit);
            Bench::new(place).fed(&bytes).fed(&[0x61]).shows(unit);
        }
    }
}

#[test]
fn a_cut_unit_is_waited_for() {
    for (bytes, _) in units() {
        for there in 0..bytes.len() {
            let lacking = match there {
                0 => 1,
                1..5 if bytes[0] == 0x10 => 5 - there,
                _ => bytes.len() - there,
            };
            for place in [0, 1, 100, SIZE - 60, SIZE - 5, SIZE - 2, SIZE - 1] {
                Bench::new(place).fed(&bytes[..there]).waits(lacking);
            }
        }
    }
}

/// "in an open draw, the rest of the vertex", whatever its bytes are.
#[test]
fn a_vertex_is_shown_and_then_taken() {
    for place in 0..SIZE {
        for there in 0..12 {
            let bytes = &[0x10; 12][..there];
            Bench::new(place).with_draw(0).fed(bytes).waits(12 - there);
        }
        let bench = Bench::new(place).with_draw(0).fed(&[0x10; 14]);
        bench.shows([0x01, 0, 0, 0, 0, 12]);
    }
}

/// At the deciding byte, also where more are there; 9 and 10 of an open draw
/// without any.
#[test]
fn a_refused_unit_is_refused_to_a_look() {
    for place in [0, 100, SIZE - 3, SIZE - 1] {
        for (bytes, refusal) in [
            (&[0x01][..], 6),
            (&[0x68], 6),
            (&[0xFF, 0, 0], 6),
            (&[0x08, 0x21], 7),
            (&[0x08, 0xC0, 0, 0, 0, 0], 7),
            (&[0x10, 0, 1, 0x10, 0x57], 8),
            (&[0x91], 10),
            (&[0x91, 0, 0], 10),
        ] {
            Bench::new(place).fed(bytes).refuses(refusal);
        }
        let mut absent = Bench::new(place);
        absent.state[word::VCD_0] = 0;
        absent.clone().fed(&[0x80]).refuses(9);
        absent.with_draw(0).refuses(9);
        Bench::new(place).with_draw(1).refuses(10);
    }
}

/// 1 to 5 in their order, 2 and 3 too, whether a unit is there or not.
#[test]
fn the_first_five_are_given_by_a_look() {
    for bytes in [&[][..], &[0x00], &[0x68]] {
        let mut bench = Bench::new(SIZE - 1).fed(bytes);
        bench.state[word::CONTROL] = 0x10;
        bench.vertex.truncate(128);
        bench.xf.push(0);
        bench.state[word::BP] = 0x100_0000;
        bench.refuses(1);
        bench.state[word::BP] = 0;
        bench.refuses(2);
        bench.xf.truncate(XF_WORDS - 1);
        bench.refuses(2);
        bench.xf.push(0);
        bench.refuses(3);
        bench.vertex.push(0);
        bench.refuses(4);
        bench.state[word::CONTROL] = 0x11;
        bench.refuses(5);
        bench.state[word::CONTROL] = 0x01;
        match bytes {
            [] => bench.waits(1),
            [0x00] => bench.shows([0x00, 0, 0, 0, 0, 1]),
            _ => bench.refuses(6),
        }
    }
}

/// Of 1: the ring's length, words wider than their fields, an open draw that
/// cannot be.
#[test]
fn a_broken_state_is_refused_to_a_look() {
    for (index, value) in [
        (word::END, START + 255),
        (word::READ, START + SIZE as u32),
        (word::CONTROL, 0x1_0001),
        (word::DRAW_OPEN, 2),
        (word::DRAW_OPEN, 1),
        (word::BASES + 15, 0x400_0000),
        (word::STRIDES, 0x100),
        (word::BP + 255, 0x100_0000),
    ] {
        let mut bench = Bench::new(0).fed(&[0x00]);
        bench.state[index] = value;
        bench.refuses(1);
    }
    for length in [0, SIZE - 1, SIZE + 1] {
        let mut bench = Bench::new(0).fed(&[0x00]);
        bench.ring.resize(length, 0);
        bench.refuses(1);
    }
}
