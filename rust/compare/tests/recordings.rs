//! Document 02's L1, with the longer stream of its L9, of the proved library and of the
//! twin. Files are made here, number by number. A file cut at every byte of its head (and
//! read at every seventh), with every number at its bounds and past them, with two faults,
//! and with streams and rests of many lengths: its answer and the byte of its fault are
//! those that the place gives. What is refused changes nothing, a file is its head and its
//! rest, and what is written and what is read back are the same, both ways.
#![forbid(unsafe_code)]

use compare::random::Random;
use compare::recording::{Holds, NUMBER_BYTES, SECTIONS};
use compare::side::{Proved, Side, Twin};
use model::words::{StateWords, StreamWords, DONE};

const HEAD: usize = 18_016;
const LONGEST: usize = 1_048_575;
/// The longest stream until L9.
const LONGEST_BEFORE: usize = 65_535;
const XF_WORDS: usize = 4184;
/// What is lent holds this before a call.
const BEFORE: u32 = 0x5A5A_5A5A;

const SIDES: [&dyn Side; 2] = [&Proved, &Twin];

fn put(file: &mut [u8], place: usize, number: u32) {
    file[place..place + NUMBER_BYTES].copy_from_slice(&number.to_be_bytes());
}

/// A good file: numbers by chance, or all bits that each can hold.
fn file_of(random: &mut Random, length: usize, full: bool) -> Vec<u8> {
    let mut file = random.bytes(HEAD + length);
    for section in &SECTIONS {
        for at in 0..section.numbers {
            let number = match section.holds {
                Holds::Count(count) => count,
                Holds::AtMost(most) if full => most,
                Holds::AtMost(most) => random.u32() & most,
            };
            put(&mut file, section.place(at), number);
        }
    }
    put(&mut file, HEAD - NUMBER_BYTES, length as u32);
    file
}

/// What is lent to a reading, and what it tells.
#[derive(Clone, PartialEq)]
struct Reader {
    state: StateWords,
    xf: Vec<u32>,
    stream: StreamWords,
    length: u32,
}

impl Reader {
    fn new() -> Reader {
        Reader {
            state: std::array::from_fn(|at| BEFORE ^ at as u32),
            xf: vec![BEFORE; XF_WORDS],
            stream: [BEFORE; 2],
            length: BEFORE,
        }
    }

    fn whole(&mut self, side: &dyn Side, file: &[u8]) -> u32 {
        side.read_recording(&mut self.state, file, &mut self.xf, &mut self.stream)
    }

    fn head(&mut self, side: &dyn Side, head: &[u8]) -> u32 {
        side.read_recording_head(&mut self.state, head, &mut self.xf, &mut self.length)
    }
}

/// The whole file is refused, by its head and by the head alone, and its fault is at a
/// byte; nothing changes.
#[track_caller]
fn refused(file: &[u8], refusal: u32, byte: usize) {
    for side in SIDES {
        let mut reader = Reader::new();
        let answers = [reader.whole(side, file), reader.head(side, file)];
        assert_eq!(answers, [refusal; 2], "{}", side.name());
        assert!(reader == Reader::new(), "{} changes something", side.name());
        assert_eq!(side.find_recording_fault(file) as usize, byte);
    }
}

/// The file is accepted, whole and in parts; what was read, the same of both sides.
#[track_caller]
fn accepted(file: &[u8]) -> Reader {
    let length = file.len() - HEAD;
    let mut last = Reader::new();
    for side in SIDES {
        let mut parts = Reader::new();
        assert_eq!(parts.head(side, file), DONE, "{}", side.name());
        assert_eq!(parts.length as usize, length);
        assert_eq!(side.check_recording_rest(parts.length, length), DONE);
        assert_eq!(side.find_recording_fault(file) as usize, HEAD);
        last = Reader::new();
        assert_eq!(last.whole(side, file), DONE, "{}", side.name());
        assert_eq!(last.stream, [HEAD as u32, length as u32]);
        assert!((parts.state, parts.xf) == (last.state, last.xf.clone()));
        assert_eq!(last.state[..7], Reader::new().state[..7]);
        assert_eq!(last.state[7..11], [0; 4]);
    }
    last
}

/// The head is accepted, and the whole file refused for what is behind it.
#[track_caller]
fn rest_refused(file: &[u8], refusal: u32) {
    for side in SIDES {
        let (mut whole, mut parts) = (Reader::new(), Reader::new());
        assert_eq!(whole.whole(side, file), refusal, "{}", side.name());
        assert!(whole == Reader::new(), "{} changes something", side.name());
        assert_eq!(parts.head(side, file), DONE);
        let rest = side.check_recording_rest(parts.length, file.len() - HEAD);
        assert_eq!(rest, refusal);
        assert_eq!(side.find_recording_fault(file) as usize, HEAD);
    }
}

/// Both sides write the same file, which is as long as the output.
#[track_caller]
fn written(state: &StateWords, xf: &[u32], stream: &[u8]) -> Vec<u8> {
    let mut last = Vec::new();
    for side in SIDES {
        let (mut state, mut xf, mut written) = (*state, xf.to_vec(), BEFORE);
        let mut output = vec![0xEE; HEAD + stream.len()];
        let answer = side.write_recording(&mut state, &mut xf, stream, &mut output, &mut written);
        assert_eq!((answer, written as usize), (DONE, HEAD + stream.len()));
        let mut head = vec![0xEE; HEAD];
        let length = stream.len();
        let answer =
            side.write_recording_head(&mut state, &mut xf, length, &mut head, &mut written);
        assert_eq!((answer, written as usize), (DONE, HEAD));
        assert!(head == output[..HEAD], "{}", side.name());
        last = output;
    }
    last
}

/// Every byte is found; every seventh, and those about a section's edge, are read too.
#[test]
fn a_file_cut_at_every_byte() {
    let random = &mut Random::new(1);
    let file = file_of(random, 9, false);
    let about_an_edge = |length: usize| {
        let near = |section: &compare::recording::Section| section.from.abs_diff(length) < 9;
        SECTIONS.iter().any(near)
    };
    for length in 0..HEAD {
        let cut = &file[..length];
        for side in SIDES {
            assert_eq!(side.find_recording_fault(cut) as usize, length);
        }
        if length % 7 == 0 || about_an_edge(length) || length > HEAD - 9 {
            refused(cut, 22, length);
        }
    }
    for length in 0..9 {
        rest_refused(&file[..HEAD + length], 22);
    }
}

/// "a number that is not whole is no number": its bytes that are there are FF.
#[test]
fn a_cut_number_is_neither_wide_nor_a_wrong_count() {
    let random = &mut Random::new(2);
    let file = file_of(random, 0, false);
    for section in &SECTIONS {
        for at in [0, section.numbers / 2, section.numbers - 1] {
            let place = section.place(at);
            let mut spoilt = file.clone();
            put(&mut spoilt, place, u32::MAX);
            for bytes in 0..NUMBER_BYTES {
                refused(&spoilt[..place + bytes], 22, place + bytes);
            }
        }
    }
}

/// Each of the head's 4,504 numbers: at its bounds, where it has some, and past them.
#[test]
fn every_number_at_its_bounds() {
    let random = &mut Random::new(3);
    accepted(&file_of(random, 3, true));
    let mut file = file_of(random, 65, false);
    for section in SECTIONS.iter().filter(|section| section.can_be_wrong()) {
        let (refusal, wrong) = match section.holds {
            Holds::Count(count) => (20, vec![0, count - 1, count + 1, u32::MAX]),
            Holds::AtMost(most) if section.numbers == 1 => (20, vec![most + 1, u32::MAX]),
            Holds::AtMost(most) => (21, vec![most + 1, most | 1 << 31]),
        };
        for at in 0..section.numbers {
            let place = section.place(at);
            let right = file[place..place + NUMBER_BYTES].to_vec();
            for &number in &wrong {
                put(&mut file, place, number);
                refused(&file, refusal, place);
            }
            file[place..place + NUMBER_BYTES].copy_from_slice(&right);
        }
    }
    accepted(&file);
}

/// "Refused at the first place in the file", whatever comes after it.
#[test]
fn the_first_of_two_faults() {
    let random = &mut Random::new(4);
    let file = file_of(random, 20, false);
    let wrong: Vec<_> = SECTIONS
        .iter()
        .filter(|section| section.can_be_wrong())
        .collect();
    for (at, first) in wrong.iter().enumerate() {
        let refusal = if first.numbers == 1 { 20 } else { 21 };
        let place = first.place(first.numbers - 1);
        let mut spoilt = file.clone();
        put(&mut spoilt, place, u32::MAX);
        refused(&spoilt[..place + NUMBER_BYTES], refusal, place);
        for second in &wrong[at + 1..] {
            put(&mut spoilt, second.place(0), u32::MAX);
            refused(&spoilt, refusal, place);
        }
        refused(&spoilt[..HEAD + 1], refusal, place);
        spoilt.push(0);
        refused(&spoilt, refusal, place);
    }
}

/// Streams of 0 to 1,048,575 bytes, one byte fewer and one more; and a count above these,
/// whatever is behind it.
#[test]
fn streams_of_many_lengths() {
    let random = &mut Random::new(5);
    let about_before = [65_534, LONGEST_BEFORE, 65_536, 65_537];
    let lengths = [0, 1, 2, 3, 4, 255, 256, 1000, LONGEST - 1, LONGEST];
    for length in about_before.into_iter().chain(lengths) {
        let mut file = file_of(random, length, false);
        accepted(&file);
        file.push(0x48);
        rest_refused(&file, 23);
        if length != 0 {
            rest_refused(&file[..HEAD + length - 1], 22);
            rest_refused(&file[..HEAD], 22);
        }
    }
    for count in [1_048_576, 1_048_577, 0x10_0009, 0x100_0009, u32::MAX] {
        for length in [0, 9, LONGEST_BEFORE, LONGEST, LONGEST + 1, LONGEST + 2] {
            let mut file = file_of(random, length, false);
            put(&mut file, HEAD - NUMBER_BYTES, count);
            refused(&file, 20, HEAD - NUMBER_BYTES);
        }
    }
}

/// "An accepted file is exactly what the writer gives for its content", and what was
/// written is read back.
#[test]
fn there_and_back() {
    let random = &mut Random::new(6);
    for round in 0..40 {
        let length = random.pick(&[0, 1, 50, 3000, LONGEST_BEFORE, LONGEST]);
        let file = file_of(random, length, round % 4 == 0);
        let reader = accepted(&file);
        assert!(written(&reader.state, &reader.xf, &file[HEAD..]) == file);
        let mut state = random.array();
        state[11..].copy_from_slice(&reader.state[11..]);
        let again = accepted(&written(&state, &reader.xf, &[]));
        assert_eq!(again.state, reader.state);
        assert!(again.xf == reader.xf);
    }
}

/// "To read a head and then to check the rest is to read the file": of files with
/// faults by chance.
#[test]
fn a_file_is_its_head_and_its_rest() {
    let random = &mut Random::new(7);
    for _ in 0..300 {
        let length = random.below(60) as usize;
        let mut file = file_of(random, length, false);
        for _ in 0..random.below(3) {
            let place = NUMBER_BYTES * random.below(4504) as usize;
            put(&mut file, place, random.word());
        }
        if random.once_in(2) {
            file.resize(random.pick(&[HEAD, HEAD + length + 1, length]), 0);
        }
        for side in SIDES {
            let (mut whole, mut parts) = (Reader::new(), Reader::new());
            let answer = whole.whole(side, &file);
            let mut told = parts.head(side, &file);
            if told == DONE {
                told = side.check_recording_rest(parts.length, file.len() - HEAD);
            }
            assert_eq!(answer, told, "{}", side.name());
        }
    }
}
