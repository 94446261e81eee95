//! Document 02's L9: "Raise the size limit to 1,048,576, and a run's limit and the
//! recording's stream to 1,048,575; a run's higher limit counts as that. Files written
//! before keep their meaning byte by byte. An earlier reader refuses a file written with
//! a longer stream by 20."
#![forbid(unsafe_code)]

mod common;

use common::{told, Bench, Random};
use model::words::{self, DONE, STATE_WORDS};
use model::{Answer, Command, End, Refusal, Run, State, XF_WORDS};

const LARGEST: u32 = 1_048_576;
const MOST: u32 = 1_048_575;
/// The head of a recording, and where its last number, the stream's count, stands.
const HEAD: usize = 18_016;
const STREAM_COUNT: usize = 18_012;
/// The longest stream before this request, and with it.
const LONGEST_BEFORE: u32 = 65_535;
const LONGEST: u32 = 1_048_575;

/// The window's rules as every call that tests them has them.
fn answers(bench: &Bench) -> [bool; 6] {
    let broken = |answer| answer == Answer::Refused(Refusal::BrokenState);
    let mut other = bench.copy();
    [
        bench.state.read_register(0x000).is_ok(),
        bench.state.read_register(0x030).is_ok(),
        other.feed(&[]) == Ok(()),
        !broken(bench.look()),
        !broken(other.take()),
        other.run(0).end == End::Limit,
    ]
}

#[test]
fn sizes_up_to_a_mebibyte() {
    for size in [65_536, 65_568, 131_072, 1_048_544, LARGEST] {
        assert_eq!(answers(&Bench::new(size)), [true; 6], "{size}");
    }
    for size in [1_048_577, 1_048_608, 2_097_152] {
        assert_eq!(answers(&Bench::new(size)), [false; 6], "{size}");
    }
    // A ring that is lent with another length than the window's.
    for length in [65_536, LARGEST - 1, LARGEST + 1] {
        let mut bench = Bench::new(LARGEST);
        bench.ring.resize(length as usize, 0);
        let expected = [true, true, false, false, false, false];
        assert_eq!(answers(&bench), expected, "{length}");
    }
}

#[test]
fn a_full_ring_takes_no_more() {
    let mut bench = Bench::new(LARGEST).at(0x1000 + 700_001);
    let bytes: Vec<u8> = (0..LARGEST).map(|at| (at * 7 + at / 256) as u8).collect();
    assert_eq!(bench.feed(&bytes), Err(Refusal::FeedTooLong));
    assert_eq!(bench.feed(&bytes[..MOST as usize]), Ok(()));
    let full = bench.copy();
    assert_eq!(bench.feed(&[0x48]), Err(Refusal::FeedTooLong));
    assert!(bench.same_as(&full));
    assert_eq!(bench.state.window.count(), Ok(MOST));
    assert_eq!(bench.state.window.write, 0x1000 + 700_000);
    let (first, second) = bytes.split_at(LARGEST as usize - 700_001);
    assert!(bench.ring[700_001..] == *first);
    assert!(bench.ring[..700_000] == second[..700_000]);
    assert_eq!(bench.ring[700_000], 0xCC);
}

/// "From 020 on, the low half is at the offset and the high half two above."
#[test]
fn a_count_has_two_halves() {
    for (count, low, high) in [
        (0xFFFF, 0xFFFF, 0x0000),
        (0x1_0000, 0x0000, 0x0001),
        (0x1_2345, 0x2345, 0x0001),
        (0xF_0000, 0x0000, 0x000F),
        (0xF_FFFF, 0xFFFF, 0x000F),
    ] {
        let mut bench = Bench::new(LARGEST).at(0x1000 + 1_000_000);
        bench.feed(&vec![0; count]).unwrap();
        assert_eq!(bench.state.read_register(0x030), Ok(low));
        assert_eq!(bench.state.read_register(0x032), Ok(high));
    }
}

/// "a run's higher limit counts as that": the longest stream of units of one byte ends a
/// run by its limit, whatever that was; one byte fewer, and it waits.
#[test]
fn a_limit_above_the_most_counts_as_it() {
    let run = |units, end| Run { units, end };
    let waiting = End::Waiting { lacking: 1 };
    for limit in [MOST, MOST + 1, 0x8000_0000, u32::MAX] {
        for byte in [0x00, 0x44, 0x48] {
            let mut bench = Bench::new(LARGEST).at(0x1000 + 12_345);
            bench.feed(&vec![byte; MOST as usize]).unwrap();
            assert_eq!(bench.run(limit), run(MOST, End::Limit));
            assert_eq!(bench.run(limit), run(0, waiting));
            bench.feed(&vec![byte; MOST as usize - 1]).unwrap();
            assert_eq!(bench.run(limit), run(MOST - 1, waiting));
        }
    }
    for limit in [65_535, 65_536, 65_537, 1_048_574] {
        let mut bench = Bench::new(LARGEST);
        bench.feed(&vec![0; MOST as usize]).unwrap();
        assert_eq!(bench.run(limit), run(limit, End::Limit));
        assert_eq!(bench.state.window.read, 0x1000 + limit);
    }
}

/// A BP load and a vertex over the end of a ring that ends at FFFFFFE0.
#[test]
fn units_over_the_end_of_a_ring_far_up() {
    let (start, end) = (0xFFEF_FFE0, 0xFFFF_FFE0);
    for straight in 1..5 {
        let mut bench = Bench::new(LARGEST);
        bench.state.window.start = start;
        bench.state.window.end = end;
        let mut bench = bench.at(end - straight);
        let load = Command::BpLoad {
            register: 0x41,
            number: 0x01_0203,
        };
        assert_eq!(bench.unit(&[0x61, 0x41, 1, 2, 3]), told(load, 5));
        assert_eq!(bench.state.window.read, start + 5 - straight);
        let mut bench = bench.at(end - 3 - straight);
        // A vertex of five bytes: a matrix's one, and a position of two s16.
        bench.state.cp.vcd[0] = 0x201;
        bench.state.cp.vat[0][0] = 3 << 1;
        bench.feed(&[0x80, 0, 1, 9, 8, 7, 6, 5]).unwrap();
        assert!(matches!(bench.take(), Answer::Unit { length: 3, .. }));
        assert_eq!(bench.take(), told(Command::Vertex, 5));
        assert_eq!(bench.vertex[..6], [9, 8, 7, 6, 5, 0x55]);
        assert_eq!(bench.state.window.read, start + 5 - straight);
    }
}

/// A reader as document 02's L1 says it, number by number, of streams up to a length;
/// its answer.
fn reader_up_to(longest: u32, file: &[u8]) -> u32 {
    let count = |right: u32| (20, right..=right);
    let numbers = |most: u32, count: usize| vec![(21, 0..=most); count];
    let head = [
        vec![count(256)],
        numbers(0xFF_FFFF, 256),
        vec![count(60)],
        numbers(u32::MAX, 28),
        numbers(0x3FF_FFFF, 16),
        numbers(0xFF, 16),
        vec![count(4184)],
        numbers(u32::MAX, 4184),
        vec![(20, 0..=longest)],
    ];
    let mut stream = 0;
    let (whole, _) = file.as_chunks();
    for (at, (refusal, right)) in head.concat().into_iter().enumerate() {
        let Some(&four) = whole.get(at) else {
            return 22;
        };
        stream = u32::from_be_bytes(four) as usize;
        if !right.contains(&u32::from_be_bytes(four)) {
            return refusal;
        }
    }
    match file.len() - HEAD {
        rest if rest < stream => 22,
        rest if rest > stream => 23,
        _ => DONE,
    }
}

/// The answer of the reader, and what it leaves and tells.
fn read(file: &[u8]) -> (u32, State, Vec<u32>, [u32; 2]) {
    let (mut state, mut xf, mut stream) = ([0; STATE_WORDS], vec![0; XF_WORDS], [0; 2]);
    let answer = words::read_recording(&mut state, file, &mut xf, &mut stream);
    let state = words::state_of(&state).expect("no draw is open");
    (answer, state, xf, stream)
}

/// A file with a stream of so many bytes, as the writer gives it.
fn file_of(random: &mut Random, length: u32) -> Vec<u8> {
    let mut state = State::fresh();
    state.bp.fill_with(|| random.next() & 0xFF_FFFF);
    state.cp.bases.fill_with(|| random.next() & 0x3FF_FFFF);
    state.cp.strides.fill_with(|| random.next() & 0xFF);
    let xf: Vec<u32> = (0..XF_WORDS).map(|_| random.next()).collect();
    let stream: Vec<u8> = (0..length).map(|_| random.next() as u8).collect();
    let mut file = vec![0; HEAD + stream.len()];
    assert_eq!(
        state.write_recording(&xf, &stream, &mut file),
        Ok(file.len())
    );
    file
}

/// "Files written before keep their meaning byte by byte": a file that an earlier reader
/// accepts is accepted, and its head with any stream up to the longest gives the same
/// registers and XF words.
#[test]
fn files_written_before_keep_their_meaning() {
    let mut random = Random(0x5EED_0009);
    for length in [0, 1, 700, LONGEST_BEFORE - 1, LONGEST_BEFORE] {
        let mut file = file_of(&mut random, length);
        assert_eq!(reader_up_to(LONGEST_BEFORE, &file), DONE);
        let (answer, state, xf, stream) = read(&file);
        assert_eq!((answer, stream), (DONE, [18_016, length]));
        for longer in [LONGEST_BEFORE + 1, LONGEST] {
            file.resize(HEAD + longer as usize, 0x48);
            file[STREAM_COUNT..HEAD].copy_from_slice(&longer.to_be_bytes());
            let told = read(&file);
            assert!(told == (DONE, state.clone(), xf.clone(), [18_016, longer]));
        }
    }
}

/// "An earlier reader refuses a file written with a longer stream by 20."
#[test]
fn an_earlier_reader_refuses_a_longer_stream() {
    let mut random = Random(0x5EED_000A);
    for length in [LONGEST_BEFORE + 1, 100_000, LONGEST - 1, LONGEST] {
        let file = file_of(&mut random, length);
        assert_eq!(read(&file).0, DONE);
        assert_eq!(reader_up_to(LONGEST_BEFORE, &file), 20);
    }
}

/// With a fault or two by chance: the answers are the earlier reader's, but that a
/// stream's count above its limit was 20 and now is that of what follows it.
#[test]
fn other_answers_are_the_earlier_ones() {
    let mut random = Random(0x5EED_000B);
    for round in 0..600 {
        let length = [0, 5, 300, LONGEST_BEFORE, 70_000][round % 5];
        let mut file = file_of(&mut random, length);
        for _ in 0..random.below(3) {
            let place = 4 * random.below(4504) as usize;
            let number = random.next() >> random.below(32);
            file[place..place + 4].copy_from_slice(&number.to_be_bytes());
        }
        if random.below(3) == 0 {
            let bytes = random.below(file.len() as u32 + 9) as usize;
            file.resize(bytes, 0);
        }
        let answer = read(&file).0;
        assert_eq!(answer, reader_up_to(LONGEST, &file));
        let count = file.get(STREAM_COUNT..HEAD).unwrap_or_default();
        let earlier = reader_up_to(LONGEST_BEFORE, &file);
        if count <= &LONGEST_BEFORE.to_be_bytes() {
            assert_eq!(answer, earlier);
        } else {
            assert!(answer == earlier || earlier == 20);
        }
    }
}
