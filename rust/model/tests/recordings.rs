//! Document 02's L1, with the longer stream of its L9: "one file, written and read back:
//! sections in a fixed order, each after its count". The places of the numbers in the file
//! are worked out by hand: each section has 4 bytes for its count and 4 for each number.
#![forbid(unsafe_code)]

mod common;

use common::{Bench, Random};
use model::words::{self, StateWords, DONE};
use model::{check_recording_rest, find_recording_fault, Refusal, State, Stream, XF_WORDS};

/// Where the counts stand, and the first numbers.
const BP_COUNT: usize = 0;
const BP: usize = 4;
const CP_COUNT: usize = 1028;
const CP: usize = 1032;
const XF_COUNT: usize = 1272;
const XF: usize = 1276;
const STREAM_COUNT: usize = 18_012;
const HEAD: usize = 18_016;
const LONGEST: usize = 1_048_575;
/// The longest stream until L9.
const LONGEST_BEFORE: usize = 65_535;

/// CP numbers by their place in the section.
const VAT: usize = 4;
const BASES: usize = 28;
const STRIDES: usize = 44;

/// Words of the state.
const OPEN: usize = 7;
const CP_3X: usize = 11;
const BASE_WORDS: usize = 39;
const STRIDE_WORDS: usize = 55;
const BP_WORDS: usize = 71;

/// What outputs hold before a call.
const BEFORE: u32 = 0xEEEE_EEEE;

fn put(file: &mut [u8], place: usize, number: u32) {
    file[place..place + 4].copy_from_slice(&number.to_be_bytes());
}

/// A file of zeros, its counts right, with so many bytes of stream.
fn empty_file(stream: usize) -> Vec<u8> {
    let mut file = vec![0; HEAD + stream];
    put(&mut file, BP_COUNT, 256);
    put(&mut file, CP_COUNT, 60);
    put(&mut file, XF_COUNT, 4184);
    put(&mut file, STREAM_COUNT, stream as u32);
    file
}

/// A file by chance, every number within its width and often all bits of it.
fn any_file(random: &mut Random, stream: usize) -> Vec<u8> {
    let mut file = empty_file(stream);
    let mut fill = |place: usize, count: usize, bits: u32| {
        for at in 0..count {
            let number = if random.below(4) == 0 {
                bits
            } else {
                random.next() & bits
            };
            put(&mut file, place + 4 * at, number);
        }
    };
    fill(BP, 256, 0xFF_FFFF);
    fill(CP, 28, u32::MAX);
    fill(CP + 4 * BASES, 16, 0x3FF_FFFF);
    fill(CP + 4 * STRIDES, 16, 0xFF);
    fill(XF, 4184, u32::MAX);
    for byte in &mut file[HEAD..] {
        *byte = random.next() as u8;
    }
    file
}

/// The file with one number changed.
fn with(file: &[u8], place: usize, number: u32) -> Vec<u8> {
    let mut changed = file.to_vec();
    put(&mut changed, place, number);
    changed
}

/// All that a reading is lent.
#[derive(Clone, Debug, PartialEq, Eq)]
struct Reader {
    state: StateWords,
    xf: Vec<u32>,
    stream: [u32; 2],
    length: u32,
}

impl Reader {
    /// Every word is one that no state should hold.
    fn new() -> Reader {
        Reader {
            state: std::array::from_fn(|at| BEFORE ^ at as u32),
            xf: vec![BEFORE; XF_WORDS],
            stream: [BEFORE; 2],
            length: BEFORE,
        }
    }

    fn lent(xf: usize) -> Reader {
        let mut reader = Reader::new();
        reader.xf.resize(xf, BEFORE);
        reader
    }

    fn read(&mut self, file: &[u8]) -> u32 {
        words::read_recording(&mut self.state, file, &mut self.xf, &mut self.stream)
    }

    fn read_head(&mut self, head: &[u8]) -> u32 {
        words::read_recording_head(&mut self.state, head, &mut self.xf, &mut self.length)
    }
}

/// Both readers accept the file, and all but the stream's words is then the same.
#[track_caller]
fn accepted(file: &[u8]) -> Reader {
    let (mut reader, mut parts) = (Reader::new(), Reader::new());
    assert_eq!(reader.read(file), DONE);
    assert_eq!(parts.read_head(file), DONE);
    assert_eq!((&reader.state, &reader.xf), (&parts.state, &parts.xf));
    let length = file.len() - HEAD;
    assert_eq!(reader.stream, [18_016, length as u32]);
    assert_eq!(parts.length, length as u32);
    assert_eq!(words::check_recording_rest(parts.length, length), DONE);
    assert_eq!(words::find_recording_fault(file), 18_016);
    reader
}

/// The whole file is refused, and a refused reading changes nothing.
#[track_caller]
fn refused(file: &[u8], refusal: u32) {
    let mut reader = Reader::new();
    assert_eq!(reader.read(file), refusal);
    assert_eq!(reader, Reader::new());
}

/// The head is refused too, and its fault stands at a byte.
#[track_caller]
fn head_refused(file: &[u8], refusal: u32, byte: usize) {
    refused(file, refusal);
    let mut reader = Reader::new();
    assert_eq!(reader.read_head(file), refusal);
    assert_eq!(reader, Reader::new());
    assert_eq!(words::find_recording_fault(file), byte as u32);
}

/// The head is accepted; the whole file is refused for what is behind it.
#[track_caller]
fn rest_refused(file: &[u8], refusal: u32) {
    refused(file, refusal);
    let mut reader = Reader::new();
    assert_eq!(reader.read_head(file), DONE);
    let rest = file.len() - HEAD;
    assert_eq!(words::check_recording_rest(reader.length, rest), refusal);
    assert_eq!(words::find_recording_fault(file), 18_016);
}

/// Registers that are all different, in the widths that they have.
fn numbered_state() -> StateWords {
    std::array::from_fn(|at| match at {
        CP_3X..BASE_WORDS => 0xF000_0000 + at as u32,
        BASE_WORDS..STRIDE_WORDS => 0x300_0000 + at as u32,
        STRIDE_WORDS..BP_WORDS => at as u32,
        BP_WORDS.. => 0xFE_0000 + at as u32,
        // Neither window, control nor draw is one of a file.
        _ => u32::MAX,
    })
}

fn numbered_xf() -> Vec<u32> {
    (0..4184).map(|at| 0xC000_0000 + at).collect()
}

/// The answer, the output and the bytes written.
fn write(state: &StateWords, xf: &[u32], stream: &[u8], room: usize) -> (u32, Vec<u8>, u32) {
    let (mut output, mut written) = (vec![0xEE; room], BEFORE);
    let answer = words::write_recording(state, xf, stream, &mut output, &mut written);
    (answer, output, written)
}

fn write_head(state: &StateWords, xf: &[u32], length: usize, room: usize) -> (u32, Vec<u8>, u32) {
    let (mut output, mut written) = (vec![0xEE; room], BEFORE);
    let answer = words::write_recording_head(state, xf, length, &mut output, &mut written);
    (answer, output, written)
}

/// Both writers refuse; "A 16 writes nothing", nor does any other.
#[track_caller]
fn not_written(state: &StateWords, xf: &[u32], stream: usize, room: usize, refusal: u32) {
    let nothing = (refusal, vec![0xEE; room], BEFORE);
    assert_eq!(write(state, xf, &vec![5; stream], room), nothing);
    let head_room = room.min(HEAD - 1);
    let nothing = (refusal, vec![0xEE; head_room], BEFORE);
    assert_eq!(write_head(state, xf, stream, head_room), nothing);
}

#[test]
fn the_sections_stand_in_their_order() {
    let state = numbered_state();
    let (answer, file, written) = write(&state, &numbered_xf(), &[0x61, 0x41, 7], HEAD + 3);
    assert_eq!((answer, written), (DONE, 18_019));
    let number = |place: usize| u32::from_be_bytes(file[place..place + 4].try_into().unwrap());
    assert_eq!([number(BP_COUNT), number(CP_COUNT)], [0x100, 0x3C]);
    assert_eq!([number(XF_COUNT), number(STREAM_COUNT)], [0x1058, 3]);
    for register in 0..256 {
        assert_eq!(number(BP + 4 * register), state[71 + register]);
    }
    for at in 0..60 {
        assert_eq!(number(CP + 4 * at), state[11 + at]);
    }
    for at in 0..4184 {
        assert_eq!(number(XF + 4 * at), 0xC000_0000 + at as u32);
    }
    assert_eq!(file[..8], [0, 0, 1, 0, 0, 0xFE, 0, 71]);
    assert_eq!(file[HEAD..], [0x61, 0x41, 7]);
}

/// "the four registers 3X to 6X, 24 VAT words by format then group, 16 bases, 16
/// strides": each loaded by its own CP load.
#[test]
fn cp_registers_stand_by_format_then_group() {
    let mut loads = vec![(0x35, 0), (0x40, 1), (0x5F, 2), (0x60, 3)];
    for format in 0..8 {
        for group in 0..3 {
            let address = 0x70 + 0x10 * group + format;
            loads.push((address, VAT + 3 * format + group));
        }
    }
    for array in 0..16 {
        loads.push((0xA0 + array, BASES + array));
        loads.push((0xB0 + array, STRIDES + array));
    }
    assert_eq!(loads.len(), 60);
    for (address, place) in loads {
        let mut bench = Bench::new(256);
        bench.unit(&[0x08, address as u8, 0, 0, 0, 0xA5]);
        let mut file = vec![0; HEAD];
        assert_eq!(
            bench.state.write_recording(&[0; 4184], &[], &mut file),
            Ok(HEAD)
        );
        let mut expected = with(&empty_file(0), CP + 4 * place, 0xA5);
        // The mask of the fresh state.
        put(&mut expected, BP + 4 * 0xFE, 0xFF_FFFF);
        assert!(file == expected, "{address:02X}");
    }
}

/// Words 0 to 6 stay whatever they hold, 7 to 10 become 0, the others the file's.
#[test]
fn a_written_file_is_read_back() {
    let (state, xf) = (numbered_state(), numbered_xf());
    for length in [0, 1, 3, 4, 1000, LONGEST_BEFORE, 65_536, LONGEST] {
        let (answer, file, _) = write(&state, &xf, &vec![0x48; length], HEAD + length);
        assert_eq!(answer, DONE);
        let reader = accepted(&file);
        assert_eq!(reader.state[..OPEN], Reader::new().state[..OPEN]);
        assert_eq!(reader.state[OPEN..CP_3X], [0; 4]);
        assert_eq!(reader.state[CP_3X..], state[CP_3X..]);
        assert_eq!(reader.xf, xf);
    }
}

/// "An accepted file is exactly what the writer gives for its content."
#[test]
fn an_accepted_file_is_what_the_writer_gives() {
    let mut random = Random(0x5EED_0001);
    for _ in 0..50 {
        let length = random.below(2000) as usize;
        let file = any_file(&mut random, length);
        let reader = accepted(&file);
        let [place, length] = reader.stream.map(|word| word as usize);
        let stream = &file[place..place + length];
        let (answer, again, written) = write(&reader.state, &reader.xf, stream, file.len());
        assert_eq!((answer, written as usize), (DONE, file.len()));
        assert!(again == file);
        let (answer, head, written) = write_head(&reader.state, &reader.xf, length, HEAD);
        assert_eq!((answer, written), (DONE, 18_016));
        assert!(head == file[..HEAD]);
    }
}

/// 20, of every count, at "its first byte".
#[test]
fn a_wrong_count() {
    let file = empty_file(9);
    for (place, count) in [(BP_COUNT, 256), (CP_COUNT, 60), (XF_COUNT, 4184)] {
        for wrong in [0, count - 1, count + 1, count + 0x100_0000, u32::MAX] {
            head_refused(&with(&file, place, wrong), 20, place);
        }
    }
    for wrong in [1_048_576, 1_048_585, 0x100_0009, 0x8000_0009, u32::MAX] {
        head_refused(&with(&file, STREAM_COUNT, wrong), 20, STREAM_COUNT);
    }
}

/// The stream's count is a wrong one above 1,048,575, whatever is behind it.
#[test]
fn a_long_stream_is_a_wrong_count() {
    for length in [0, 1, 65_535, 65_536, LONGEST, LONGEST + 1, LONGEST + 2] {
        let mut file = empty_file(length);
        put(&mut file, STREAM_COUNT, LONGEST as u32 + 1);
        head_refused(&file, 20, STREAM_COUNT);
    }
    for length in [LONGEST_BEFORE, LONGEST_BEFORE + 1, LONGEST] {
        let file = empty_file(length);
        accepted(&file);
        rest_refused(&file[..file.len() - 1], 22);
        rest_refused(&[file, vec![0]].concat(), 23);
    }
}

/// 21, of the first and the last register of each width.
#[test]
fn a_number_too_wide() {
    let file = empty_file(2);
    let base = CP + 4 * BASES;
    let stride = CP + 4 * STRIDES;
    for (places, most) in [
        ([BP, BP + 4 * 0xFE, BP + 4 * 0xFF], 0xFF_FFFF),
        ([base, base + 4 * 7, base + 4 * 15], 0x3FF_FFFF),
        ([stride, stride + 4 * 7, stride + 4 * 15], 0xFF),
    ] {
        for place in places {
            accepted(&with(&file, place, most));
            for wide in [most + 1, most + 2, 0x8000_0000, u32::MAX] {
                head_refused(&with(&file, place, wide), 21, place);
            }
        }
    }
}

/// All other CP words and the XF words have 32 bits; register FE may hold any 24.
#[test]
fn numbers_that_are_never_too_wide() {
    let file = empty_file(0);
    for at in 0..28 {
        let reader = accepted(&with(&file, CP + 4 * at, u32::MAX));
        assert_eq!(reader.state[11 + at], u32::MAX);
    }
    for at in [0, 1, 100, 4182, 4183] {
        let reader = accepted(&with(&file, XF + 4 * at, u32::MAX));
        assert_eq!(reader.xf[at], u32::MAX);
    }
    for mask in [0, 1, 0x12_3456, 0xFF_FFFE, 0xFF_FFFF] {
        let reader = accepted(&with(&file, BP + 4 * 0xFE, mask));
        assert_eq!(reader.state[71 + 0xFE], mask);
    }
}

/// 22 at "the first byte that is not there": a file cut at every byte of its head.
#[test]
fn a_file_cut_at_every_byte() {
    let mut random = Random(0x5EED_0002);
    let file = any_file(&mut random, 5);
    let mut reader = Reader::new();
    for length in 0..HEAD {
        let cut = &file[..length];
        assert_eq!(reader.read(cut), 22);
        assert_eq!(reader.read_head(cut), 22);
        assert_eq!(words::find_recording_fault(cut), length as u32);
    }
    assert_eq!(reader, Reader::new());
    for length in HEAD..HEAD + 5 {
        rest_refused(&file[..length], 22);
    }
    accepted(&file);
}

/// "cut inside a number too, 22": where the bytes that are there are a wrong count
/// or too wide already.
#[test]
fn a_cut_number_is_no_number() {
    let file = empty_file(0);
    for place in [
        BP_COUNT,
        BP,
        BP + 4 * 0xFF,
        CP_COUNT,
        CP + 4 * BASES,
        CP + 4 * STRIDES,
        CP + 4 * 59,
        XF_COUNT,
        STREAM_COUNT,
    ] {
        let spoilt = with(&file, place, u32::MAX);
        for bytes in 0..4 {
            head_refused(&spoilt[..place + bytes], 22, place + bytes);
        }
        let refusal = match place {
            BP_COUNT | CP_COUNT | XF_COUNT | STREAM_COUNT => 20,
            _ => 21,
        };
        head_refused(&spoilt[..place + 4], refusal, place);
    }
}

/// 22 and 23 of what is behind the head.
#[test]
fn a_file_too_short_or_too_long() {
    for count in [0, 1, 4, 1000, LONGEST_BEFORE, LONGEST] {
        let file = empty_file(count);
        accepted(&file);
        for more in [1, 3, 4, 5000] {
            rest_refused(&[&file[..], &vec![0; more]].concat(), 23);
        }
        for fewer in [1, 4, 1000].into_iter().filter(|&fewer| fewer <= count) {
            rest_refused(&file[..file.len() - fewer], 22);
        }
    }
}

/// "Refused at the first place in the file": of two faults the first, in this order.
#[test]
fn the_first_fault_is_told() {
    let places = [
        (BP_COUNT, 20),
        (BP, 21),
        (BP + 4 * 0xFF, 21),
        (CP_COUNT, 20),
        (CP + 4 * BASES, 21),
        (CP + 4 * STRIDES, 21),
        (XF_COUNT, 20),
        (STREAM_COUNT, 20),
    ];
    let file = empty_file(3);
    for (at, &(first, refusal)) in places.iter().enumerate() {
        let spoilt = with(&file, first, u32::MAX);
        for &(second, _) in &places[at + 1..] {
            head_refused(&with(&spoilt, second, u32::MAX), refusal, first);
        }
        head_refused(&spoilt[..HEAD + 1], refusal, first);
        head_refused(&[&spoilt[..], &[0; 9]].concat(), refusal, first);
        if first != STREAM_COUNT {
            head_refused(&spoilt[..STREAM_COUNT], refusal, first);
        }
    }
}

/// "The reader gives 2 before these", and before it accepts.
#[test]
fn xf_words_before_the_file() {
    let good = empty_file(1);
    let files = [
        good.clone(),
        with(&good, BP_COUNT, 255),
        with(&good, BP, 0x100_0000),
        vec![],
        good[..HEAD].to_vec(),
        [&good[..], &[0]].concat(),
    ];
    for file in &files {
        for xf in [0, 1, 4183, 4185, 5000] {
            let mut reader = Reader::lent(xf);
            assert_eq!(reader.read(file), 2);
            assert_eq!(reader.read_head(file), 2);
            assert_eq!(reader, Reader::lent(xf));
        }
    }
}

/// The head's reader does not look at what stands behind the head.
#[test]
fn the_head_alone() {
    let mut random = Random(0x5EED_0003);
    let file = any_file(&mut random, 700);
    let whole = accepted(&file);
    for behind in [0, 1, 699, 700, 701, 70_000, LONGEST + 1] {
        let head = [&file[..HEAD], &vec![0xA5; behind]].concat();
        let mut reader = Reader::new();
        assert_eq!(reader.read_head(&head), DONE);
        assert_eq!(reader.length, 700);
        assert_eq!((&reader.state, &reader.xf), (&whole.state, &whole.xf));
        assert_eq!(words::find_recording_fault(&head), 18_016);
    }
}

#[test]
fn the_rest_is_counted() {
    for length in [0, 1, 100, 65_535, 65_536, 1_048_575, 1_048_576, u32::MAX] {
        let bytes = length as usize;
        assert_eq!(words::check_recording_rest(length, bytes), DONE);
        for more in [bytes + 1, bytes + 0x1_0000, bytes + 0x10_0000, usize::MAX] {
            assert_eq!(words::check_recording_rest(length, more), 23);
        }
        if length != 0 {
            assert_eq!(words::check_recording_rest(length, bytes - 1), 22);
            assert_eq!(words::check_recording_rest(length, 0), 22);
        }
    }
}

/// Reading a whole file is reading its head and checking the rest.
#[test]
fn a_file_is_its_head_and_its_rest() {
    let mut random = Random(0x5EED_0004);
    for _ in 0..400 {
        let length = random.below(100);
        let mut file = any_file(&mut random, length as usize);
        for _ in 0..random.below(3) {
            let place = 4 * random.below(4504) as usize;
            put(&mut file, place, random.next() >> random.below(32));
        }
        let bytes = random.below(HEAD as u32 + 2 * length + 1) as usize;
        match random.below(3) {
            0 => file.resize(bytes, 0),
            1 => file.resize(file.len() + random.below(3) as usize, 0),
            _ => {}
        }
        let (mut whole, mut parts) = (Reader::new(), Reader::new());
        let answer = whole.read(&file);
        let mut told = parts.read_head(&file);
        if told == DONE {
            let rest = file.len() - HEAD;
            told = words::check_recording_rest(parts.length, rest);
        }
        assert_eq!(answer, told);
        let fault = words::find_recording_fault(&file) as usize;
        match answer {
            DONE | 23 => assert_eq!(fault, HEAD),
            22 => assert_eq!(fault, file.len().min(HEAD)),
            _ => assert!(fault < HEAD && fault.is_multiple_of(4)),
        }
    }
}

/// The bounds of 1: the first and the last word of each width.
#[test]
fn registers_that_are_not_written() {
    let xf = [0; XF_WORDS];
    for (words, most) in [
        ([BP_WORDS, BP_WORDS + 0xFE, 326], 0xFF_FFFF),
        ([BASE_WORDS, 47, 54], 0x3FF_FFFF),
        ([STRIDE_WORDS, 60, 70], 0xFF),
    ] {
        for word in words {
            let mut state = numbered_state();
            state[word] = most;
            let (answer, file, written) = write(&state, &xf, &[], HEAD);
            assert_eq!((answer, written), (DONE, 18_016));
            assert_eq!(accepted(&file).state[word], most);
            for wide in [most + 1, 0x8000_0000, u32::MAX] {
                state[word] = wide;
                not_written(&state, &xf, 0, HEAD, 1);
            }
        }
    }
}

/// Neither window, control nor draw is looked at, nor is a word of 32 bits refused.
#[test]
fn words_that_the_writer_does_not_test() {
    let (mut state, xf) = (numbered_state(), numbered_xf());
    state[CP_3X..BASE_WORDS].fill(u32::MAX);
    let (answer, expected, _) = write(&state, &xf, &[1, 2], HEAD + 2);
    assert_eq!(answer, DONE);
    for word in 0..CP_3X {
        for value in [0, 1, 0x40, 0x1_0001, 0x8000_0000] {
            let mut other = state;
            other[word] = value;
            let (answer, file, _) = write(&other, &xf, &[1, 2], HEAD + 2);
            assert_eq!(answer, DONE);
            assert!(file == expected);
        }
    }
}

/// "The writer gives 1, 2, 20 for a long stream, then 16."
#[test]
fn the_writer_refuses_in_its_order() {
    let mut state = numbered_state();
    state[STRIDE_WORDS + 3] = 256;
    not_written(&state, &[0; 4183], LONGEST + 1, 0, 1);
    state[STRIDE_WORDS + 3] = 255;
    for xf in [0, 4183, 4185] {
        not_written(&state, &vec![0; xf], LONGEST + 1, 0, 2);
    }
    let xf = numbered_xf();
    for stream in [LONGEST + 1, LONGEST + 5000] {
        not_written(&state, &xf, stream, 0, 20);
        not_written(&state, &xf, stream, HEAD + stream, 20);
    }
    for room in [0, 1, HEAD - 1] {
        not_written(&state, &xf, 0, room, 16);
    }
    for stream in [1, 100, LONGEST_BEFORE, 65_536, LONGEST] {
        for room in [HEAD, HEAD + stream - 1] {
            not_written(&state, &xf, stream, room, 16);
        }
    }
}

/// The head's writer has its length from the caller, and needs room for the head.
#[test]
fn the_head_of_a_stream_that_is_not_there() {
    let (state, xf) = (numbered_state(), numbered_xf());
    let nothing = |refusal, room| (refusal, vec![0xEE; room], BEFORE);
    for length in [1_048_576, 0x1_0000_0000, 0x1_0000_0005, usize::MAX] {
        assert_eq!(write_head(&state, &xf, length, HEAD), nothing(20, HEAD));
        assert_eq!(write_head(&state, &xf, length, 3), nothing(20, 3));
    }
    for length in [0, 1, LONGEST_BEFORE, 65_536, LONGEST] {
        assert_eq!(
            write_head(&state, &xf, length, HEAD - 1),
            nothing(16, HEAD - 1)
        );
        let (_, file, _) = write(&state, &xf, &vec![7; length], HEAD + length);
        let (answer, head, written) = write_head(&state, &xf, length, HEAD);
        assert_eq!((answer, written), (DONE, 18_016));
        assert!(head == file[..HEAD]);
    }
}

/// "otherwise bytes past what is written stay" (document 01)
#[test]
fn the_tail_of_the_output_stays() {
    let (state, xf) = (numbered_state(), numbered_xf());
    for tail in [0, 1, 4, 5000] {
        let (answer, output, written) = write(&state, &xf, &[9; 10], HEAD + 10 + tail);
        assert_eq!((answer, written), (DONE, 18_026));
        assert_eq!(output[HEAD..HEAD + 10], [9; 10]);
        assert_eq!(output[HEAD + 10..], vec![0xEE; tail]);
        let (answer, output, written) = write_head(&state, &xf, 10, HEAD + tail);
        assert_eq!((answer, written), (DONE, 18_016));
        assert_eq!(output[HEAD..], vec![0xEE; tail]);
    }
}

/// "A loaded recording starts with no draw open, its stream fed to an empty ring
/// with pointers as the caller sets them": it then runs as the recorded machine.
#[test]
fn a_loaded_recording_runs() {
    let mut recorded = Bench::new(256);
    recorded.unit(&[0x08, 0x50, 0, 0, 2, 0]);
    recorded.unit(&[0x61, 0xFE, 0, 0, 0xF0]);
    recorded.unit(&[0x10, 0, 0, 0x10, 0x57, 1, 2, 3, 4]);
    let stream = [0x61, 0x41, 0xFF, 0xFF, 0xFF, 0x80, 0, 2, 1, 2, 3, 4];
    let mut file = vec![0; HEAD + stream.len()];
    let written = recorded
        .state
        .write_recording(&recorded.xf, &stream, &mut file);
    assert_eq!(written, Ok(HEAD + stream.len()));

    let mut loaded = Bench::new(512).at(0x11FC);
    loaded.unit(&[0x08, 0x50, 0, 0, 2, 0]);
    loaded.unit(&[0x90, 0, 9]);
    let (window, control) = (loaded.state.window, loaded.state.control);
    let found = loaded.state.read_recording(&file, &mut loaded.xf);
    let Ok(Stream { place, length }) = found else {
        panic!("{found:?}");
    };
    assert_eq!((place, length), (HEAD, stream.len()));
    assert_eq!(
        (loaded.state.window, loaded.state.control),
        (window, control)
    );
    assert_eq!(loaded.state.draw, None);
    loaded.feed(&file[place..place + length]).expect("fed");
    recorded.feed(&stream).expect("fed");
    assert_eq!(loaded.run(100), recorded.run(100));
    assert_eq!(loaded.state.bp[0x41], 0xF0);
    assert_eq!(loaded.state.bp, recorded.state.bp);
    assert_eq!(loaded.state.cp, recorded.state.cp);
    assert_eq!(loaded.xf, recorded.xf);
    assert_eq!(loaded.xf[0x1057], 0x0102_0304);
    assert_eq!(loaded.vertex, recorded.vertex);
}

/// The numbers of document 02, by the refusals that carry them.
#[test]
fn refusals_carry_their_numbers() {
    let refusals = [
        Refusal::WrongCount,
        Refusal::NumberTooWide,
        Refusal::FileShort,
        Refusal::FileLong,
    ];
    assert_eq!(refusals.map(Refusal::number), [20, 21, 22, 23]);
    let mut state = State::fresh();
    let read = state.read_recording(&empty_file(1)[..HEAD], &mut [0; XF_WORDS]);
    assert_eq!(read, Err(Refusal::FileShort));
    assert_eq!(state, State::fresh());
    assert_eq!(check_recording_rest(1, 2), Err(Refusal::FileLong));
    assert_eq!(find_recording_fault(&[]), 0);
}
