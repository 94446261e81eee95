//! Document 02's L9, of the proved library and of the twin: "Raise the size limit to
//! 1,048,576, and a run's limit and the recording's stream to 1,048,575; a run's higher
//! limit counts as that." What is expected is worked out here, from the bytes that are fed;
//! that a refused call changes nothing, and that both sides leave the same, is seen after
//! every call (`Duo`).
#![forbid(unsafe_code)]

mod held;

use compare::random::Random;
use compare::world::{word, Lent, USUAL};
use held::Held;
use model::words::{DONE, WAITING};

/// The largest ring, and the most bytes that it holds.
const LARGEST: u32 = 1_048_576;
const ROOM: usize = 1_048_575;
/// The most units of a run, and the longest stream of a recording.
const MOST: u32 = 1_048_575;
const LONGEST: usize = 1_048_575;
/// A recording up to its stream.
const HEAD: usize = 18_016;
/// "Programs keep their own buffers within 64 KiB and feed by pieces"
const PIECE: usize = 65_536;
/// The highest start that the largest ring can have: it ends at FFFFFFE0.
const HIGHEST: u32 = 0xFFEF_FFE0;

/// The first of the state words that a recording keeps, and its XF words.
const CP: usize = 11;
const XF_WORDS: usize = 4184;

const INVALID: u32 = 1;
const TOO_LONG: u32 = 11;
const WRONG_COUNT: u32 = 20;

/// An empty ring with both pointers at a place, reading enabled; a position of two bytes.
fn ring_of(start: u32, size: u32, place: u32) -> Held {
    let mut held = Held::new();
    held.0.fresh();
    let ring = size as usize;
    held.0.hold(Lent { ring, ..USUAL });
    for (index, value) in [
        (word::START, start),
        (word::END, start + size),
        (word::WRITE, start + place),
        (word::READ, start + place),
        (word::CONTROL, 1),
        (word::VCD_0, 0x200),
    ] {
        held.0.poke(index, value);
    }
    held
}

/// A stream whose units are counted as they are put in, and the BP registers and the last
/// vertex that they leave.
struct Stream {
    bytes: Vec<u8>,
    units: u32,
    /// Registers 00 to FD.
    bp: Vec<u32>,
    vertex: [u8; 2],
}

impl Stream {
    fn unit(&mut self, bytes: &[u8]) {
        self.bytes.extend(bytes);
        self.units += 1;
    }

    /// A unit of some kind, or a draw with its vertices, of two bytes each.
    fn add(&mut self, random: &mut Random) {
        match random.below(8) {
            0 => self.unit(&[random.pick(&[0x00, 0x44, 0x48])]),
            1 => self.unit(&[0x40, 1, 2, 3, 4, 5, 6, 7, 8]),
            2 => self.unit(&[0x20, 0, 3, 0xB0, 0]),
            3 => self.unit(&[0x08, 0xA0, 0, 0, 0x10, random.u8()]),
            4 => self.unit(&[0x10, 0, 0, 0x10, 0x57, 1, 2, 3, random.u8()]),
            5 | 6 => {
                let [register, a, b, c] = random.u32().to_be_bytes();
                if register < 0xFE {
                    self.unit(&[0x61, register, a, b, c]);
                    self.bp[usize::from(register)] = u32::from_be_bytes([0, a, b, c]);
                }
            }
            _ => {
                let count = random.between(1, 300) as u16;
                let [high, low] = count.to_be_bytes();
                self.unit(&[0x90, high, low]);
                for _ in 0..count {
                    let vertex = [random.u8(), random.u8()];
                    self.unit(&vertex);
                    self.vertex = vertex;
                }
            }
        }
    }

    /// Units and draws, and then units of one byte, up to so many bytes.
    fn of_length(random: &mut Random, length: usize) -> Stream {
        let mut stream = Stream {
            bytes: Vec::new(),
            units: 0,
            bp: vec![0; 0xFE],
            vertex: [0; 2],
        };
        while stream.bytes.len() < length - 2000 {
            stream.add(random);
        }
        while stream.bytes.len() < length {
            stream.unit(&[0x48]);
        }
        stream
    }
}

/// The registers and the vertex buffer are those that the stream leaves.
#[track_caller]
fn left_by(held: &Held, stream: &Stream) {
    let world = held.0.world();
    let bp = &world.state[word::BP..word::BP + 0xFE];
    assert!(bp == stream.bp);
    assert_eq!(world.vertex[..2], stream.vertex);
}

/// The calls that test the window, with a ring of its size.
#[test]
fn sizes_at_the_limit() {
    for size in [65_536, 65_568, 1_048_544, 1_048_576] {
        let mut held = ring_of(0x1000, size, size - 2);
        held.reads(0x000, 0b1100);
        held.feeds(&[], DONE);
        held.feeds(&[0x48; 5], DONE);
        held.reads(0x000, 0b1000);
        held.reads(0x030, 5);
        held.reads(0x032, 0);
        held.runs(0, DONE, [0, 0]);
        held.takes([0x48, 0, 0, 0, 0, 1]);
        held.runs(2, DONE, [2, 0]);
        held.holds(word::READ, 0x1001);
        held.runs(MOST, WAITING, [2, 1]);
    }
    for size in [1_048_608, 1_048_640, 2_097_152] {
        let mut held = ring_of(0x1000, size, size - 2);
        for offset in [0x000, 0x030, 0x032] {
            held.read_refused(offset, INVALID);
        }
        held.feeds(&[], INVALID);
        held.feeds(&[0x48], INVALID);
        held.unit_refused(INVALID);
        held.runs(0, INVALID, [0, 0]);
        held.runs(MOST, INVALID, [0, 0]);
        // "other register calls 17 alone"
        held.reads(0x024, (0x1000 + size) & 0xFFFF);
        held.reads(0x026, (0x1000 + size) >> 16);
        held.writes(0x026, 0x0010, DONE);
        held.writes(0x024, 0x1000, DONE);
        held.holds(word::END, 0x10_1000);
    }
}

/// "ring slice length is not size": of a window of the largest size.
#[test]
fn a_ring_of_another_length() {
    for length in [0, 65_536, 1_048_544, 1_048_575, 1_048_577, 1_048_608] {
        let mut held = ring_of(0x1000, LARGEST, 0);
        held.0.lend(length, 4184, 129);
        held.feeds(&[], INVALID);
        held.unit_refused(INVALID);
        held.runs(0, INVALID, [0, 0]);
        // No ring is lent to these.
        held.reads(0x000, 0b1100);
        held.reads(0x030, 0);
    }
}

/// The largest ring, filled round its end, whole and by pieces: one byte more is refused,
/// and it is run to its end.
#[test]
fn a_full_ring_is_run() {
    let random = &mut Random::new(1);
    for (place, piece) in [
        (0, ROOM),
        (700_001, ROOM),
        (1_048_575, PIECE),
        (65_537, 5000),
    ] {
        let stream = Stream::of_length(random, ROOM);
        let mut held = ring_of(0x1000, LARGEST, place);
        for piece in stream.bytes.chunks(piece) {
            held.feeds(piece, DONE);
        }
        held.reads(0x030, 0xFFFF);
        held.reads(0x032, 0x000F);
        held.feeds(&[0x48], TOO_LONG);
        held.feeds(&stream.bytes, TOO_LONG);
        held.feeds(&[], DONE);
        let write = (place + MOST) % LARGEST;
        held.holds(word::WRITE, 0x1000 + write);
        held.runs(u32::MAX, WAITING, [stream.units, 1]);
        held.holds(word::READ, 0x1000 + write);
        held.reads(0x000, 0b1100);
        left_by(&held, &stream);
    }
}

/// The same by several runs, each of which ends by its limit but the last.
#[test]
fn a_full_ring_is_run_by_limits() {
    let random = &mut Random::new(2);
    let stream = Stream::of_length(random, ROOM);
    for limit in [65_535, 65_536, 100_000] {
        let mut held = ring_of(HIGHEST, LARGEST, 999_999);
        held.feeds(&stream.bytes, DONE);
        let mut left = stream.units;
        while left >= limit {
            held.runs(limit, DONE, [limit, 0]);
            left -= limit;
        }
        held.runs(limit, WAITING, [left, 1]);
        left_by(&held, &stream);
    }
}

/// "the low half is at the offset and the high half two above": the count's, and the
/// pointers'.
#[test]
fn counts_and_pointers_have_two_halves() {
    for (count, low, high) in [
        (0xFFFF, 0xFFFF, 0x0000),
        (0x1_0000, 0x0000, 0x0001),
        (0x1_2345, 0x2345, 0x0001),
        (0xF_0000, 0x0000, 0x000F),
        (0xF_FFFF, 0xFFFF, 0x000F),
    ] {
        let mut held = ring_of(0, LARGEST, 0xA_BCDE);
        held.feeds(&vec![0x00; count as usize], DONE);
        held.reads(0x030, low);
        held.reads(0x032, high);
        let write = (0xA_BCDE + count) % LARGEST;
        held.reads(0x034, write & 0xFFFF);
        held.reads(0x036, write >> 16);
        // Where the low half is 0 too, there is a unit.
        held.takes([0x00, 0, 0, 0, 0, 1]);
        held.reads(0x038, 0xBCDF);
        held.reads(0x03A, 0x000A);
        held.reads(0x030, (count - 1) & 0xFFFF);
        held.reads(0x032, (count - 1) >> 16);
    }
}

/// "a run's higher limit counts as that": 1,048,575 units of one byte end by the limit,
/// and one fewer waits for more.
#[test]
fn as_many_units_as_a_run_can_do() {
    for (byte, limit) in [
        (0x00, MOST),
        (0x00, u32::MAX),
        (0x44, MOST + 1),
        (0x48, MOST),
        (0x48, 0x8000_0000),
    ] {
        let mut held = ring_of(0x1000, LARGEST, 12_345);
        held.feeds(&vec![byte; ROOM], DONE);
        held.runs(limit, DONE, [MOST, 0]);
        held.runs(limit, WAITING, [0, 1]);
        held.feeds(&vec![byte; ROOM - 1], DONE);
        held.runs(limit, WAITING, [MOST - 1, 1]);
        held.feeds(&vec![byte; ROOM], DONE);
        held.runs(MOST - 1, DONE, [MOST - 1, 0]);
        held.runs(limit, WAITING, [1, 1]);
    }
}

/// One draw of 65,535 vertices of 15 bytes each, more than a ring held before.
#[test]
fn the_longest_draw() {
    let mut held = ring_of(HIGHEST, LARGEST, 500_000);
    // Position of three f32 and a texture of one s16, and a position matrix.
    held.0.poke(word::VCD_0, 0x201);
    held.0.poke(word::VCD_1, 1);
    held.0.poke(word::VAT, 0x00C0_0009);
    let random = &mut Random::new(3);
    let vertices = random.bytes(15 * 65_535);
    held.feeds(&[0x98, 0xFF, 0xFF], DONE);
    held.feeds(&vertices, DONE);
    held.runs(65_535, DONE, [65_535, 0]);
    held.holds(word::LEFT, 1);
    held.runs(MOST, WAITING, [1, 1]);
    held.holds(word::DRAW_OPEN, 0);
    let last = &vertices[15 * 65_534..];
    assert_eq!(held.0.world().vertex[..15], *last);
    let read = (500_000 + 3 + 15 * 65_535) % LARGEST;
    held.holds(word::READ, HIGHEST + read);
}

/// A load, a head and vertices over the ring's end, at every byte of them; the ring stands
/// low, and as far up as can be.
#[test]
fn units_over_the_end() {
    let bytes = [0x61, 0x41, 1, 2, 3, 0x90, 0, 2, 4, 5, 6, 7, 0x48];
    for start in [0, 0x1000, 0x7FF8_0000, HIGHEST] {
        for straight in 0..=bytes.len() as u32 {
            let place = (LARGEST - straight) % LARGEST;
            let at = |bytes: u32| start + (place + bytes) % LARGEST;
            let mut held = ring_of(start, LARGEST, place);
            held.feeds(&bytes, DONE);
            held.takes([0x61, 0x41, 0x01_0203, 0, 0, 5]);
            held.holds(word::BP + 0x41, 0x01_0203);
            held.takes([0x80, 2, 0, 2, 0, 3]);
            held.takes([0x01, 0, 0, 0, 0, 2]);
            assert_eq!(held.0.world().vertex[..2], [4, 5]);
            held.holds(word::READ, at(10));
            held.runs(MOST, WAITING, [2, 1]);
            assert_eq!(held.0.world().vertex[..2], [6, 7]);
            held.holds(word::READ, at(13));
            // The same by one run.
            held.feeds(&bytes, DONE);
            held.runs(MOST, WAITING, [5, 1]);
            held.holds(word::READ, at(26));
        }
    }
}

/// A recording with the longest stream: written, read whole and in two parts, fed by
/// pieces and run. One byte more is refused by 20.
#[test]
fn the_longest_recording() {
    let stream = Stream::of_length(&mut Random::new(4), LONGEST);
    let mut held = ring_of(0x1000, LARGEST, 3);
    let (answer, file) = held.0.write_recording(&stream.bytes, HEAD + LONGEST);
    let (of_head, head) = held.0.write_recording_head(LONGEST, HEAD);
    held.same();
    assert_eq!((answer, of_head), (DONE, DONE));
    assert_eq!(file.len(), 1_066_591);
    assert!(file[..HEAD] == head && file[HEAD..] == stream.bytes);
    assert_eq!(file[18_012..HEAD], [0, 0x0F, 0xFF, 0xFF]);
    for whole in [true, false] {
        let mut held = ring_of(HIGHEST, LARGEST, 1_000_003);
        held.0.poke(word::VCD_0, 0);
        if whole {
            let told = held.0.read_recording(&file);
            assert_eq!(told, (DONE, [18_016, 1_048_575]));
        } else {
            let told = held.0.read_recording_head(&file[..HEAD]);
            assert_eq!(told, (DONE, 1_048_575));
            assert_eq!(held.0.check_recording_rest(told.1, LONGEST), DONE);
        }
        held.same();
        for piece in file[HEAD..].chunks(PIECE) {
            held.feeds(piece, DONE);
        }
        held.runs(MOST, WAITING, [stream.units, 1]);
        left_by(&held, &stream);
    }
}

/// "the recording's stream to 1,048,575", by every call that meets its length.
#[test]
fn a_longer_recording_is_refused() {
    let mut held = ring_of(0x1000, 256, 0);
    for output in [0, HEAD, HEAD + LONGEST + 1] {
        let (whole, _) = held.0.write_recording(&vec![0x48; LONGEST + 1], output);
        let (head, _) = held.0.write_recording_head(LONGEST + 1, output);
        held.same();
        assert_eq!((whole, head), (WRONG_COUNT, WRONG_COUNT));
    }
    let (_, mut file) = held.0.write_recording(&vec![0x48; LONGEST], HEAD + LONGEST);
    assert_eq!(held.0.find_recording_fault(&file), 18_016);
    file.push(0x48);
    // The count of before: too long.
    assert_eq!(held.0.read_recording(&file).0, 23);
    assert_eq!(held.0.check_recording_rest(1_048_575, LONGEST + 1), 23);
    file[18_012..HEAD].copy_from_slice(&[0, 0x10, 0, 0]);
    for length in [HEAD, HEAD + LONGEST, HEAD + LONGEST + 1] {
        let file = &file[..length];
        let answers = [
            held.0.read_recording(file).0,
            held.0.read_recording_head(file).0,
        ];
        assert_eq!(answers, [WRONG_COUNT; 2]);
        assert_eq!(held.0.find_recording_fault(file), 18_012);
        held.same();
    }
}

/// A machine with registers by chance, each within its width.
fn machine_by_chance(random: &mut Random) -> Held {
    let mut held = ring_of(0x1000, 256, 0);
    for (from, count, bits) in [
        (CP, 28, u32::MAX),
        (word::BASES, 16, 0x3FF_FFFF),
        (word::STRIDES, 16, 0xFF),
        (word::BP, 256, 0xFF_FFFF),
    ] {
        for index in from..from + count {
            held.0.poke(index, random.u32() & bits);
        }
    }
    held
}

/// "Files written before keep their meaning byte by byte": a file with a stream that could
/// be written before has the same head but for the count, and another machine reads from it
/// all that the first one held.
#[test]
fn a_shorter_recording_is_as_before() {
    let random = &mut Random::new(5);
    let mut writer = machine_by_chance(random);
    let head = writer.0.write_recording_head(0, HEAD).1;
    for length in [0, 1, 65_534, 65_535] {
        let stream = random.bytes(length);
        let (answer, file) = writer.0.write_recording(&stream, HEAD + length);
        writer.same();
        assert_eq!(answer, DONE);
        assert!(file[..18_012] == head[..18_012]);
        assert_eq!(file[18_012..HEAD], (length as u32).to_be_bytes());
        assert!(file[HEAD..] == stream);
        let mut reader = machine_by_chance(random);
        // Other XF words than the first ones, which all machines have.
        reader.0.hold(USUAL);
        let (held, before) = (writer.0.world(), reader.0.world());
        assert!(before.state[CP..] != held.state[CP..]);
        assert!(before.xf[..XF_WORDS] != held.xf[..XF_WORDS]);
        let told = reader.0.read_recording(&file);
        reader.same();
        assert_eq!(told, (DONE, [18_016, length as u32]));
        let read = reader.0.world();
        assert!(read.state[CP..] == held.state[CP..]);
        assert!(read.xf[..XF_WORDS] == held.xf[..XF_WORDS]);
    }
}
