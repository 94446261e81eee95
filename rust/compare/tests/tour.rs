//! Every call, accepted and refused, of the proved library and of the twin. The
//! answers that are expected come from document 01, from document 02's L1, L2, L6 and
//! L9, which stand where the two differ, and from `include/duckhammock.h`. That a
//! refused call and a look change nothing, that only a waiting look or take tells
//! the bytes lacking, and that a take tells what a look right before it told, is
//! seen after every call (`Duo`).
#![forbid(unsafe_code)]

mod held;

use compare::call::Patch;
use compare::world::{word, Lent, USUAL};
use held::Held as Tour;
use model::words::{CommandWords, FormatWords, DONE, WAITING};

/// A recording up to its stream.
const HEAD: usize = 18_016;
/// A stream that is longer than a recording's.
const LONG: usize = 1_048_576;

impl Tour {
    /// A look and a take wait for so many bytes.
    #[track_caller]
    fn waits(&mut self, bytes: u32) {
        for (answer, _, lacking) in [self.0.look(), self.0.take()] {
            self.same();
            assert_eq!((answer, lacking), (WAITING, bytes));
        }
    }

    #[track_caller]
    fn lays_out(&mut self, format: &FormatWords, parts: &[(usize, u8, u8)], length: u32) {
        let laid = self.0.lay_out(format);
        self.same();
        assert_eq!((laid.answer, laid.length), (DONE, length));
        let mut before = 0;
        for attribute in 0..21 {
            let part = parts.iter().find(|part| part.0 == attribute);
            let size = part.map_or(0, |part| part.1);
            assert_eq!(laid.sizes[attribute], size, "bytes of {attribute}");
            assert_eq!(laid.offsets[attribute], before, "sum before {attribute}");
            assert_eq!(part.map_or(before, |part| part.2), before);
            before += size;
        }
    }

    #[track_caller]
    fn decodes(&mut self, format: &FormatWords, attribute: u32, vertex: &[u8], values: &[u32]) {
        let (answer, told) = self.0.decode(format, attribute, vertex);
        let (whole, all) = self.0.decode_all(format, vertex);
        self.same();
        assert_eq!((answer, &told[..]), (DONE, &ten(values)[..]));
        let from = 10 * attribute as usize;
        assert_eq!((whole, &all[from..from + 10]), (DONE, &told[..]));
    }

    #[track_caller]
    fn raw(&mut self, format: &FormatWords, attribute: u32, vertex: &[u8], values: &[u32]) {
        let (answer, told) = self.0.raw_words(format, attribute, vertex);
        self.same();
        assert_eq!((answer, &told[..]), (DONE, &ten(values)[..]));
    }

    /// All of them give the refusal.
    #[track_caller]
    fn not_decoded(&mut self, format: &FormatWords, attribute: u32, vertex: &[u8], refusal: u32) {
        let (decoded, _) = self.0.decode(format, attribute, vertex);
        let (raw, _) = self.0.raw_words(format, attribute, vertex);
        let (whole, _) = self.0.decode_all(format, vertex);
        self.same();
        assert_eq!((decoded, raw), (refusal, refusal));
        // A whole vertex has no attribute number that could be wrong.
        if attribute < 21 || refusal != 19 {
            assert_eq!(whole, refusal);
        }
    }

    #[track_caller]
    fn command(&mut self, command: CommandWords, words: &[u32], output: usize, bytes: &[u8]) {
        let told = self.0.write_command(command, words, output);
        self.same();
        assert_eq!(told, (DONE, bytes.to_vec()));
    }

    #[track_caller]
    fn command_refused(
        &mut self,
        command: CommandWords,
        words: &[u32],
        output: usize,
        refusal: u32,
    ) {
        let (answer, _) = self.0.write_command(command, words, output);
        self.same();
        assert_eq!(answer, refusal, "{command:X?}");
    }

    #[track_caller]
    fn patch(&mut self, patch: &Patch, output: usize, bytes: &[u8]) {
        let told = self.0.write_patch(patch, output);
        self.same();
        assert_eq!(told, (DONE, bytes.to_vec()));
    }

    /// Checked, merged on either side and written: all give the refusal.
    #[track_caller]
    fn patch_refused(&mut self, patch: &Patch, refusal: u32) {
        let good = Patch::empty();
        let duo = &mut self.0;
        let answers = [
            duo.check_patch(patch),
            duo.merge_patches(patch, &good, 256, 256).0,
            duo.merge_patches(&good, patch, 256, 256).0,
            duo.write_patch(patch, 2550).0,
        ];
        self.same();
        assert_eq!(answers, [refusal; 4]);
    }

    /// A recording of the stream is written, and so is its head; the file.
    #[track_caller]
    fn records(&mut self, stream: &[u8], output: usize) -> Vec<u8> {
        let (answer, file) = self.0.write_recording(stream, output);
        let (of_head, head) = self.0.write_recording_head(stream.len(), output);
        self.same();
        assert_eq!((answer, of_head), (DONE, DONE));
        assert_eq!(file.len(), HEAD + stream.len());
        assert!(file[..HEAD] == head && file[HEAD..] == *stream);
        file
    }

    #[track_caller]
    fn recording_refused(&mut self, stream: usize, output: usize, refusal: u32) {
        let (answer, _) = self.0.write_recording(&vec![0x48; stream], output);
        self.same();
        assert_eq!(answer, refusal);
    }

    #[track_caller]
    fn head_refused(&mut self, length: usize, output: usize, refusal: u32) {
        let (answer, _) = self.0.write_recording_head(length, output);
        self.same();
        assert_eq!(answer, refusal);
    }

    /// The file is read, whole and in two parts.
    #[track_caller]
    fn loads(&mut self, file: &[u8]) {
        let length = (file.len() - HEAD) as u32;
        let in_parts = self.0.read_recording_head(&file[..HEAD]);
        let rest = self.0.check_recording_rest(length, file.len() - HEAD);
        let whole = self.0.read_recording(file);
        let fault = self.0.find_recording_fault(file);
        self.same();
        assert_eq!((in_parts, rest), ((DONE, length), DONE));
        assert_eq!((whole, fault), ((DONE, [18_016, length]), 18_016));
    }

    /// The head is refused, and its fault stands at a byte.
    #[track_caller]
    fn not_loaded(&mut self, file: &[u8], refusal: u32, byte: u32) {
        let (whole, _) = self.0.read_recording(file);
        let (head, _) = self.0.read_recording_head(file);
        let fault = self.0.find_recording_fault(file);
        self.same();
        assert_eq!((whole, head, fault), (refusal, refusal, byte));
    }

    /// The head is read; the whole file is refused for what is behind it.
    #[track_caller]
    fn rest_not_loaded(&mut self, file: &[u8], refusal: u32) {
        let (whole, _) = self.0.read_recording(file);
        let (head, length) = self.0.read_recording_head(file);
        let rest = self.0.check_recording_rest(length, file.len() - HEAD);
        let fault = self.0.find_recording_fault(file);
        self.same();
        assert_eq!((whole, head, rest), (refusal, DONE, refusal));
        assert_eq!(fault, 18_016);
    }

    #[track_caller]
    fn holds_draw(&self, draw: [u32; 4]) {
        assert_eq!(self.0.world().state[word::DRAW_OPEN..=word::LEFT], draw);
    }
}

/// A kind or a count with its values, 0 where unused.
fn ten(values: &[u32]) -> [u32; 10] {
    let mut ten = [0; 10];
    ten[..values.len()].copy_from_slice(values);
    ten
}

#[test]
fn every_call_is_answered_as_the_papers_say() {
    let mut tour = Tour::new();
    fresh_state(&mut tour);
    hardware_registers(&mut tour);
    refused_registers(&mut tour);
    loads_of_arrays(&mut tour);
    stream(&mut tour);
    whole_rings(&mut tour);
    draw(&mut tour);
    most_units(&mut tour);
    indexed_loads(&mut tour);
    metrics(&mut tour);
    looks(&mut tour);
    refused_units(&mut tour);
    refused_benches(&mut tour);
    refused_lengths(&mut tour);
    wide_words(&mut tour);
    stale_words(&mut tour);
    layouts(&mut tour);
    attributes(&mut tour);
    normals(&mut tour);
    fractions_of_normals(&mut tour);
    shifts_of_others(&mut tour);
    refused_vertices(&mut tour);
    commands(&mut tour);
    refused_commands(&mut tour);
    patches(&mut tour);
    patches_fed(&mut tour);
    refused_patches(&mut tour);
    recordings(&mut tour);
    recordings_run(&mut tour);
    refused_recordings(&mut tour);
    refused_writings(&mut tour);
    assert_eq!(tour.0.tally.unreached_answers(), Vec::<String>::new());
}

/// "Fresh state: control 0010 (hex), BP register FE holding FFFFFF, every other
/// register zero, no draw open."
fn fresh_state(tour: &mut Tour) {
    for index in 0..327 {
        tour.0.poke(index, 0xDEAD_BEEF);
    }
    tour.0.fresh();
    tour.same();
    for index in 0..327 {
        let expected = match index {
            word::CONTROL => 0x0010,
            325 => 0xFF_FFFF,
            _ => 0,
        };
        tour.holds(index, expected);
    }
}

fn hardware_registers(tour: &mut Tour) {
    // A window of no bytes breaks the rules.
    tour.read_refused(0x000, 1);
    tour.read_refused(0x030, 1);
    for (offset, value) in [
        (0x020, 0x1000),
        (0x022, 0),
        (0x024, 0x1100),
        (0x028, 0x80),
        (0x02C, 0x40),
        (0x034, 0x10FE),
        (0x038, 0x10FE),
        (0x002, 0xFFC1),
        (0x004, 7),
    ] {
        tour.writes(offset, value, DONE);
    }
    // Bit 2, the pointers are equal, and bit 3, no draw is open.
    tour.reads(0x000, 0b1100);
    for (offset, value) in [
        (0x002, 1),
        (0x020, 0x1000),
        (0x022, 0),
        (0x024, 0x1100),
        (0x026, 0),
        (0x028, 0x80),
        (0x02C, 0x40),
        (0x030, 0),
        (0x032, 0),
        (0x034, 0x10FE),
        (0x038, 0x10FE),
        (0x03A, 0),
    ] {
        tour.reads(offset, value);
    }
}

/// Not to be read, odd, not listed; not to be written.
fn refused_registers(tour: &mut Tour) {
    for offset in [0x004, 0x021, 0x006, 0x00E, 0x03C, 0x103A] {
        tour.read_refused(offset, 17);
    }
    for offset in [0x000, 0x030, 0x032, 0x040, 0x021] {
        tour.writes(offset, 1, 17);
    }
}

fn loads_of_arrays(tour: &mut Tour) {
    tour.waits(1);
    // A CP load that wraps, in two feeds: base 12 becomes 1000.
    tour.feeds(&[0x08, 0xAC, 0x00], DONE);
    tour.reads(0x030, 3);
    tour.waits(3);
    tour.feeds(&[0x00, 0x10, 0x00], DONE);
    tour.takes([0x08, 0xAC, 0x1000, 0, 0, 6]);
    tour.holds(word::BASES + 12, 0x1000);
    tour.holds(word::READ, 0x1004);
    tour.feeds(
        &[0x08, 0xBC, 0, 0, 0, 0x40, 0x20, 0x00, 0x03, 0xB0, 0x00],
        DONE,
    );
    tour.runs(1, DONE, [1, 0]);
    tour.holds(word::STRIDES + 12, 0x40);
    // "20 00 03 B0 00 with base 1000, stride 40 (hex) reports 10C0, 12 words".
    tour.takes([0x20, 3, 12, 0, 0x10C0, 5]);
}

fn stream(tour: &mut Tour) {
    tour.feeds(
        &[0x10, 0x00, 0xF1, 0x10, 0x00, 1, 2, 3, 4, 5, 6, 7, 8],
        DONE,
    );
    tour.feeds(&[0x61, 0xFE, 0, 0, 0x0F, 0x61, 0x41, 0, 0, 0xA5], DONE);
    tour.feeds(
        &[0x40, 0, 0, 0x20, 0, 0, 0, 1, 0, 0x00, 0x48, 0x44, 0x61],
        DONE,
    );
    tour.runs(0, DONE, [0, 0]);
    let mut xf = tour.0.world().xf.clone();
    tour.takes([0x10, 2, 0x1000, 0, 0, 13]);
    xf[0x1000..0x1002].copy_from_slice(&[0x0102_0304, 0x0506_0708]);
    assert!(tour.0.world().xf == xf);
    tour.runs(2, DONE, [2, 0]);
    tour.holds(word::BP + 0x41, 0x05);
    tour.holds(word::BP + 0xFE, 0xFF_FFFF);
    tour.takes([0x40, 0x2000, 0x100, 0, 0, 9]);
    tour.takes([0x00, 0, 0, 0, 0, 1]);
    tour.takes([0x48, 0, 0, 0, 0, 1]);
    tour.takes([0x44, 0, 0, 0, 0, 1]);
    tour.runs(1_048_575, WAITING, [0, 4]);
    tour.feeds(&[0x41, 1, 2, 3], DONE);
    tour.runs(9, WAITING, [1, 1]);
    tour.holds(word::BP + 0x41, 0x01_0203);
}

/// "255 bytes fill a ring of 256, the 256th gives 11."
fn whole_rings(tour: &mut Tour) {
    tour.feeds(&[0x48; 256], 11);
    tour.feeds(&[0x48; 255], DONE);
    tour.feeds(&[0x48], 11);
    tour.feeds(&[], DONE);
    tour.reads(0x030, 255);
    tour.reads(0x000, 0b1000);
    tour.runs(255, DONE, [255, 0]);
    tour.feeds(&[0x48; 3], DONE);
    // A limit above the units that are there.
    tour.runs(0x1_0000, WAITING, [3, 1]);
}

/// "a limit of units (0 to 65,535)"; L9 has 1,048,575, and "a run's higher limit counts
/// as that".
fn most_units(tour: &mut Tour) {
    for limit in [1_048_575, 1_048_576, u32::MAX] {
        bench(tour);
        tour.0.hold(Lent {
            ring: 1_048_576,
            ..USUAL
        });
        tour.0.poke(word::END, 0x10_1000);
        tour.feeds(&vec![0x48; 1_048_576], 11);
        tour.feeds(&vec![0x48; 1_048_575], DONE);
        tour.runs(limit, DONE, [1_048_575, 0]);
        tour.runs(limit, WAITING, [0, 1]);
    }
}

fn draw(tour: &mut Tour) {
    // Position and colour, 16 bytes; format 3.
    tour.feeds(
        &[0x08, 0x50, 0, 0, 0x22, 0, 0x08, 0x73, 0, 1, 0x40, 0x09],
        DONE,
    );
    tour.feeds(&[0x93, 0, 3], DONE);
    tour.runs(2, DONE, [2, 0]);
    tour.takes([0x80, 2, 3, 3, 0, 3]);
    tour.holds_draw([1, 2, 3, 3]);
    tour.reads(0x000, 0b0100);
    tour.waits(16);
    let vertex: Vec<u8> = (1..=16).collect();
    let mut buffer = tour.0.world().vertex.clone();
    tour.feeds(&vertex, DONE);
    tour.takes([0x01, 0, 0, 0, 0, 16]);
    buffer[..16].copy_from_slice(&vertex);
    assert_eq!(tour.0.world().vertex, buffer);
    tour.feeds(&vertex[..15], DONE);
    tour.waits(1);
    tour.feeds(&[0xFF], DONE);
    tour.takes([0x01, 0, 0, 0, 0, 16]);
    buffer[15] = 0xFF;
    assert_eq!(tour.0.world().vertex, buffer);
    tour.holds_draw([1, 2, 3, 1]);
    tour.feeds(&vertex, DONE);
    tour.runs(2, WAITING, [1, 1]);
    tour.holds_draw([0; 4]);
    tour.reads(0x000, 0b1100);
    // No vertex: no draw is open after it.
    tour.feeds(&[0x93, 0, 0], DONE);
    tour.takes([0x80, 2, 3, 0, 0, 3]);
    tour.holds_draw([0; 4]);
}

/// "Bits 3 and 4 pick array 12 to 15."
fn indexed_loads(tour: &mut Tour) {
    bench(tour);
    for (array, kind) in [(13, 0x28), (14, 0x30), (15, 0x38)] {
        tour.0.poke(word::BASES + array, 0x100 * array as u32);
        tour.0.poke(word::STRIDES + array, array as u32);
        tour.feeds(&[kind, 0x00, 0x10, 0x0A, 0xBC], DONE);
        let address = 0x100 * array as u32 + 0x10 * array as u32;
        tour.takes([kind.into(), 0x10, 1, 0xABC, address, 5]);
    }
}

/// An empty ring that reads, and position and colour in format 3.
fn bench(tour: &mut Tour) {
    tour.0.fresh();
    tour.0.hold(USUAL);
    for (index, value) in [
        (word::START, 0x1000),
        (word::END, 0x1100),
        (word::WRITE, 0x1080),
        (word::READ, 0x1080),
        (word::CONTROL, 1),
        (word::VCD_0, 0x2200),
        (word::VAT + 9, 0x14009),
    ] {
        tour.0.poke(index, value);
    }
}

/// "Accept 44 without effect; 68 now gives refusal 6." (document 02, L2.)
fn metrics(tour: &mut Tour) {
    bench(tour);
    tour.feeds(&[0x44], DONE);
    let before = tour.0.world().clone();
    tour.takes([0x44, 0, 0, 0, 0, 1]);
    tour.waits(1);
    // But for the read pointer all is as it was.
    tour.holds(word::READ, 0x1081);
    tour.0.poke(word::READ, 0x1080);
    assert!(tour.0.world() == &before);

    bench(tour);
    tour.feeds(&[0x68], DONE);
    tour.unit_refused(6);
    tour.runs(1, 6, [0, 0]);
    tour.holds(word::READ, 0x1080);
    tour.reads(0x030, 1);
    // More bytes do not change that.
    tour.feeds(&[0x44, 0, 0, 0], DONE);
    tour.unit_refused(6);
    tour.reads(0x030, 5);

    // A run keeps the units before it.
    bench(tour);
    tour.feeds(&[0x44, 0x44, 0x68, 0x44], DONE);
    tour.runs(9, 6, [2, 0]);
    tour.holds(word::READ, 0x1082);
    tour.reads(0x030, 2);

    // In an open draw both are bytes of a vertex.
    bench(tour);
    tour.0.poke(word::VCD_0, 0x200);
    tour.feeds(&[0x80, 0, 1, 0x68, 0x44], DONE);
    tour.runs(9, WAITING, [2, 1]);
    assert_eq!(tour.0.world().vertex[..2], [0x68, 0x44]);
}

/// "one call tells what the next unit is, with its length, and changes nothing"
/// (document 02, L6): it may be asked again, with other calls between.
fn looks(tour: &mut Tour) {
    bench(tour);
    // An XF load over the ring's end, a draw's head and its vertex, a BP load.
    tour.0.poke(word::WRITE, 0x10FA);
    tour.0.poke(word::READ, 0x10FA);
    let vertex: Vec<u8> = (1..=16).collect();
    tour.feeds(&[0x10, 0, 0, 0, 5, 1, 2, 3], DONE);
    tour.waits(1);
    tour.feeds(&[4, 0x93, 0, 1], DONE);
    tour.feeds(&vertex, DONE);
    tour.feeds(&[0x61, 0x41, 0, 0, 5], DONE);
    let before = tour.0.world().clone();
    let units = [
        [0x10, 1, 5, 0, 0, 9],
        [0x80, 2, 3, 1, 0, 3],
        [0x01, 0, 0, 0, 0, 16],
        [0x61, 0x41, 5, 0, 0, 5],
    ];
    for _ in 0..3 {
        tour.shows(units[0]);
        tour.reads(0x030, 9 + 3 + 16 + 5);
        tour.writes(0x004, 7, DONE);
        tour.runs(0, DONE, [0, 0]);
        assert!(tour.0.world() == &before);
    }
    for unit in units {
        tour.takes(unit);
    }
    assert_eq!(tour.0.world().xf[5], 0x0102_0304);
    assert_eq!(tour.0.world().vertex[..16], vertex);
    tour.holds(word::BP + 0x41, 5);
    tour.waits(1);
}

/// Refused at the deciding byte and not before it.
fn refused_units(tour: &mut Tour) {
    let cases: [(&[u8], u32); 6] = [
        (&[0x01], 6),
        (&[0x68], 6),
        (&[0x08, 0x21], 7),
        (&[0x10, 0, 1, 0x10, 0x57], 8),
        (&[0x90], 9),
        (&[0x91], 10),
    ];
    for (unit, refusal) in cases {
        bench(tour);
        // Without a position 9, and 10 for format 1's colour.
        if refusal == 9 {
            tour.0.poke(word::VCD_0, 0x2000);
        }
        tour.0.poke(word::VAT + 3, 0x1C000);
        for &byte in &unit[..unit.len() - 1] {
            tour.feeds(&[byte], DONE);
            let (answer, _, _) = tour.0.look_and_take();
            assert_eq!(answer, WAITING);
        }
        tour.feeds(&unit[unit.len() - 1..], DONE);
        tour.unit_refused(refusal);
        tour.runs(5, refusal, [0, 0]);
        tour.runs(0, DONE, [0, 0]);
    }
}

/// What a bench that 1, 4 or 5 refuses answers: look, take and run, feed, count.
fn refused_benches(tour: &mut Tour) {
    for (index, value, refusal, window) in [
        (word::END, 0x1101, 1, false),
        (word::WRITE, 0x1100, 1, false),
        (word::READ, 0x0FFF, 1, false),
        (word::START, 0x1010, 1, false),
        (word::BP, 0x0100_0000, 1, true),
        (word::BASES, 0x0400_0000, 1, true),
        (word::STRIDES, 0x100, 1, true),
        (word::CONTROL, 0x41, 1, true),
        (word::CONTROL, 0, 4, true),
        (word::CONTROL, 0x11, 5, true),
    ] {
        bench(tour);
        tour.0.poke(index, value);
        tour.unit_refused(refusal);
        tour.runs(0, refusal, [0, 0]);
        tour.runs(1, refusal, [0, 0]);
        if window {
            tour.feeds(&[0x00], DONE);
            tour.reads(0x030, 1);
        } else {
            tour.feeds(&[0x00], 1);
            tour.read_refused(0x030, 1);
        }
    }
}

/// 1, 2 and 3 of what is lent; a longer vertex buffer is good.
fn refused_lengths(tour: &mut Tour) {
    for (ring, xf, vertex, fed, refusal) in [
        (255, 4184, 129, 1, 1),
        (257, 4184, 129, 1, 1),
        (0, 4184, 129, 1, 1),
        (256, 4183, 129, DONE, 2),
        (256, 4185, 129, DONE, 2),
        (256, 0, 128, DONE, 2),
        (256, 4184, 128, DONE, 3),
        (256, 4184, 0, DONE, 3),
    ] {
        bench(tour);
        tour.0.lend(ring, xf, vertex);
        tour.feeds(&[0x00], fed);
        tour.unit_refused(refusal);
        tour.runs(1, refusal, [0, 0]);
    }
    bench(tour);
    tour.0.lend(256, 4184, 300);
    tour.feeds(&[0x00], DONE);
    tour.takes([0x00, 0, 0, 0, 0, 1]);
}

/// "A word that its field cannot hold is refused by 1" (the header).
fn wide_words(tour: &mut Tour) {
    for words in [
        [9, 2, 3, 1],
        [0x101, 2, 3, 1],
        [1, 0x102, 3, 1],
        [1, 2, 0x103, 1],
        [1, 2, 3, 0x1_0001],
        [1, 2, 3, 0x1_0000],
        [1, 2, 3, 0],
        [1, 8, 3, 1],
        [1, 2, 8, 1],
    ] {
        bench(tour);
        for (at, value) in words.into_iter().enumerate() {
            tour.0.poke(word::DRAW_OPEN + at, value);
        }
        tour.unit_refused(1);
        tour.runs(1, 1, [0, 0]);
        // Calls that do not test them leave them as they are.
        tour.feeds(&[0x00], DONE);
        tour.writes(0x028, 5, DONE);
        tour.reads(0x000, 0b0000);
        tour.holds_draw(words);
    }
    bench(tour);
    tour.0.poke(word::CONTROL, 0x1_0001);
    tour.unit_refused(1);
    tour.reads(0x002, 0x1_0001);
    tour.writes(0x02C, 5, DONE);
    tour.holds(word::CONTROL, 0x1_0001);
    tour.writes(0x002, 0xFFFF, DONE);
    tour.holds(word::CONTROL, 0x3F);
    bench(tour);
    for (at, value) in [1, 2, 3, 1].into_iter().enumerate() {
        tour.0.poke(word::DRAW_OPEN + at, value);
    }
    tour.waits(16);
}

/// "While no draw is open, words 8 to 10 are not looked at, and a take or a run that
/// does a unit leaves them 0 where none is open after it." (the header).
fn stale_words(tour: &mut Tour) {
    bench(tour);
    let stale = [0, 0x1_0008, 0xFFFF_FFFF, 0];
    for (at, value) in stale.into_iter().enumerate() {
        tour.0.poke(word::DRAW_OPEN + at, value);
    }
    tour.waits(1);
    tour.runs(1, WAITING, [0, 1]);
    tour.runs(0, DONE, [0, 0]);
    tour.reads(0x000, 0b1100);
    tour.holds_draw(stale);
    tour.feeds(&[0x00], DONE);
    tour.shows([0x00, 0, 0, 0, 0, 1]);
    tour.holds_draw(stale);
    tour.takes([0x00, 0, 0, 0, 0, 1]);
    tour.holds_draw([0; 4]);
    // Bytes that stand in the ring are units as well as fed ones.
    tour.0.poke_ring(0x81, &[0x61, 0x10, 0x12, 0x34, 0x56]);
    tour.0.poke(word::WRITE, 0x1086);
    tour.takes([0x61, 0x10, 0x12_3456, 0, 0, 5]);
}

/// 26 bytes: a matrix, a position of f32, a normal of s16, a colour, a texture
/// of u8 with shift 3, an index.
const MIXED: FormatWords = [0x2A01, 0x09, 0x4621_4C09, 0, 0];
/// 38 bytes: a position of u8, a normal of nine f32.
const NINE: FormatWords = [0xA00, 0, 0x1200, 0, 0];
/// 8 bytes: a position of u8, a normal of three 16-bit indices.
const INDICES: FormatWords = [0x1A00, 0, 0x8000_0200, 0, 0];
/// No position.
const ABSENT: FormatWords = [0x2000, 0, 0x4621_4C09, 0, 0];
/// Colour format 7.
const UNKNOWN: FormatWords = [0x2A01, 0x09, 0x1C000, 0, 0];

fn layouts(tour: &mut Tour) {
    let mixed = [
        (0, 1, 0),
        (9, 12, 1),
        (10, 6, 13),
        (11, 4, 19),
        (13, 2, 23),
        (14, 1, 25),
    ];
    tour.lays_out(&MIXED, &mixed, 26);
    tour.lays_out(&NINE, &[(9, 2, 0), (10, 36, 2)], 38);
    tour.lays_out(&INDICES, &[(9, 2, 0), (10, 6, 2)], 8);
    assert_eq!(tour.0.lay_out(&ABSENT).answer, 9);
    assert_eq!(tour.0.lay_out(&UNKNOWN).answer, 10);
    tour.same();
}

/// A vertex of the mixed format.
const VERTEX: [u8; 26] = [
    // The matrix; a NaN, minus zero and one.
    0x2A, 0x7F, 0x80, 0, 1, 0x80, 0, 0, 0, 0x3F, 0x80, 0, 0, //
    // -1, -32,768 and 3; the colour; 8, 255; the index.
    0xFF, 0xFF, 0x80, 0, 0, 3, 0xDE, 0xAD, 0xBE, 0xEF, 8, 0xFF, 0x17,
];

fn attributes(tour: &mut Tour) {
    tour.decodes(&MIXED, 0, &VERTEX, &[1, 0x2A]);
    tour.decodes(&MIXED, 1, &VERTEX, &[0]);
    let position = [5, 0x7FC0_0000, 0x8000_0000, 0x3F80_0000];
    tour.decodes(&MIXED, 9, &VERTEX, &position);
    // -1, -32,768 and 3 by 2^14, whatever the VAT's shifts are.
    let normal = [7, 0xB880_0000, 0xC000_0000, 0x3940_0000];
    tour.decodes(&MIXED, 10, &VERTEX, &normal);
    tour.decodes(&MIXED, 11, &VERTEX, &[4, 0xDEAD_BEEF]);
    // 8 / 2^3 and 255 / 2^3.
    tour.decodes(&MIXED, 13, &VERTEX, &[6, 0x3F80_0000, 0x41FF_0000]);
    tour.decodes(&MIXED, 14, &VERTEX, &[2, 0x17]);
    tour.decodes(&MIXED, 20, &VERTEX, &[0]);
    tour.raw(
        &MIXED,
        9,
        &VERTEX,
        &[3, 0x7F80_0001, 0x8000_0000, 0x3F80_0000],
    );
    for attribute in [0, 1, 10, 11, 13, 14, 20] {
        tour.raw(&MIXED, attribute, &VERTEX, &[0]);
    }
}

fn normals(tour: &mut Tour) {
    let bytes: Vec<u8> = (0x40..0x66).collect();
    let words = [
        0x4243_4445,
        0x4647_4849,
        0x4A4B_4C4D,
        0x4E4F_5051,
        0x5253_5455,
        0x5657_5859,
        0x5A5B_5C5D,
        0x5E5F_6061,
        0x6263_6465,
    ];
    tour.decodes(&NINE, 10, &bytes, &[&[8], &words[..]].concat());
    tour.raw(&NINE, 10, &bytes, &[&[9], &words[..]].concat());
    tour.decodes(&INDICES, 10, &bytes[..8], &[3, 0x4243, 0x4445, 0x4647]);
    tour.raw(&INDICES, 10, &bytes[..8], &[0]);
}

/// Three components of a normal in each format, and their bits.
const COMPONENTS: [(&[u8], [u32; 3]); 5] = [
    // u8: 1, 1/128, 255/128.
    (&[0x80, 0x01, 0xFF], [0x3F80_0000, 0x3C00_0000, 0x3FFF_0000]),
    // s8: 1, -2, -1/64.
    (&[0x40, 0x80, 0xFF], [0x3F80_0000, 0xC000_0000, 0xBC80_0000]),
    // u16: 1, 1/32768, 65535/32768.
    (
        &[0x80, 0x00, 0x00, 0x01, 0xFF, 0xFF],
        [0x3F80_0000, 0x3800_0000, 0x3FFF_FF00],
    ),
    // s16: 1, -2, 0.
    (
        &[0x40, 0x00, 0x80, 0x00, 0x00, 0x00],
        [0x3F80_0000, 0xC000_0000, 0x0000_0000],
    ),
    // f32: 64, the number next below 0, -0.
    (
        &[0x42, 0x80, 0, 0, 0x80, 0, 0, 0x01, 0x80, 0, 0, 0],
        [0x4280_0000, 0x8000_0001, 0x8000_0000],
    ),
];

/// "s8 has 6 bits, s16 has 14; for unsigned ones use 7 and 15. They apply whatever
/// bit 30 says, and f32 is untouched." (document 02, L2.) Of three and of nine.
fn fractions_of_normals(tour: &mut Tour) {
    // All other shifts are set: position's and texture 0's.
    let shifts = 31 << 4 | 31 << 25;
    for (component, (bytes, bits)) in (0..).zip(COMPONENTS) {
        let vertex = [&[9, 9], bytes, bytes, bytes].concat();
        let three = &vertex[..2 + bytes.len()];
        let nine = [bits, bits, bits].concat();
        for bit_30 in [0, 1 << 30] {
            let group_0 = component << 10 | bit_30 | shifts;
            let format = [0xA00, 0, group_0, 0, 0];
            tour.decodes(&format, 10, three, &[&[7], &bits[..]].concat());
            let format_of_nine = [0xA00, 0, group_0 | 1 << 9, 0, 0];
            tour.decodes(&format_of_nine, 10, &vertex, &[&[8], &nine[..]].concat());
            if component == 4 {
                tour.raw(&format, 10, three, &[&[3], &bits[..]].concat());
                tour.raw(&format_of_nine, 10, &vertex, &[&[9], &nine[..]].concat());
            } else {
                tour.raw(&format, 10, three, &[0]);
                tour.raw(&format_of_nine, 10, &vertex, &[0]);
            }
        }
    }
}

/// Positions and textures keep document 01's rule: "The shift is 0 for 8-bit
/// components where group 0 bit 30 is clear".
fn shifts_of_others(tour: &mut Tour) {
    // s8 with shifts 6 and 5: 40 and 80, then 40.
    let group_0 = 1 << 1 | 6 << 4 | 1 << 22 | 5 << 25;
    let vertex = [0x40, 0x80, 0x40];
    let clear = [0x200, 1, group_0, 0, 0];
    tour.decodes(&clear, 9, &vertex, &[5, 0x4280_0000, 0xC300_0000]);
    tour.decodes(&clear, 13, &vertex, &[6, 0x4280_0000]);
    let set = [0x200, 1, group_0 | 1 << 30, 0, 0];
    tour.decodes(&set, 9, &vertex, &[5, 0x3F80_0000, 0xC000_0000]);
    tour.decodes(&set, 13, &vertex, &[6, 0x4000_0000]);
}

fn refused_vertices(tour: &mut Tour) {
    for attribute in [21, 22, 255, 256 + 9, 0x1_0009, u32::MAX] {
        tour.not_decoded(&MIXED, attribute, &VERTEX, 19);
    }
    // The length is tested for an absent attribute too.
    for attribute in [9, 20] {
        tour.not_decoded(&MIXED, attribute, &VERTEX[..25], 19);
        tour.not_decoded(&MIXED, attribute, &[], 19);
        tour.not_decoded(&MIXED, attribute, &[0; 27], 19);
        tour.not_decoded(&MIXED, attribute, &[0; 26 + 256], 19);
    }
    tour.not_decoded(&ABSENT, 21, &VERTEX, 9);
    tour.not_decoded(&UNKNOWN, 21, &VERTEX, 10);
}

fn commands(tour: &mut Tour) {
    let cases: [(CommandWords, &[u8]); 11] = [
        ([0x00, 0, 0, 0, 0], &[0x00]),
        ([0x48, 9, 9, 9, 9], &[0x48]),
        ([0x44, 9, 0, 0, 0], &[0x44]),
        ([0x08, 0x50, 0x2200, 9, 9], &[0x08, 0x50, 0, 0, 0x22, 0]),
        ([0x20, 3, 12, 0xFFF, 0], &[0x20, 0, 3, 0xBF, 0xFF]),
        ([0x28, 0, 1, 0, 0], &[0x28, 0, 0, 0, 0]),
        ([0x30, 0x1234, 2, 0x56, 9], &[0x30, 0x12, 0x34, 0x10, 0x56]),
        ([0x38, 0xFFFF, 16, 0, 7], &[0x38, 0xFF, 0xFF, 0xF0, 0]),
        (
            [0x40, 0xDEAD_BEE0, 0x100, 0, 0],
            &[0x40, 0xDE, 0xAD, 0xBE, 0xE0, 0, 0, 1, 0],
        ),
        ([0x61, 0x41, 0xA5, 0, 0], &[0x61, 0x41, 0, 0, 0xA5]),
        ([0x80, 2, 3, 0xFFFF, 0], &[0x93, 0xFF, 0xFF]),
    ];
    for (command, bytes) in cases {
        tour.command(command, &[], 10, bytes);
        // Lent words are not looked at, and the output may be just as long.
        tour.command(command, &[1; 255], bytes.len(), bytes);
    }
    tour.command(
        [0x10, 2, 0x1056, 0, 0],
        &[0x0102_0304, 0x0506_0708],
        14,
        &[0x10, 0, 1, 0x10, 0x56, 1, 2, 3, 4, 5, 6, 7, 8],
    );
}

fn refused_commands(tour: &mut Tour) {
    // A vertex, kinds that are none, fields that are too wide.
    for command in [
        [0x01, 0, 0, 0, 0],
        [0x02, 0, 0, 0, 0],
        [0x68, 0, 0, 0, 0],
        [0x100, 0, 0, 0, 0],
        [0x144, 0, 0, 0, 0],
        [0x161, 0x41, 0xA5, 0, 0],
        [0x08, 0x150, 0, 0, 0],
        [0x10, 0x101, 0, 0, 0],
        [0x10, 0, 0, 0, 0],
        [0x20, 0x1_0000, 1, 0, 0],
        [0x28, 0, 1, 0x1000, 0],
        [0x30, 0, 17, 0, 0],
        [0x38, 0, 0, 0, 0],
        [0x61, 0x41, 0x0100_0000, 0, 0],
        [0x61, 0x141, 0, 0, 0],
        [0x80, 8, 0, 0, 0],
        [0x80, 0, 8, 0, 0],
        [0x80, 0, 0, 0x1_0000, 0],
    ] {
        tour.command_refused(command, &[], 0, 18);
    }
    tour.command_refused([0x10, 2, 0, 0, 0], &[1], 30, 18);
    tour.command_refused([0x10, 2, 0, 0, 0], &[1, 2, 3], 30, 18);
    tour.command_refused([0x10, 2, 0x1_0000, 0, 0], &[1, 2], 30, 18);
    tour.command_refused([0x08, 0x21, 0, 0, 0], &[], 0, 7);
    tour.command_refused([0x10, 2, 0x1057, 0, 0], &[1, 2], 0, 8);
    tour.command_refused([0x10, 1, 0xFFFF, 0, 0], &[1], 0, 8);
    tour.command_refused([0x40, 1, 2, 0, 0], &[], 8, 16);
    tour.command_refused([0x00, 0, 0, 0, 0], &[], 0, 16);
    tour.command_refused([0x44, 0, 0, 0, 0], &[], 0, 16);
    // No kind, and so not 16 (document 02, L2).
    tour.command_refused([0x68, 0, 0, 0, 0], &[], 9, 18);
}

fn patches(tour: &mut Tour) {
    let a = Patch::of(&[(0x41, 0x0F, 0x05), (0xFF, 0xFF_FFFF, 0x12_3456)]);
    let b = Patch::of(&[(0x41, 0xF8, 0x30)]);
    assert_eq!(tour.0.check_patch(&a), DONE);
    // Bit 3 is b's, which is 0.
    let merged = Patch::of(&[(0x41, 0xFF, 0x35), (0xFF, 0xFF_FFFF, 0x12_3456)]);
    assert_eq!(tour.0.merge_patches(&a, &b, 256, 256), (DONE, merged));
    let bytes = [
        0x61, 0xFE, 0, 0, 0x0F, 0x61, 0x41, 0, 0, 0x05, //
        0x61, 0xFE, 0xFF, 0xFF, 0xFF, 0x61, 0xFF, 0x12, 0x34, 0x56,
    ];
    tour.patch(&a, 20, &bytes);
    tour.patch(&a, 25, &bytes);
    assert_eq!(tour.0.write_patch(&a, 19).0, 16);
    tour.patch(&Patch::empty(), 0, &[]);
    // A mask with the number 0 is written.
    let zero = Patch::of(&[(0, 1, 0)]);
    tour.patch(&zero, 10, &[0x61, 0xFE, 0, 0, 1, 0x61, 0, 0, 0, 0]);
}

/// Document 01's two sheets at 41: one after the other they leave what the
/// merged one leaves.
fn patches_fed(tour: &mut Tour) {
    let low = Patch::of(&[(0x41, 0x0F, 0x05)]);
    let high = Patch::of(&[(0x41, 0xF0, 0x30)]);
    let (answer, merged) = tour.0.merge_patches(&low, &high, 256, 256);
    assert_eq!(answer, DONE);
    let first = [0x61, 0xFE, 0, 0, 0x0F, 0x61, 0x41, 0, 0, 0x05];
    let second = [0x61, 0xFE, 0, 0, 0xF0, 0x61, 0x41, 0, 0, 0x30];
    let both = [0x61, 0xFE, 0, 0, 0xFF, 0x61, 0x41, 0, 0, 0x35];
    tour.patch(&low, 10, &first);
    tour.patch(&high, 10, &second);
    tour.patch(&merged, 10, &both);
    for streams in [&[first, second][..], &[both]] {
        bench(tour);
        tour.0.poke(word::BP + 0x41, 0xABC_DEF);
        for bytes in streams {
            tour.feeds(bytes, DONE);
            tour.writes(0x004, 1, DONE);
            tour.runs(1_048_575, WAITING, [2, 1]);
        }
        tour.holds(word::BP + 0x41, 0xABC_D35);
        tour.holds(word::BP + 0xFE, 0xFF_FFFF);
    }
}

fn refused_patches(tour: &mut Tour) {
    for (register, mask, number, refusal) in [
        (0xFE, 0, 1, 13),
        (0xFE, 1, 0, 13),
        (0xFE, 0x0100_0000, 0, 13),
        (0x41, 0x0100_0000, 0, 14),
        (0x41, 0x0100_0000, 0x10, 14),
        (0x41, 0x0F, 0x10, 15),
        (0x41, 0xFF_FFFF, 0x0100_0000, 15),
        (0, 1, 2, 15),
    ] {
        tour.patch_refused(&Patch::of(&[(register, mask, number)]), refusal);
    }
    // The first fault, by register.
    tour.patch_refused(&Patch::of(&[(0x41, 0, 1), (0xFE, 1, 0)]), 15);
    tour.patch_refused(&Patch::of(&[(0xFE, 1, 0), (0xFF, 0, 1)]), 13);
    let mut short = Patch::of(&[(0x41, 0x0F, 0x10)]);
    short.masks.truncate(255);
    tour.patch_refused(&short, 12);
    let mut long = Patch::of(&[(0xFE, 1, 0)]);
    long.numbers.push(0);
    tour.patch_refused(&long, 12);
    let none = Patch {
        masks: vec![],
        numbers: vec![],
    };
    tour.patch_refused(&none, 12);
    // All three pairs, before any fault; then a's faults before b's.
    let wide = Patch::of(&[(0xFF, 0x0100_0000, 0)]);
    let outside = Patch::of(&[(0, 0, 1)]);
    for (masks, numbers, answer) in [(2, 300, 12), (256, 1, 12), (0, 0, 12), (256, 256, 14)] {
        let told = tour.0.merge_patches(&wide, &outside, masks, numbers);
        assert_eq!(told.0, answer);
    }
    assert_eq!(tour.0.merge_patches(&outside, &wide, 256, 256).0, 15);
    assert_eq!(tour.0.write_patch(&wide, 0).0, 14);
    tour.same();
}

/// The file with one number changed.
fn with(file: &[u8], place: usize, number: u32) -> Vec<u8> {
    let mut changed = file.to_vec();
    changed[place..place + 4].copy_from_slice(&number.to_be_bytes());
    changed
}

/// Document 02's L1: where the numbers stand in the file, worked out by hand.
fn recordings(tour: &mut Tour) {
    bench(tour);
    for (index, value) in [
        (word::BP, 0x01_0203),
        (word::BP + 0xFF, 0xFF_FFFF),
        (11, 0x3333_3333),
        (word::VAT + 3 * 7 + 2, 0x9797_9797),
        (word::BASES, 0x3FF_FFFF),
        (word::STRIDES + 15, 0xFF),
    ] {
        tour.0.poke(index, value);
    }
    let file = tour.records(&[0x61, 0x41], HEAD + 2);
    for (place, bytes) in [
        (0, [0, 0, 1, 0]),
        (4, [0, 1, 2, 3]),
        (1020, [0, 0xFF, 0xFF, 0xFF]),
        (1024, [0, 0xFF, 0xFF, 0xFF]),
        (1028, [0, 0, 0, 60]),
        (1032, [0x33; 4]),
        (1040, [0, 0, 0x22, 0]),
        (1140, [0x97; 4]),
        (1144, [3, 0xFF, 0xFF, 0xFF]),
        (1268, [0, 0, 0, 0xFF]),
        (1272, [0, 0, 0x10, 0x58]),
        (18_012, [0, 0, 0, 2]),
    ] {
        assert_eq!(file[place..place + 4], bytes, "byte {place}");
    }
    let xf = tour.0.world().xf[4183].to_be_bytes();
    assert_eq!(file[18_008..18_012], xf);
    // Into a longer output, and with the longest stream.
    assert!(tour.records(&[0x61, 0x41], HEAD + 99) == file);
    let longest = tour.records(&vec![0; 1_048_575], HEAD + 1_048_575);
    tour.loads(&longest);
    tour.loads(&file);
    tour.loads(&with(&file, 4 + 4 * 0xFE, 0x12_3456));
    tour.holds(word::BP + 0xFE, 0x12_3456);
}

/// "A loaded recording starts with no draw open, its stream fed to an empty ring with
/// pointers as the caller sets them."
fn recordings_run(tour: &mut Tour) {
    bench(tour);
    // A position of two bytes.
    tour.0.poke(word::VCD_0, 0x200);
    tour.0.poke(word::BP + 0x41, 0xABC_DEF);
    tour.0.poke(word::BP + 0xFE, 0x00_00FF);
    let file = tour.records(&[0x61, 0x41, 0, 0, 5, 0x80, 0, 1, 1, 2], HEAD + 10);
    // Another machine with a draw open and its window and control word as they are.
    bench(tour);
    tour.0.poke(word::VCD_0, 0x200);
    tour.feeds(&[0x90, 0, 9, 1, 2], DONE);
    tour.runs(2, DONE, [2, 0]);
    tour.holds_draw([1, 2, 0, 8]);
    for (index, value) in [
        (word::HIGH_MARK, 0x80),
        (word::CONTROL, 0x21),
        (word::VCD_0, 0),
    ] {
        tour.0.poke(index, value);
    }
    let window = tour.0.world().state[..7].to_vec();
    tour.loads(&file);
    tour.holds_draw([0; 4]);
    assert_eq!(tour.0.world().state[..7], window);
    tour.holds(word::BP + 0x41, 0xABC_DEF);
    tour.holds(word::VCD_0, 0x200);
    tour.feeds(&file[HEAD..], DONE);
    tour.runs(1_048_575, WAITING, [3, 1]);
    tour.holds(word::BP + 0x41, 0xABC_D05);
    tour.holds(word::BP + 0xFE, 0xFF_FFFF);
}

/// 2, then 20 to 23 by the first place.
fn refused_recordings(tour: &mut Tour) {
    bench(tour);
    let file = tour.records(&[0x48; 9], HEAD + 9);
    for (place, number, refusal) in [
        (0, 255, 20),
        (0, 257, 20),
        (1028, 61, 20),
        (1272, 4183, 20),
        (18_012, 1_048_576, 20),
        (18_012, u32::MAX, 20),
        (4, 0x100_0000, 21),
        (1020, 0x100_0000, 21),
        (1024, u32::MAX, 21),
        (1144, 0x400_0000, 21),
        (1204, u32::MAX, 21),
        (1208, 0x100, 21),
        (1268, 0x100, 21),
    ] {
        let spoilt = with(&file, place, number);
        tour.not_loaded(&spoilt, refusal, place as u32);
        // Before 22 and 23, but a number that is not whole is none.
        tour.not_loaded(&spoilt[..place + 4], refusal, place as u32);
        tour.not_loaded(&[&spoilt[..], &[0]].concat(), refusal, place as u32);
        tour.not_loaded(&spoilt[..place + 3], 22, place as u32 + 3);
        tour.not_loaded(&spoilt[..place + 1], 22, place as u32 + 1);
    }
    tour.not_loaded(&[], 22, 0);
    tour.not_loaded(&file[..HEAD - 1], 22, 18_015);
    refused_rests(tour, &file);
    refused_xf_lengths(tour, &file);
}

/// What is behind the head is not the stream that it tells.
fn refused_rests(tour: &mut Tour, file: &[u8]) {
    for (count, bytes, refusal) in [
        (9, 8, 22),
        (9, 0, 22),
        (0, 1, 23),
        (65_536, 65_535, 22),
        (1_048_575, 1_048_576, 23),
    ] {
        let mut other = with(file, 18_012, count);
        other.resize(HEAD + bytes, 0x48);
        tour.rest_not_loaded(&other, refusal);
    }
}

/// 2 before the faults of a file.
fn refused_xf_lengths(tour: &mut Tour, file: &[u8]) {
    let spoilt = with(file, 0, 255);
    for xf in [0, 4183, 4185] {
        tour.0.lend(256, xf, 129);
        for file in [file, &spoilt, &[]] {
            let (whole, _) = tour.0.read_recording(file);
            let (head, _) = tour.0.read_recording_head(file);
            tour.same();
            assert_eq!((whole, head), (2, 2));
        }
    }
}

/// 1, 2, 20, 16; window, control and draw are not looked at.
fn refused_writings(tour: &mut Tour) {
    bench(tour);
    tour.recording_refused(9, HEAD + 8, 16);
    tour.recording_refused(0, HEAD - 1, 16);
    tour.recording_refused(0, 0, 16);
    tour.head_refused(9, HEAD - 1, 16);
    tour.recording_refused(LONG, 0, 20);
    tour.recording_refused(LONG, HEAD + LONG, 20);
    for length in [LONG, 0x1_0000_0000, 0x1_0000_0009, usize::MAX] {
        tour.head_refused(length, 0, 20);
        tour.head_refused(length, HEAD, 20);
    }
    for xf in [0, 4183, 4185] {
        tour.0.lend(256, xf, 129);
        tour.recording_refused(LONG, 0, 2);
        tour.head_refused(LONG, 0, 2);
    }
    for (index, number) in [
        (word::BP, 0x100_0000),
        (word::BP + 0xFE, 0x100_0000),
        (word::BASES + 15, 0x400_0000),
        (word::STRIDES, 0x100),
    ] {
        bench(tour);
        tour.0.poke(index, number);
        tour.recording_refused(9, HEAD + 9, 1);
        tour.0.lend(256, 4183, 129);
        tour.recording_refused(LONG, 0, 1);
        tour.head_refused(LONG, 0, 1);
    }
    bench(tour);
    for index in 0..11 {
        tour.0.poke(index, u32::MAX);
    }
    tour.records(&[], HEAD);
}
