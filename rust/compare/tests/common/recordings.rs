//! The twin's calls of recordings with one fault.

use super::{Fault, CONTROL, END, OPEN, START};
use compare::recording::{found_at, Found, Holds, NUMBER_BYTES, SECTIONS};
use compare::side::{Side, Twin};
use model::words::{self, StateWords, StreamWords, DONE, STATE_WORDS};

const HEAD: usize = 18_016;
const LONGEST: usize = 1_048_575;
/// The longest stream until document 02's L9.
const LONGEST_BEFORE: usize = 65_535;
const LOW_16: usize = 0xFFFF;
const LOW_20: usize = 0xF_FFFF;
const XF_WORDS: usize = 4184;
const STREAM_COUNT: usize = HEAD - NUMBER_BYTES;

/// Sections of the file by their number.
const BP_REGISTERS: usize = 1;
const VAT_WORDS: usize = 4;
const BASES: usize = 5;
const STRIDES: usize = 6;
const XF_SECTION: usize = 8;
const STREAM_SECTION: usize = 9;

/// Words of the state.
const VAT: usize = 15;
const BASE_WORDS: std::ops::Range<usize> = 39..55;
const STRIDE_WORDS: std::ops::Range<usize> = 55..71;
const BP_WORDS: std::ops::Range<usize> = 71..327;

/// A number of a file that is whole.
fn number(file: &[u8], place: usize) -> u32 {
    let four = file[place..].first_chunk().expect("a whole number");
    u32::from_be_bytes(*four)
}

fn put(file: &mut [u8], place: usize, number: u32) {
    file[place..place + NUMBER_BYTES].copy_from_slice(&number.to_be_bytes());
}

/// The numbers of a section that are whole in the file, by their places.
fn places(file: &[u8], section: usize) -> impl Iterator<Item = usize> {
    let section = &SECTIONS[section];
    let length = file.len();
    (0..section.numbers)
        .map(|at| section.place(at))
        .take_while(move |place| place + NUMBER_BYTES <= length)
}

/// The numbers of a section modulo what they can be.
fn modulo(file: &mut [u8], section: usize) {
    let Holds::AtMost(bits) = SECTIONS[section].holds else {
        return;
    };
    for place in places(file, section) {
        put(file, place, number(file, place) & bits);
    }
}

/// Whether some number of a section is above another.
fn any_above(file: &[u8], section: usize, most: u32) -> bool {
    places(file, section).any(|place| number(file, place) > most)
}

/// The bytes behind the head, and the stream's count, of a file with a whole head.
fn rest_and_count(file: &[u8]) -> Option<(usize, usize)> {
    let rest = file.len().checked_sub(HEAD)?;
    Some((rest, number(file, STREAM_COUNT) as usize))
}

/// The file as a side sees it that does not test something.
fn seen_file(fault: Fault, file: &[u8]) -> Vec<u8> {
    let mut seen = file.to_vec();
    match fault {
        Fault::ReadingBpModulo => modulo(&mut seen, BP_REGISTERS),
        Fault::ReadingBasesModulo => modulo(&mut seen, BASES),
        Fault::ReadingStridesModulo => modulo(&mut seen, STRIDES),
        _ => {}
    }
    let Some((rest, count)) = rest_and_count(file) else {
        return seen;
    };
    match fault {
        Fault::ReadingStreamCountModulo => {
            put(&mut seen, STREAM_COUNT, (count & LOW_16) as u32);
        }
        Fault::ReadingStreamCountModulo20 => {
            put(&mut seen, STREAM_COUNT, (count & LOW_20) as u32);
        }
        Fault::ReadingOneLonger if count == LONGEST + 1 && rest == count => {
            put(&mut seen, STREAM_COUNT, LONGEST as u32);
            seen.truncate(HEAD + LONGEST);
        }
        Fault::ReadingTailPassed if rest > count => seen.truncate(HEAD + count),
        Fault::ReadingCutStreamTaken if rest < count && count <= LONGEST => {
            put(&mut seen, STREAM_COUNT, rest as u32);
        }
        _ => {}
    }
    seen
}

/// Whether a file with a good head tells a stream longer than any before.
fn is_long(file: &[u8]) -> bool {
    rest_and_count(file).is_some_and(|(_, count)| count > LONGEST_BEFORE)
}

/// The head as a side sees it that lets a stream be one byte longer.
fn seen_head(fault: Fault, head: &[u8]) -> Vec<u8> {
    let mut seen = head.to_vec();
    let longer = rest_and_count(head).is_some_and(|(_, count)| count == LONGEST + 1);
    if fault == Fault::HeadOneLonger && longer {
        put(&mut seen, STREAM_COUNT, LONGEST as u32);
    }
    seen
}

/// Whether the bytes that are there of a cut number cannot be its first ones.
fn cut_is_wrong(head: &[u8], count: bool) -> bool {
    let Found::Cut(section, bytes) = found_at(head.len(), head.len()) else {
        return false;
    };
    let there = &head[head.len() - bytes..];
    let (is_count, wrong) = match SECTIONS[section].holds {
        Holds::Count(right) => (true, there != &right.to_be_bytes()[..bytes]),
        Holds::AtMost(most) => (
            SECTIONS[section].numbers == 1,
            there > &most.to_be_bytes()[..bytes],
        ),
    };
    is_count == count && wrong
}

/// The answer of a side that reads a whole file and has a fault of its tests.
fn reading_answer(fault: Fault, file: &[u8], answer: u32) -> u32 {
    let in_head = words::find_recording_fault(file) as usize;
    match (fault, answer) {
        (Fault::ReadingMaskTested, DONE) if number(file, 4 + 4 * 0xFE) != 0xFF_FFFF => 21,
        (Fault::ReadingVatTested, DONE) if any_above(file, VAT_WORDS, 0xFF_FFFF) => 21,
        (Fault::ReadingXfTested, DONE) if any_above(file, XF_SECTION, 0x7FFF_FFFF) => 21,
        (Fault::ReadingCutNumberWide, 22) if in_head < HEAD && cut_is_wrong(file, false) => 21,
        (Fault::ReadingCutCountWrong, 22) if in_head < HEAD && cut_is_wrong(file, true) => 20,
        (Fault::ReadingShortBeforeCount, 20) if in_head == STREAM_COUNT => 22,
        (Fault::ReadingNoStreamRefused, DONE) if file.len() == HEAD => 22,
        (Fault::ReadingLongestRefused, DONE) if file.len() == HEAD + LONGEST => 20,
        (Fault::ReadingShortAsLong, 22) if in_head == HEAD => 23,
        (Fault::OldStreamOfReading, _) if in_head == HEAD && is_long(file) => 20,
        _ => answer,
    }
}

/// The VAT with its words by group, then format.
fn by_group(state: &mut StateWords) {
    let was = *state;
    for format in 0..8 {
        for group in 0..3 {
            state[VAT + 3 * format + group] = was[VAT + 8 * group + format];
        }
    }
}

/// What is wrong with the state and the XF words after a file that is accepted.
fn spoil_loaded(fault: Fault, was: &StateWords, state: &mut StateWords, xf: &mut [u32]) {
    match fault {
        Fault::ReadingLeavesTheDraw => {
            state[OPEN..OPEN + 4].copy_from_slice(&was[OPEN..OPEN + 4]);
        }
        Fault::ReadingLeavesStaleWords => {
            state[OPEN + 1..OPEN + 4].copy_from_slice(&was[OPEN + 1..OPEN + 4]);
        }
        Fault::ReadingFreshWindow => state[..CONTROL].fill(0),
        Fault::ReadingFreshControl => state[CONTROL] = 0x10,
        Fault::ReadingMasksControl => state[CONTROL] &= 0x3F,
        Fault::ReadingVatByGroup => by_group(state),
        Fault::ReadingMaskReset => state[BP_WORDS.start + 0xFE] = 0xFF_FFFF,
        Fault::ReadingLastStrideLeft => state[70] = was[70],
        Fault::ReadingXfFromCount => {
            xf.rotate_right(1);
            xf[0] = XF_WORDS as u32;
        }
        _ => {}
    }
}

/// The same after a head that is accepted.
fn spoil_head(fault: Fault, was: &StateWords, state: &mut StateWords, xf: &mut [u32]) {
    match fault {
        Fault::HeadLeavesTheDraw => {
            state[OPEN..OPEN + 4].copy_from_slice(&was[OPEN..OPEN + 4]);
        }
        Fault::HeadMasksControl => state[CONTROL] &= 0x3F,
        Fault::HeadXfWordLittleEndian => xf[0] = xf[0].swap_bytes(),
        _ => {}
    }
}

/// What a reading is lent.
pub struct Reading<'a> {
    pub state: &'a mut StateWords,
    pub file: &'a [u8],
    pub xf: &'a mut [u32],
}

impl Reading<'_> {
    /// Reads a whole file.
    pub fn whole(&mut self, fault: Fault, stream: &mut StreamWords) -> u32 {
        let (mut state, mut xf, mut told) = (*self.state, self.xf.to_vec(), *stream);
        let more = match fault {
            Fault::ReadingWithout2 => xf.len().saturating_sub(XF_WORDS),
            _ => 0,
        };
        let lent = xf.len() - more;
        let file = seen_file(fault, self.file);
        let read = Twin.read_recording(&mut state, &file, &mut xf[..lent], &mut told);
        let answer = match (fault, read) {
            (Fault::ReadingXfLengthLast, 2) => 2.max(self.of_file()),
            _ => reading_answer(fault, &file, read),
        };
        if answer == DONE {
            spoil_loaded(fault, self.state, &mut state, &mut xf);
            self.keep(state, xf);
            *stream = told;
        } else {
            self.spoil_refused(fault, answer);
        }
        match fault {
            Fault::ReadingTellsPlace0 if answer == DONE => stream[0] = 0,
            Fault::ReadingTellsTheFile if answer == DONE => stream[1] += HEAD as u32,
            Fault::ReadingTellsLengthModulo if answer == DONE => stream[1] &= LOW_16 as u32,
            Fault::ReadingZeroesStream if answer != DONE => *stream = [0; 2],
            _ => {}
        }
        answer
    }

    /// Reads the head alone.
    pub fn head(&mut self, fault: Fault, length: &mut u32) -> u32 {
        let (mut state, mut xf, mut told) = (*self.state, self.xf.to_vec(), *length);
        if fault == Fault::HeadWithout2 {
            xf.resize(XF_WORDS, 0);
        }
        let head = seen_head(fault, self.file);
        let read = Twin.read_recording_head(&mut state, &head, &mut xf, &mut told);
        let rest = self.file.len().saturating_sub(HEAD);
        let answer = match fault {
            Fault::HeadTestsTheRest if read == DONE => words::check_recording_rest(told, rest),
            Fault::HeadOfJustItsBytes if read == DONE && rest != 0 => 23,
            Fault::HeadCutNumberWide if read == 22 && cut_is_wrong(self.file, false) => 21,
            Fault::HeadWithoutStreamCount if read == 20 && self.fault_at() == STREAM_COUNT => 22,
            Fault::OldStreamOfHead if read == DONE && is_long(self.file) => 20,
            _ => read,
        };
        if answer == DONE {
            spoil_head(fault, self.state, &mut state, &mut xf);
            self.keep(state, xf);
            *length = told;
        }
        match fault {
            Fault::HeadTellsTheRest if answer == DONE => *length = rest as u32,
            Fault::HeadTellsLengthModulo if answer == DONE => *length &= LOW_16 as u32,
            Fault::HeadZeroesLength if answer != DONE => *length = 0,
            _ => {}
        }
        answer
    }

    /// What was read is held.
    fn keep(&mut self, state: StateWords, mut xf: Vec<u32>) {
        *self.state = state;
        xf.resize(self.xf.len(), 0);
        self.xf.copy_from_slice(&xf);
    }

    /// The answer of the file alone, with as many XF words as it needs.
    fn of_file(&self) -> u32 {
        let (mut state, mut xf) = ([0; STATE_WORDS], [0; XF_WORDS]);
        Twin.read_recording(&mut state, self.file, &mut xf, &mut [0; 2])
    }

    fn fault_at(&self) -> usize {
        words::find_recording_fault(self.file) as usize
    }

    /// What is changed by a file that is refused.
    fn spoil_refused(&mut self, fault: Fault, answer: u32) {
        let (file, fault_at) = (self.file, self.fault_at());
        let before = |section| places(file, section).filter(move |&place| place < fault_at);
        match fault {
            _ if answer == 2 => {}
            Fault::ReadingOnePass => {
                for (word, place) in self.xf.iter_mut().zip(before(XF_SECTION)) {
                    *word = number(file, place);
                }
            }
            Fault::ReadingStoresRegisters => {
                for (word, place) in BP_WORDS.zip(before(BP_REGISTERS)) {
                    self.state[word] = number(file, place);
                }
            }
            Fault::ReadingHeadFirst if fault_at == HEAD => {
                Twin.read_recording_head(self.state, file, self.xf, &mut 0);
            }
            _ => {}
        }
    }
}

/// Counts what is behind the head.
pub fn check_rest(fault: Fault, length: u32, rest: usize) -> u32 {
    let rest = match fault {
        Fault::RestModulo32 => rest & 0xFFFF_FFFF,
        Fault::RestModulo16 => rest & LOW_16,
        Fault::RestModulo20 => rest & LOW_20,
        _ => rest,
    };
    let seen = match fault {
        Fault::RestLengthModulo => length & LOW_16 as u32,
        _ => length,
    };
    let answer = Twin.check_recording_rest(seen, rest);
    match (fault, answer) {
        (Fault::RestShortAsLong, 22) => 23,
        (Fault::RestLongPassed, 23) => DONE,
        (Fault::RestNoStreamRefused, DONE) if length == 0 => 22,
        (Fault::RestTestsTheCount, _) if length as usize > LONGEST => 20,
        _ => answer,
    }
}

/// Finds the first fault of a head.
pub fn find_fault(fault: Fault, head: &[u8]) -> u32 {
    let byte = Twin.find_recording_fault(head);
    let found = found_at(head.len(), byte as usize);
    match (fault, found) {
        (Fault::FindingNumberOfCut, Found::Cut(_, bytes)) => byte - bytes as u32,
        (Fault::FindingEndOfNumber, Found::Wrong(_)) => byte + 4,
        (Fault::FindingLastByte, Found::Wrong(_)) => byte + 3,
        (Fault::FindingNumbers, _) => byte / 4,
        (Fault::FindingTheLength, Found::Nothing) => head.len() as u32,
        (Fault::FindingNoStreamCount, Found::Wrong(STREAM_SECTION)) => HEAD as u32,
        (Fault::OldStreamOfFinding, Found::Nothing) if is_long(head) => STREAM_COUNT as u32,
        (Fault::FindingOneLonger, Found::Wrong(STREAM_SECTION))
            if number(head, STREAM_COUNT) as usize == LONGEST + 1 =>
        {
            HEAD as u32
        }
        (Fault::FindingCutBeforeWide, Found::Wrong(_)) if head.len() < HEAD => head.len() as u32,
        _ => byte,
    }
}

/// What is written behind the registers: a stream, or its count alone.
pub enum Behind<'a> {
    Stream(&'a [u8]),
    Count(usize),
}

/// What a writing is lent.
pub struct Writing<'a> {
    pub state: &'a mut StateWords,
    pub xf: &'a mut [u32],
    pub behind: Behind<'a>,
    pub output: &'a mut [u8],
    pub written: &'a mut u32,
}

impl Writing<'_> {
    fn length(&self) -> usize {
        match self.behind {
            Behind::Stream(stream) => stream.len(),
            Behind::Count(length) => length,
        }
    }

    fn of_head(&self) -> bool {
        matches!(self.behind, Behind::Count(_))
    }

    /// Whether the stream is longer than any before.
    fn is_long(&self) -> bool {
        self.length() > LONGEST_BEFORE
    }

    /// The bytes that the output needs.
    fn needed(&self) -> usize {
        match self.behind {
            Behind::Stream(stream) => HEAD + stream.len(),
            Behind::Count(_) => HEAD,
        }
    }

    /// Writes the file or its head.
    pub fn make(&mut self, fault: Fault) -> u32 {
        let (mut output, mut written) = (self.output.to_vec(), *self.written);
        let mut state = self.seen(fault);
        let wrote = match self.behind {
            Behind::Stream(mut stream) => {
                if fault == Fault::WritingOneLonger && stream.len() == LONGEST + 1 {
                    stream = &stream[..LONGEST];
                }
                Twin.write_recording(&mut state, self.xf, stream, &mut output, &mut written)
            }
            Behind::Count(length) => {
                let length = match fault {
                    Fault::HeadWritingModulo => length & 0xFFFF_FFFF,
                    Fault::HeadWritingOneLonger if length == LONGEST + 1 => LONGEST,
                    _ => length,
                };
                Twin.write_recording_head(&mut state, self.xf, length, &mut output, &mut written)
            }
        };
        let answer = self.answer(fault, wrote);
        if answer == DONE {
            self.spoil_file(fault, &mut output[..written as usize]);
            self.output.copy_from_slice(&output);
            *self.written = written;
        }
        self.spoil(fault, answer);
        answer
    }

    /// The state as a side sees it that does not test a width, or has another order.
    fn seen(&self, fault: Fault) -> StateWords {
        let mut seen = *self.state;
        let (words, bits) = match fault {
            Fault::WritingBpModulo => (BP_WORDS, 0xFF_FFFF),
            Fault::WritingBasesModulo => (BASE_WORDS, 0x3FF_FFFF),
            Fault::WritingStridesModulo => (STRIDE_WORDS, 0xFF),
            _ => (0..0, 0),
        };
        seen[words].iter_mut().for_each(|word| *word &= bits);
        if fault == Fault::WritingVatByGroup {
            by_group(&mut seen);
        }
        seen
    }

    /// The answer of a side with a fault of its tests.
    fn answer(&self, fault: Fault, answer: u32) -> u32 {
        let (state, room) = (&*self.state, self.output.len());
        let window_is_broken = state[END].wrapping_sub(state[START]) < 256;
        let draw_is_broken = state[OPEN] > 1 || state[OPEN] == 1 && state[OPEN + 3] == 0;
        let wide_vat = state[VAT..BASE_WORDS.start]
            .iter()
            .any(|&word| word > 0xFF_FFFF);
        match (fault, answer) {
            (Fault::WritingTestsTheWindow, DONE) if window_is_broken => 1,
            (Fault::WritingTestsTheControl, DONE) if state[CONTROL] > 0x3F => 1,
            (Fault::WritingTestsTheDraw, DONE) if draw_is_broken => 1,
            (Fault::WritingTestsTheVat, DONE) if wide_vat => 1,
            (Fault::Writing2Before1, 1) if self.xf.len() != XF_WORDS => 2,
            (Fault::Writing20Before2, 2) if self.length() > LONGEST => 20,
            (Fault::Writing16Before20, 20) if room < self.needed() => 16,
            (Fault::WritingNeedsOneMore, DONE) if room == self.needed() => 16,
            (Fault::WritingLongestRefused, DONE) if self.length() == LONGEST => 20,
            (Fault::OldStreamOfWriting, DONE | 16) if !self.of_head() && self.is_long() => 20,
            (Fault::OldStreamOfHeadWriting, DONE | 16) if self.of_head() && self.is_long() => 20,
            (Fault::HeadWritingNeedsTheStream, DONE)
                if self.of_head() && room < HEAD + self.length() =>
            {
                16
            }
            _ => answer,
        }
    }

    /// What is wrong in a file that is written.
    fn spoil_file(&self, fault: Fault, file: &mut [u8]) {
        match fault {
            Fault::WritingCountOneMore => put(file, STREAM_COUNT, self.length() as u32 + 1),
            Fault::WritingXfLittleEndian => file[SECTIONS[XF_SECTION].from..][..4].reverse(),
            Fault::WritingStreamShifted if file.len() > HEAD => file[HEAD..].rotate_left(1),
            Fault::WritingMaskReset => put(file, 4 + 4 * 0xFE, 0xFF_FFFF),
            Fault::WritingCountModulo => {
                put(file, STREAM_COUNT, (self.length() & LOW_16) as u32);
            }
            Fault::WritingStreamModulo if file.len() > HEAD => {
                let not_copied = HEAD + (self.length() & LOW_16)..file.len();
                file[not_copied.clone()].copy_from_slice(&self.output[not_copied]);
            }
            _ => {}
        }
    }

    /// What is wrong in what was lent, and told.
    fn spoil(&mut self, fault: Fault, answer: u32) {
        let written = *self.written as usize;
        match (fault, answer) {
            (Fault::WritingTailCleared, DONE) => self.output[written..].fill(0),
            (Fault::WritingHeadBefore16, 16) if self.output.len() >= HEAD => {
                let (state, length) = (&*self.state, self.length());
                words::write_recording_head(state, self.xf, length, self.output, &mut 0);
            }
            (Fault::WritingZeroesOutput, 16) => self.output.fill(0),
            (Fault::WritingZeroesWritten, 1..) => *self.written = 0,
            (Fault::WritingClosesTheDraw, DONE) => self.state[OPEN..OPEN + 4].fill(0),
            (Fault::WritingMasksTheState, 1) => {
                self.state[BP_WORDS]
                    .iter_mut()
                    .for_each(|word| *word &= 0xFF_FFFF);
            }
            (Fault::WritingClearsXfWords, DONE) => self.xf.fill(0),
            (Fault::HeadWritingTellsTheFile, DONE) if self.of_head() => {
                *self.written += self.length() as u32;
            }
            _ => {}
        }
    }
}
