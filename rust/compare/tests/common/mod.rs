//! A side that is the twin but for one fault.

mod list;
mod looks;
mod mebibyte;
mod recordings;
mod takes;

use compare::side::{Side, Twin};
pub use list::{Fault, FAULTS};
use model::words::{
    CommandWords, FormatWords, ReportWords, StateWords, StreamWords, UnitWords, ValueWords,
    VertexWords, DONE, VALUE_WORDS, VERTEX_WORDS, WAITING,
};
use model::{ATTRIBUTES, MOST_UNITS};
use recordings::{Behind, Reading, Writing};

const VERTEX: u32 = 0x01;
const LOAD_CP: u8 = 0x08;
const LOAD_XF: u32 = 0x10;
const METRICS: u32 = 0x44;
/// The metrics opcode until document 02's L2.
const OLD_METRICS: u8 = 0x68;
const LOAD_BP: u32 = 0x61;
/// What an absent attribute, a position and a normal decode to.
const ABSENT: u32 = 0;
const POSITION: u32 = 5;
const NORMAL: u32 = 7;
const NORMAL_OF_NINE: u32 = 8;
/// Component formats.
const U8: usize = 0;
const S8: usize = 1;
const U16: usize = 2;
const S16: usize = 3;
const F32: usize = 4;
/// The fraction bits of a normal, by component format.
const FRACTIONS: [i32; 5] = [7, 6, 15, 14, 0];
const MASK_REGISTER: u32 = 0xFE;
const NAN: u32 = 0x7FC0_0000;
const START: usize = 0;
const END: usize = 1;
const WRITE_POINTER: usize = 4;
const READ_POINTER: usize = 5;
const CONTROL: usize = 6;
const OPEN: usize = 7;
const MASK_WORD: usize = 71 + 0xFE;

pub struct Faulty(pub Fault);

/// Stores bytes from a place on, round the end.
fn store(ring: &mut [u8], at: usize, bytes: &[u8]) {
    for (k, &byte) in bytes.iter().enumerate() {
        ring[(at + k) % ring.len()] = byte;
    }
}

/// Takes a feed's bytes back out of the ring and stores them again with a fault
/// of its two stretches, where there are two.
fn store_wrongly(fault: Fault, place: usize, before: &[u8], ring: &mut [u8], bytes: &[u8]) {
    let straight = ring.len() - place;
    if bytes.len() <= straight {
        return;
    }
    ring.copy_from_slice(before);
    let (first, second) = bytes.split_at(straight);
    match fault {
        Fault::FirstStretchFromStart => {
            store(ring, 0, first);
            store(ring, 0, second);
        }
        Fault::SecondStretchFromWritePointer => {
            store(ring, place, first);
            store(ring, place, second);
        }
        Fault::StretchesSwapped => {
            store(ring, 0, first);
            store(ring, place, second);
        }
        Fault::PlaceAndLengthSwapped => store(ring, straight, bytes),
        _ => unreachable!("{fault:?} is none of a feed's stretches"),
    }
}

fn clear_draw(state: &mut StateWords) {
    state[OPEN + 1..=OPEN + 3].fill(0);
}

/// The format with a signed normal where it is an unsigned one, of as many bytes.
fn signed_normal(format: &FormatWords) -> FormatWords {
    let mut signed = *format;
    if [U8, U16].contains(&((format[2] >> 10 & 7) as usize)) {
        signed[2] |= 1 << 10;
    }
    signed
}

/// The byte at the read pointer of a ring that holds one.
fn next_byte(state: &StateWords, ring: &[u8]) -> u8 {
    ring[(state[READ_POINTER] - state[START]) as usize]
}

/// The bytes in a ring.
fn count_of(state: &StateWords) -> u32 {
    let (write, read) = (state[WRITE_POINTER], state[READ_POINTER]);
    if write < read {
        return state[END] - state[START] - (read - write);
    }
    write - read
}

/// Takes one byte as a unit, or as the rest of one.
fn take_byte(state: &mut StateWords) {
    state[READ_POINTER] += 1;
    if state[READ_POINTER] == state[END] {
        state[READ_POINTER] = state[START];
    }
    clear_draw(state);
}

impl Faulty {
    fn is(&self, fault: Fault) -> bool {
        self.0 == fault
    }

    /// The state as a side would see it that counts words modulo some width.
    fn seen(&self, state: &StateWords) -> StateWords {
        let mut seen = *state;
        match self.0 {
            Fault::ControlModulo => seen[CONTROL] &= 0xFFFF,
            Fault::OpenModulo => seen[OPEN] &= 0xFF,
            Fault::OpenAnyNumber => seen[OPEN] = seen[OPEN].min(1),
            Fault::PrimitiveModulo => seen[OPEN + 1] &= 0xFF,
            Fault::FormatModulo => seen[OPEN + 2] &= 0xFF,
            Fault::LeftModulo => seen[OPEN + 3] &= 0xFFFF,
            Fault::StaleDrawTested if seen[OPEN] == 0 && seen[OPEN + 1] > 7 => seen[OPEN] = 2,
            _ => {}
        }
        seen
    }

    fn seen_limit(&self, limit: u32) -> u32 {
        match self.0 {
            Fault::LimitModulo => limit & 0xFFFF,
            _ => limit,
        }
    }

    /// What is wrong with the state words after a unit or after none.
    fn spoil_state(&self, state: &mut StateWords, stale: [u32; 3], done: bool) {
        match self.0 {
            Fault::DrawNormalisedByRefusal if !done && state[OPEN] == 0 => clear_draw(state),
            Fault::DrawLeftStale if done && state[OPEN] == 0 => {
                state[OPEN + 1..=OPEN + 3].copy_from_slice(&stale);
            }
            Fault::MarksCleared if done => state[2..4].fill(0),
            _ => {}
        }
    }

    fn spoil_unit(&self, state: &mut StateWords, xf: &mut [u32], unit: &mut UnitWords) {
        let [kind, a, b, ..] = *unit;
        match self.0 {
            Fault::MaskResetByItself if kind == LOAD_BP && a == MASK_REGISTER => {
                state[MASK_WORD] = 0xFF_FFFF;
            }
            Fault::AddressWithoutIndex if kind & !0x18 == 0x20 => unit[4] = 0,
            Fault::XfWordBeforeIt if kind == LOAD_XF && b != 0 => xf[b as usize - 1] ^= 1,
            Fault::MetricsToldAsOld if kind == METRICS => unit[0] = OLD_METRICS.into(),
            Fault::TakeNamesAnother if kind == LOAD_BP => unit[1] ^= 1,
            _ => {}
        }
    }

    /// What is wrong with the bytes lacking of a take that waits.
    fn spoil_lacking(&self, state: &StateWords, ring: &[u8], lacking: &mut u32) {
        let count = count_of(state);
        let begun = count != 0 && state[OPEN] == 0;
        match self.0 {
            Fault::LackingOneMore => *lacking += 1,
            Fault::LackingNone => *lacking = 0,
            Fault::LackingPastTheRoom => *lacking = state[END] - state[START] - count,
            Fault::CpWaitsForItsAddress
                if begun && count < 2 && next_byte(state, ring) == LOAD_CP =>
            {
                *lacking = 2 - count;
            }
            Fault::WholeUnitAwaited => *lacking += count,
            Fault::WordAskedWithTheHead
                if begun && count < 5 && u32::from(next_byte(state, ring)) == LOAD_XF =>
            {
                *lacking += 4;
            }
            _ => {}
        }
    }

    /// What is wrong with a take of the metrics opcodes; the answer.
    fn spoil_metrics(
        &self,
        state: &mut StateWords,
        ring: &[u8],
        unit: &mut UnitWords,
        lacking: &mut u32,
        answer: u32,
        before: (&StateWords, &UnitWords),
    ) -> u32 {
        let metrics = answer == DONE && unit[0] == METRICS;
        match self.0 {
            Fault::OldMetricsAccepted if answer == 6 && next_byte(state, ring) == OLD_METRICS => {
                take_byte(state);
                *unit = [METRICS, 0, 0, 0, 0, 1];
                return DONE;
            }
            Fault::MetricsRefused if metrics => {
                (*state, *unit) = (*before.0, *before.1);
                return 6;
            }
            Fault::MetricsOfTwoBytes if metrics => {
                if state[READ_POINTER] == state[WRITE_POINTER] {
                    (*state, *unit, *lacking) = (*before.0, *before.1, 1);
                    return WAITING;
                }
                take_byte(state);
                unit[5] = 2;
            }
            _ => {}
        }
        answer
    }

    /// What is wrong with the report of a run.
    fn spoil_report(&self, answer: u32, was: ReportWords, report: &mut ReportWords) {
        match self.0 {
            Fault::ReportLeft if answer != DONE && answer != WAITING => *report = was,
            Fault::ReportOneMore if answer == 8 => report[0] += 1,
            Fault::RunLacksOne if answer == WAITING => report[1] = 1,
            Fault::RunLacksNone if answer == WAITING => report[1] = 0,
            Fault::LimitRunLacksOne if answer == DONE => report[1] = 1,
            _ => {}
        }
    }

    /// The fraction bits that an attribute has too many of, or below 0 too few.
    fn more_bits(&self, format: &FormatWords, kind: u32) -> i32 {
        let position = kind == POSITION;
        let normal = [NORMAL, NORMAL_OF_NINE].contains(&kind);
        let bit_30 = format[2] >> 30 & 1 == 1;
        let component = (format[2] >> if position { 1 } else { 10 } & 7) as usize;
        match (self.0, component) {
            (Fault::NormalU8Of6Bits, U8) if normal => -1,
            (Fault::NormalS8Of7Bits, S8) if normal => 1,
            (Fault::NormalU16Of14Bits, U16) if normal => -1,
            (Fault::NormalS16Of15Bits, S16) if normal => 1,
            (Fault::NormalFractionByBit30, _) if normal && !bit_30 => -FRACTIONS[component],
            (Fault::NormalBytesByBit30, U8 | S8) if normal && !bit_30 => -FRACTIONS[component],
            (Fault::NormalOfThreeWhole, _) if kind == NORMAL => -FRACTIONS[component],
            (Fault::NormalOfNineWhole, _) if kind == NORMAL_OF_NINE => -FRACTIONS[component],
            (Fault::NormalF32Scaled, F32) if normal => 6,
            (Fault::PositionLikeNormal, U8 | S8) if position && !bit_30 => FRACTIONS[component],
            _ => 0,
        }
    }

    fn spoil_fractions(&self, format: &FormatWords, values: &mut ValueWords) {
        let bits = self.more_bits(format, values[0]);
        if bits != 0 {
            for value in &mut values[1..] {
                *value = (f32::from_bits(*value) * 2f32.powi(-bits)).to_bits();
            }
        }
    }
}

impl Side for Faulty {
    fn name(&self) -> &'static str {
        "faulty"
    }

    fn fresh(&self, state: &mut StateWords) {
        Twin.fresh(state);
    }

    fn read_register(&self, state: &StateWords, offset: u16, value: &mut u32) -> u32 {
        if mebibyte::makes(self.0) {
            return mebibyte::read_register(self.0, state, offset, value);
        }
        let answer = Twin.read_register(state, offset, value);
        match self.0 {
            Fault::ValueZeroed if answer != DONE => *value = 0,
            Fault::ControlReadMasked if offset == 2 => *value &= 0xFFFF,
            Fault::StatusWithoutDraw if offset == 0 && answer == DONE => *value |= 8,
            _ => {}
        }
        answer
    }

    fn write_register(&self, state: &mut StateWords, offset: u16, value: u16) -> u32 {
        let answer = Twin.write_register(state, offset, value);
        match self.0 {
            Fault::DrawNormalisedByWrite if state[OPEN] == 0 => clear_draw(state),
            Fault::ControlWrittenWhole if offset == 2 => state[CONTROL] = value.into(),
            _ => {}
        }
        answer
    }

    fn feed(&self, state: &mut StateWords, ring: &mut [u8], bytes: &[u8]) -> u32 {
        if mebibyte::makes(self.0) {
            return mebibyte::feed(self.0, state, ring, bytes);
        }
        let before = state[WRITE_POINTER];
        let held = ring.to_vec();
        let answer = Twin.feed(state, ring, bytes);
        match self.0 {
            Fault::FirstStretchFromStart
            | Fault::SecondStretchFromWritePointer
            | Fault::StretchesSwapped
            | Fault::PlaceAndLengthSwapped
                if answer == DONE =>
            {
                let place = (before - state[START]) as usize;
                store_wrongly(self.0, place, &held, ring, bytes);
            }
            Fault::DrawNormalisedByFeed if state[OPEN] == 0 => clear_draw(state),
            Fault::FeedStoresReadPointer if answer == DONE => state[READ_POINTER] = before,
            Fault::FeedMovesWhenRefused if answer == 11 => state[WRITE_POINTER] += 1,
            _ => {}
        }
        answer
    }

    fn look(
        &self,
        state: &mut StateWords,
        ring: &[u8],
        xf: &mut [u32],
        vertex: &mut [u8],
        unit: &mut UnitWords,
        lacking: &mut u32,
    ) -> u32 {
        if mebibyte::makes(self.0) {
            return mebibyte::look(self.0, state, ring, xf, vertex, unit, lacking);
        }
        let mut look = looks::Look {
            state,
            ring,
            xf,
            vertex,
            unit,
            lacking,
        };
        look.make(self.0)
    }

    fn take(
        &self,
        state: &mut StateWords,
        ring: &[u8],
        mut xf: &mut [u32],
        vertex: &mut [u8],
        unit: &mut UnitWords,
        lacking: &mut u32,
    ) -> u32 {
        if mebibyte::makes(self.0) {
            return mebibyte::take(self.0, state, ring, xf, vertex, unit, lacking);
        }
        if self.is(Fault::XfLongerAccepted) && xf.len() > 4184 {
            xf = &mut xf[..4184];
        }
        let stale = [state[8], state[9], state[10]];
        let (was, told) = (*state, *unit);
        let mut seen = self.seen(state);
        let answer = Twin.take(&mut seen, ring, xf, vertex, unit, lacking);
        if answer == DONE {
            *state = seen;
            self.spoil_unit(state, xf, unit);
        }
        self.spoil_state(state, stale, answer == DONE);
        if answer == WAITING {
            self.spoil_lacking(state, ring, lacking);
        }
        match self.0 {
            Fault::UnitZeroed if answer != DONE => *unit = [0; 6],
            Fault::LackingZeroedByRefusal if ![DONE, WAITING].contains(&answer) => *lacking = 0,
            Fault::LackingZeroedByUnit if answer == DONE => *lacking = 0,
            Fault::VertexRestCleared if answer == DONE && unit[0] == VERTEX => {
                vertex[unit[5] as usize..].fill(0);
            }
            Fault::VertexCopiedByWaiting if answer == WAITING => vertex[0] ^= 1,
            _ => return self.spoil_metrics(state, ring, unit, lacking, answer, (&was, &told)),
        }
        answer
    }

    fn run(
        &self,
        state: &mut StateWords,
        ring: &[u8],
        xf: &mut [u32],
        vertex: &mut [u8],
        limit: u32,
        report: &mut ReportWords,
    ) -> u32 {
        if takes::makes(self.0) {
            return takes::run(self.0, state, ring, xf, vertex, limit, report);
        }
        if mebibyte::makes(self.0) {
            return mebibyte::run(self.0, state, ring, xf, vertex, limit, report);
        }
        let (was, limit) = (*report, self.seen_limit(limit));
        let mut seen = self.seen(state);
        let answer = Twin.run(&mut seen, ring, xf, vertex, limit, report);
        if report[0] != 0 {
            *state = seen;
        }
        match self.0 {
            Fault::DrawNormalisedByEmptyRun if report[0] == 0 && state[OPEN] == 0 => {
                clear_draw(state);
            }
            Fault::OldMetricsAcceptedByRun
                if answer == 6 && next_byte(state, ring) == OLD_METRICS =>
            {
                take_byte(state);
                let units = report[0] + 1;
                let left = limit.min(MOST_UNITS) - units;
                let answer = self.run(state, ring, xf, vertex, left, report);
                report[0] += units;
                return answer;
            }
            _ => {}
        }
        self.spoil_report(answer, was, report);
        answer
    }

    fn lay_out(
        &self,
        format: &FormatWords,
        sizes: &mut [u8; ATTRIBUTES],
        offsets: &mut [u8; ATTRIBUTES],
        length: &mut u32,
    ) -> u32 {
        let answer = Twin.lay_out(format, sizes, offsets, length);
        if self.is(Fault::LayoutZeroed) && answer != DONE {
            *length = 0;
        }
        answer
    }

    fn decode(
        &self,
        format: &FormatWords,
        attribute: u32,
        vertex: &[u8],
        values: &mut ValueWords,
    ) -> u32 {
        let attribute = match self.0 {
            Fault::AttributeModulo => attribute & 0xFF,
            _ => attribute,
        };
        let mut format = format;
        let signed = signed_normal(format);
        if self.is(Fault::NormalUnsignedAsSigned) {
            format = &signed;
        }
        let answer = Twin.decode(format, attribute, vertex, values);
        if answer == DONE {
            self.spoil_fractions(format, values);
        }
        if self.is(Fault::ValuesZeroed) && answer != DONE {
            *values = [0; 10];
        }
        if self.is(Fault::NanKept) && answer == DONE && (5..=8).contains(&values[0]) {
            let mut raw = [0; 10];
            Twin.raw_words(format, attribute, vertex, &mut raw);
            if values[1] == NAN && raw[0] != 0 {
                values[1] = raw[1];
            }
        }
        answer
    }

    fn decode_all(&self, format: &FormatWords, vertex: &[u8], values: &mut VertexWords) -> u32 {
        let before = *values;
        let shorter = match self.0 {
            Fault::WholeLengthModulo if vertex.len() > 256 => &vertex[..vertex.len() - 256],
            _ => vertex,
        };
        let answer = Twin.decode_all(format, shorter, values);
        match self.0 {
            Fault::WholeZeroedByRefusal if answer != DONE => *values = [0; VERTEX_WORDS],
            _ if answer != DONE => {}
            Fault::WholeAbsentLeft => {
                for from in (0..VERTEX_WORDS).step_by(VALUE_WORDS) {
                    if values[from] == ABSENT {
                        values[from + 1] = before[from + 1];
                    }
                }
            }
            Fault::WholeWithoutLast => values[200..].copy_from_slice(&before[200..]),
            Fault::WholeAttributesSwapped => {
                for at in 110..120 {
                    values.swap(at, at + VALUE_WORDS);
                }
            }
            Fault::WholeNanKept => {
                let mut raw = [0; VALUE_WORDS];
                Twin.raw_words(format, 9, vertex, &mut raw);
                if values[91] == NAN && raw[0] != 0 {
                    values[91] = raw[1];
                }
            }
            _ => {}
        }
        answer
    }

    fn raw_words(
        &self,
        format: &FormatWords,
        attribute: u32,
        vertex: &[u8],
        values: &mut ValueWords,
    ) -> u32 {
        let answer = Twin.raw_words(format, attribute, vertex, values);
        if self.is(Fault::RawWordsZeroed) && answer != DONE {
            *values = [0; 10];
        }
        if self.is(Fault::RawNanLost) && answer == DONE && f32::from_bits(values[1]).is_nan() {
            values[1] = NAN;
        }
        answer
    }

    fn write_command(
        &self,
        command: &CommandWords,
        words: &[u32],
        output: &mut [u8],
        written: &mut u32,
    ) -> u32 {
        let mut command = *command;
        let old_metrics = command[0] == OLD_METRICS.into();
        match self.0 {
            Fault::KindModulo => command[0] &= 0xFF,
            Fault::OldMetricsWritten if old_metrics => command[0] = METRICS,
            _ => {}
        }
        let mut lent = words;
        if self.is(Fault::LentWordsNotCounted) && command[0] == LOAD_XF {
            lent = words.get(..command[1] as usize).unwrap_or(words);
        }
        let answer = Twin.write_command(&command, lent, output, written);
        match self.0 {
            Fault::WrittenZeroed if answer != DONE => *written = 0,
            Fault::ShortOutputPartly if answer == 16 && !output.is_empty() => {
                output[0] = command[0] as u8;
            }
            Fault::TailCleared if answer == DONE => output[*written as usize..].fill(0),
            Fault::OldMetricsWritten if answer == DONE && old_metrics => output[0] = OLD_METRICS,
            Fault::OldMetricsToWriteGives6 if answer == 18 && old_metrics => return 6,
            Fault::MetricsWrittenAsOld if answer == DONE && command[0] == METRICS => {
                output[0] = OLD_METRICS;
            }
            _ => {}
        }
        answer
    }

    fn check_patch(&self, masks: &[u32], numbers: &[u32]) -> u32 {
        let answer = Twin.check_patch(masks, numbers);
        if self.is(Fault::MaskRegisterLast) && answer == 13 && masks[0xFE] > 0xFF_FFFF {
            return 14;
        }
        answer
    }

    fn merge_patches(
        &self,
        a_masks: &[u32],
        a_numbers: &[u32],
        b_masks: &[u32],
        b_numbers: &[u32],
        masks: &mut [u32],
        numbers: &mut [u32],
    ) -> u32 {
        let answer = Twin.merge_patches(a_masks, a_numbers, b_masks, b_numbers, masks, numbers);
        match self.0 {
            Fault::MergedZeroed if answer != DONE => numbers.fill(0),
            Fault::MergeOfFirstWithin if answer != DONE && answer != 12 => {
                masks.copy_from_slice(a_masks);
            }
            Fault::MergedNumberOfA if answer == DONE => {
                for at in 0..256 {
                    numbers[at] = a_numbers[at] | b_numbers[at] & !a_masks[at];
                }
            }
            _ => {}
        }
        answer
    }

    fn write_patch(
        &self,
        masks: &[u32],
        numbers: &[u32],
        output: &mut [u8],
        written: &mut u32,
    ) -> u32 {
        let answer = Twin.write_patch(masks, numbers, output, written);
        match self.0 {
            Fault::PatchWrittenZeroed if answer != DONE => *written = 0,
            Fault::ShortPatchPartly if answer == 16 && !output.is_empty() => output[0] ^= 1,
            _ => {}
        }
        answer
    }

    fn read_recording(
        &self,
        state: &mut StateWords,
        file: &[u8],
        xf: &mut [u32],
        stream: &mut StreamWords,
    ) -> u32 {
        Reading { state, file, xf }.whole(self.0, stream)
    }

    fn read_recording_head(
        &self,
        state: &mut StateWords,
        head: &[u8],
        xf: &mut [u32],
        length: &mut u32,
    ) -> u32 {
        let mut reading = Reading {
            state,
            file: head,
            xf,
        };
        reading.head(self.0, length)
    }

    fn check_recording_rest(&self, length: u32, rest: usize) -> u32 {
        recordings::check_rest(self.0, length, rest)
    }

    fn find_recording_fault(&self, head: &[u8]) -> u32 {
        recordings::find_fault(self.0, head)
    }

    fn write_recording(
        &self,
        state: &mut StateWords,
        xf: &mut [u32],
        stream: &[u8],
        output: &mut [u8],
        written: &mut u32,
    ) -> u32 {
        let mut writing = Writing {
            state,
            xf,
            behind: Behind::Stream(stream),
            output,
            written,
        };
        writing.make(self.0)
    }

    fn write_recording_head(
        &self,
        state: &mut StateWords,
        xf: &mut [u32],
        length: usize,
        output: &mut [u8],
        written: &mut u32,
    ) -> u32 {
        let mut writing = Writing {
            state,
            xf,
            behind: Behind::Count(length),
            output,
            written,
        };
        writing.make(self.0)
    }
}
