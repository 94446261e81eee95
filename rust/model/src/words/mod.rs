//! The calls of `include/duckhammock.h` over the same words and slices, written
//! from that header and documents 01 and 02. Each gives the answer's number. A refused
//! call leaves what was lent as it was, a waiting look or take all but the bytes
//! lacking; a run keeps the units before the one that waits or is refused, and its
//! report is told whatever the answer.

mod command;
mod state;
mod value;

pub use command::{command_of, command_words};
pub use state::{state_of, state_words};

use crate::{
    check_recording_rest as check_rest, check_sheet, decode as decode_attribute,
    find_recording_fault as find_fault, layout, merge_sheets, raw_words as raw_components,
    write_command as put_command, write_sheet, Answer, End, Memory, Refusal, Sheet, SheetMut,
    State, VertexFormat, View, ATTRIBUTES,
};
use state::{bench_of_recorded, bench_of_registers, CONTROL, DRAW_OPEN, WRITE_POINTER};
use value::value_words;

pub const STATE_WORDS: usize = 327;
pub const FORMAT_WORDS: usize = 5;
pub const COMMAND_WORDS: usize = 5;
pub const UNIT_WORDS: usize = 6;
pub const REPORT_WORDS: usize = 2;
pub const STREAM_WORDS: usize = 2;
pub const VALUE_WORDS: usize = 10;
pub const VERTEX_WORDS: usize = ATTRIBUTES * VALUE_WORDS;

pub type StateWords = [u32; STATE_WORDS];
/// Groups 0 and 1 of the VCD, groups 0 to 2 of one format's VAT.
pub type FormatWords = [u32; FORMAT_WORDS];
/// Kind, a, b, c, d.
pub type CommandWords = [u32; COMMAND_WORDS];
/// A command's words, and how many bytes the unit has.
pub type UnitWords = [u32; UNIT_WORDS];
/// Units done, bytes lacking.
pub type ReportWords = [u32; REPORT_WORDS];
/// The place of a recording's stream in its file, and its length.
pub type StreamWords = [u32; STREAM_WORDS];
/// A kind or a count, and nine values.
pub type ValueWords = [u32; VALUE_WORDS];
/// So many for each attribute in order.
pub type VertexWords = [u32; VERTEX_WORDS];

/// Accepted, a unit done, the limit reached.
pub const DONE: u32 = 0;
/// "The next unit is not all there."
pub const WAITING: u32 = 255;

const CONTROL_OFFSET: u16 = 0x002;

/// 0, or the refusal's number.
fn number<T>(answer: &Result<T, Refusal>) -> u32 {
    match answer {
        Ok(_) => DONE,
        Err(refusal) => refusal.number().into(),
    }
}

/// Tells the value where there is one; the answer's number.
fn tell<T>(answer: Result<T, Refusal>, place: &mut T) -> u32 {
    let number = number(&answer);
    if let Ok(value) = answer {
        *place = value;
    }
    number
}

/// The VCD and one VAT.
pub fn format_of(words: &FormatWords) -> VertexFormat {
    let &[vcd_0, vcd_1, vat_0, vat_1, vat_2] = words;
    VertexFormat {
        vcd: [vcd_0, vcd_1],
        vat: [vat_0, vat_1, vat_2],
    }
}

pub fn fresh(state: &mut StateWords) {
    *state = state_words(&State::fresh());
}

/// "The control register is read as its state word holds it, also where that is
/// wider."
pub fn read_register(state: &StateWords, offset: u16, value: &mut u32) -> u32 {
    if offset == CONTROL_OFFSET {
        *value = state[CONTROL];
        return DONE;
    }
    let answer = bench_of_registers(state).read_register(offset);
    tell(answer.map(u32::from), value)
}

/// "one state word of 0 to 6 changes"
pub fn write_register(state: &mut StateWords, offset: u16, value: u16) -> u32 {
    let mut bench = bench_of_registers(state);
    let answer = bench.write_register(offset, value);
    let words = state_words(&bench);
    state[..CONTROL].copy_from_slice(&words[..CONTROL]);
    if offset == CONTROL_OFFSET {
        state[CONTROL] = words[CONTROL];
    }
    number(&answer)
}

/// "the fed places and the write pointer's state word change"
pub fn feed(state: &mut StateWords, ring: &mut [u8], bytes: &[u8]) -> u32 {
    let mut bench = bench_of_registers(state);
    let answer = bench.feed(ring, bytes);
    state[WRITE_POINTER] = bench.window.write;
    number(&answer)
}

/// Tells the unit, or where it waits the bytes lacking; the answer's number.
fn tell_unit(answer: Answer, unit: &mut UnitWords, lacking: &mut u32) -> u32 {
    match answer {
        Answer::Unit {
            command,
            memory_address,
            length,
        } => {
            let [kind, a, b, c, d] = command_words(&command, memory_address);
            *unit = [kind, a, b, c, d, length];
            DONE
        }
        Answer::Waiting { lacking: bytes } => {
            *lacking = bytes;
            WAITING
        }
        Answer::Refused(refusal) => refusal.number().into(),
    }
}

/// "Nothing but these two changes": the unit and the bytes lacking.
pub fn look(
    state: &StateWords,
    ring: &[u8],
    xf: &[u32],
    vertex: &[u8],
    unit: &mut UnitWords,
    lacking: &mut u32,
) -> u32 {
    let Some(bench) = state_of(state) else {
        return Refusal::BrokenState.number().into();
    };
    tell_unit(bench.look(&View { ring, xf, vertex }), unit, lacking)
}

/// "Where it waits, *lacking is how many bytes are lacking; else it stays."
pub fn take(
    state: &mut StateWords,
    ring: &[u8],
    xf: &mut [u32],
    vertex: &mut [u8],
    unit: &mut UnitWords,
    lacking: &mut u32,
) -> u32 {
    let Some(mut bench) = state_of(state) else {
        return Refusal::BrokenState.number().into();
    };
    let answer = bench.take(&mut Memory { ring, xf, vertex });
    let number = tell_unit(answer, unit, lacking);
    if number == DONE {
        *state = state_words(&bench);
    }
    number
}

/// Where no unit was done, the state words stay.
pub fn run(
    state: &mut StateWords,
    ring: &[u8],
    xf: &mut [u32],
    vertex: &mut [u8],
    limit: u32,
    report: &mut ReportWords,
) -> u32 {
    *report = [0, 0];
    let Some(mut bench) = state_of(state) else {
        return Refusal::BrokenState.number().into();
    };
    let run = bench.run(&mut Memory { ring, xf, vertex }, limit);
    if run.units != 0 {
        *state = state_words(&bench);
    }
    let (answer, lacking) = match run.end {
        End::Limit => (DONE, 0),
        End::Waiting { lacking } => (WAITING, lacking),
        End::Refused(refusal) => (refusal.number().into(), 0),
    };
    *report = [run.units, lacking];
    answer
}

pub fn lay_out(
    format: &FormatWords,
    sizes: &mut [u8; ATTRIBUTES],
    offsets: &mut [u8; ATTRIBUTES],
    length: &mut u32,
) -> u32 {
    let answer = layout(&format_of(format));
    if let Ok(layout) = &answer {
        *sizes = layout.bytes;
        *offsets = layout.before;
        *length = layout.length.into();
    }
    number(&answer)
}

/// An attribute number that the model can be asked for; one above 20 stays so.
fn attribute_number(attribute: u32) -> u8 {
    attribute.try_into().unwrap_or(u8::MAX)
}

pub fn decode(format: &FormatWords, attribute: u32, vertex: &[u8], values: &mut ValueWords) -> u32 {
    let answer = decode_attribute(&format_of(format), attribute_number(attribute), vertex);
    tell(answer.map(|attribute| value_words(&attribute)), values)
}

/// Every attribute decoded, one after the other.
pub fn decode_all(format: &FormatWords, vertex: &[u8], values: &mut VertexWords) -> u32 {
    let format = format_of(format);
    let mut told = [0; VERTEX_WORDS];
    for (attribute, words) in (0..).zip(told.chunks_exact_mut(VALUE_WORDS)) {
        match decode_attribute(&format, attribute, vertex) {
            Ok(value) => words.copy_from_slice(&value_words(&value)),
            Err(refusal) => return refusal.number().into(),
        }
    }
    *values = told;
    DONE
}

pub fn raw_words(
    format: &FormatWords,
    attribute: u32,
    vertex: &[u8],
    values: &mut ValueWords,
) -> u32 {
    let answer = raw_components(&format_of(format), attribute_number(attribute), vertex);
    let told = answer.map(|raw| {
        let mut words = [0; VALUE_WORDS];
        words[0] = raw.count.into();
        words[1..].copy_from_slice(&raw.words);
        words
    });
    tell(told, values)
}

/// 18 also where the kind is none, or a word does not fit its field.
pub fn write_command(
    command: &CommandWords,
    words: &[u32],
    output: &mut [u8],
    written: &mut u32,
) -> u32 {
    let answer = command_of(command)
        .ok_or(Refusal::CommandField)
        .and_then(|command| put_command(&command, words, output));
    tell(answer.map(|bytes| bytes as u32), written)
}

pub fn check_patch(masks: &[u32], numbers: &[u32]) -> u32 {
    number(&check_sheet(&Sheet { masks, numbers }))
}

pub fn merge_patches(
    a_masks: &[u32],
    a_numbers: &[u32],
    b_masks: &[u32],
    b_numbers: &[u32],
    masks: &mut [u32],
    numbers: &mut [u32],
) -> u32 {
    let a = Sheet {
        masks: a_masks,
        numbers: a_numbers,
    };
    let b = Sheet {
        masks: b_masks,
        numbers: b_numbers,
    };
    number(&merge_sheets(&a, &b, &mut SheetMut { masks, numbers }))
}

pub fn write_patch(masks: &[u32], numbers: &[u32], output: &mut [u8], written: &mut u32) -> u32 {
    let answer = write_sheet(&Sheet { masks, numbers }, output);
    tell(answer.map(|bytes| bytes as u32), written)
}

/// Words 7 to 326 become those of a bench that a recording was read to: the words
/// of the draw, which is not open, and the registers.
fn keep_recorded(state: &mut StateWords, bench: &State) {
    state[DRAW_OPEN..].copy_from_slice(&state_words(bench)[DRAW_OPEN..]);
}

/// "words 0 to 6 (window and control) stay, whatever they hold"
pub fn read_recording(
    state: &mut StateWords,
    file: &[u8],
    xf: &mut [u32],
    stream: &mut StreamWords,
) -> u32 {
    let mut bench = State::fresh();
    let answer = bench.read_recording(file, xf);
    if answer.is_ok() {
        keep_recorded(state, &bench);
    }
    tell(
        answer.map(|told| [told.place as u32, told.length as u32]),
        stream,
    )
}

/// The same of the head alone.
pub fn read_recording_head(
    state: &mut StateWords,
    head: &[u8],
    xf: &mut [u32],
    length: &mut u32,
) -> u32 {
    let mut bench = State::fresh();
    let answer = bench.read_recording_head(head, xf);
    if answer.is_ok() {
        keep_recorded(state, &bench);
    }
    tell(answer, length)
}

pub fn check_recording_rest(length: u32, rest: usize) -> u32 {
    number(&check_rest(length, rest))
}

/// No refusal, but the byte of one.
pub fn find_recording_fault(head: &[u8]) -> u32 {
    find_fault(head) as u32
}

/// "Of the state only words 11 to 326 are looked at"
pub fn write_recording(
    state: &StateWords,
    xf: &[u32],
    stream: &[u8],
    output: &mut [u8],
    written: &mut u32,
) -> u32 {
    let answer = bench_of_recorded(state).write_recording(xf, stream, output);
    tell(answer.map(|bytes| bytes as u32), written)
}

/// The same of the head alone, for a stream of so many bytes.
pub fn write_recording_head(
    state: &StateWords,
    xf: &[u32],
    length: usize,
    output: &mut [u8],
    written: &mut u32,
) -> u32 {
    let answer = bench_of_recorded(state).write_recording_head(xf, length, output);
    tell(answer.map(|bytes| bytes as u32), written)
}
