//! What is compared: twenty-one functions over words and slices.

use model::words::{
    self, CommandWords, FormatWords, ReportWords, StateWords, StreamWords, UnitWords, ValueWords,
    VertexWords,
};
use model::ATTRIBUTES;

/// The functions of `include/duckhammock.h`. No method has a body here, so that
/// none is taken from one side for another.
pub trait Side {
    fn name(&self) -> &'static str;
    fn fresh(&self, state: &mut StateWords);
    fn read_register(&self, state: &StateWords, offset: u16, value: &mut u32) -> u32;
    fn write_register(&self, state: &mut StateWords, offset: u16, value: u16) -> u32;
    fn feed(&self, state: &mut StateWords, ring: &mut [u8], bytes: &[u8]) -> u32;
    /// What a look must not change is lent so that a side could change it, but
    /// the ring, which a take leaves too: that would be seen.
    fn look(
        &self,
        state: &mut StateWords,
        ring: &[u8],
        xf: &mut [u32],
        vertex: &mut [u8],
        unit: &mut UnitWords,
        lacking: &mut u32,
    ) -> u32;
    fn take(
        &self,
        state: &mut StateWords,
        ring: &[u8],
        xf: &mut [u32],
        vertex: &mut [u8],
        unit: &mut UnitWords,
        lacking: &mut u32,
    ) -> u32;
    fn run(
        &self,
        state: &mut StateWords,
        ring: &[u8],
        xf: &mut [u32],
        vertex: &mut [u8],
        limit: u32,
        report: &mut ReportWords,
    ) -> u32;
    fn lay_out(
        &self,
        format: &FormatWords,
        sizes: &mut [u8; ATTRIBUTES],
        offsets: &mut [u8; ATTRIBUTES],
        length: &mut u32,
    ) -> u32;
    fn decode(
        &self,
        format: &FormatWords,
        attribute: u32,
        vertex: &[u8],
        values: &mut ValueWords,
    ) -> u32;
    fn decode_all(&self, format: &FormatWords, vertex: &[u8], values: &mut VertexWords) -> u32;
    fn raw_words(
        &self,
        format: &FormatWords,
        attribute: u32,
        vertex: &[u8],
        values: &mut ValueWords,
    ) -> u32;
    fn write_command(
        &self,
        command: &CommandWords,
        words: &[u32],
        output: &mut [u8],
        written: &mut u32,
    ) -> u32;
    fn check_patch(&self, masks: &[u32], numbers: &[u32]) -> u32;
    fn merge_patches(
        &self,
        a_masks: &[u32],
        a_numbers: &[u32],
        b_masks: &[u32],
        b_numbers: &[u32],
        masks: &mut [u32],
        numbers: &mut [u32],
    ) -> u32;
    fn write_patch(
        &self,
        masks: &[u32],
        numbers: &[u32],
        output: &mut [u8],
        written: &mut u32,
    ) -> u32;
    fn read_recording(
        &self,
        state: &mut StateWords,
        file: &[u8],
        xf: &mut [u32],
        stream: &mut StreamWords,
    ) -> u32;
    fn read_recording_head(
        &self,
        state: &mut StateWords,
        head: &[u8],
        xf: &mut [u32],
        length: &mut u32,
    ) -> u32;
    fn check_recording_rest(&self, length: u32, rest: usize) -> u32;
    fn find_recording_fault(&self, head: &[u8]) -> u32;
    /// State and XF words, which must not change, are lent so that a side could
    /// change them; so for the head too.
    fn write_recording(
        &self,
        state: &mut StateWords,
        xf: &mut [u32],
        stream: &[u8],
        output: &mut [u8],
        written: &mut u32,
    ) -> u32;
    fn write_recording_head(
        &self,
        state: &mut StateWords,
        xf: &mut [u32],
        length: usize,
        output: &mut [u8],
        written: &mut u32,
    ) -> u32;
}

/// The proved library, over its C interface.
pub struct Proved;

/// The same calls over `model`.
pub struct Twin;

/// Makes a side of a module's functions.
macro_rules! side_of {
    ($side:ident, $functions:ident, $name:literal) => {
        impl Side for $side {
            fn name(&self) -> &'static str {
                $name
            }

            fn fresh(&self, state: &mut StateWords) {
                $functions::fresh(state)
            }

            fn read_register(&self, state: &StateWords, offset: u16, value: &mut u32) -> u32 {
                $functions::read_register(state, offset, value)
            }

            fn write_register(&self, state: &mut StateWords, offset: u16, value: u16) -> u32 {
                $functions::write_register(state, offset, value)
            }

            fn feed(&self, state: &mut StateWords, ring: &mut [u8], bytes: &[u8]) -> u32 {
                $functions::feed(state, ring, bytes)
            }

            fn look(
                &self,
                state: &mut StateWords,
                ring: &[u8],
                xf: &mut [u32],
                vertex: &mut [u8],
                unit: &mut UnitWords,
                lacking: &mut u32,
            ) -> u32 {
                $functions::look(state, ring, xf, vertex, unit, lacking)
            }

            fn take(
                &self,
                state: &mut StateWords,
                ring: &[u8],
                xf: &mut [u32],
                vertex: &mut [u8],
                unit: &mut UnitWords,
                lacking: &mut u32,
            ) -> u32 {
                $functions::take(state, ring, xf, vertex, unit, lacking)
            }

            fn run(
                &self,
                state: &mut StateWords,
                ring: &[u8],
                xf: &mut [u32],
                vertex: &mut [u8],
                limit: u32,
                report: &mut ReportWords,
            ) -> u32 {
                $functions::run(state, ring, xf, vertex, limit, report)
            }

            fn lay_out(
                &self,
                format: &FormatWords,
                sizes: &mut [u8; ATTRIBUTES],
                offsets: &mut [u8; ATTRIBUTES],
                length: &mut u32,
            ) -> u32 {
                $functions::lay_out(format, sizes, offsets, length)
            }

            fn decode(
                &self,
                format: &FormatWords,
                attribute: u32,
                vertex: &[u8],
                values: &mut ValueWords,
            ) -> u32 {
                $functions::decode(format, attribute, vertex, values)
            }

            fn decode_all(
                &self,
                format: &FormatWords,
                vertex: &[u8],
                values: &mut VertexWords,
            ) -> u32 {
                $functions::decode_all(format, vertex, values)
            }

            fn raw_words(
                &self,
                format: &FormatWords,
                attribute: u32,
                vertex: &[u8],
                values: &mut ValueWords,
            ) -> u32 {
                $functions::raw_words(format, attribute, vertex, values)
            }

            fn write_command(
                &self,
                command: &CommandWords,
                words: &[u32],
                output: &mut [u8],
                written: &mut u32,
            ) -> u32 {
                $functions::write_command(command, words, output, written)
            }

            fn check_patch(&self, masks: &[u32], numbers: &[u32]) -> u32 {
                $functions::check_patch(masks, numbers)
            }

            fn merge_patches(
                &self,
                a_masks: &[u32],
                a_numbers: &[u32],
                b_masks: &[u32],
                b_numbers: &[u32],
                masks: &mut [u32],
                numbers: &mut [u32],
            ) -> u32 {
                $functions::merge_patches(a_masks, a_numbers, b_masks, b_numbers, masks, numbers)
            }

            fn write_patch(
                &self,
                masks: &[u32],
                numbers: &[u32],
                output: &mut [u8],
                written: &mut u32,
            ) -> u32 {
                $functions::write_patch(masks, numbers, output, written)
            }

            fn read_recording(
                &self,
                state: &mut StateWords,
                file: &[u8],
                xf: &mut [u32],
                stream: &mut StreamWords,
            ) -> u32 {
                $functions::read_recording(state, file, xf, stream)
            }

            fn read_recording_head(
                &self,
                state: &mut StateWords,
                head: &[u8],
                xf: &mut [u32],
                length: &mut u32,
            ) -> u32 {
                $functions::read_recording_head(state, head, xf, length)
            }

            fn check_recording_rest(&self, length: u32, rest: usize) -> u32 {
                $functions::check_recording_rest(length, rest)
            }

            fn find_recording_fault(&self, head: &[u8]) -> u32 {
                $functions::find_recording_fault(head)
            }

            fn write_recording(
                &self,
                state: &mut StateWords,
                xf: &mut [u32],
                stream: &[u8],
                output: &mut [u8],
                written: &mut u32,
            ) -> u32 {
                $functions::write_recording(state, xf, stream, output, written)
            }

            fn write_recording_head(
                &self,
                state: &mut StateWords,
                xf: &mut [u32],
                length: usize,
                output: &mut [u8],
                written: &mut u32,
            ) -> u32 {
                $functions::write_recording_head(state, xf, length, output, written)
            }
        }
    };
}

side_of!(Proved, proved, "proved");
side_of!(Twin, words, "twin");
