//! The hand-tuned C as a side of `compare`.

pub mod format;

use compare::side::{Proved, Side};
use model::words::{
    CommandWords, FormatWords, ReportWords, StateWords, StreamWords, UnitWords, ValueWords,
    VertexWords,
};
use model::ATTRIBUTES;

/// The hand-tuned C. It has not the calls that the benchmark does not time, raw words,
/// commands, patches and recordings: these are the proved library's.
pub struct Hand;

impl Side for Hand {
    fn name(&self) -> &'static str {
        "hand-tuned C"
    }

    fn fresh(&self, state: &mut StateWords) {
        hand::fresh(state)
    }

    fn read_register(&self, state: &StateWords, offset: u16, value: &mut u32) -> u32 {
        hand::read_register(state, offset, value)
    }

    fn write_register(&self, state: &mut StateWords, offset: u16, value: u16) -> u32 {
        hand::write_register(state, offset, value)
    }

    fn feed(&self, state: &mut StateWords, ring: &mut [u8], bytes: &[u8]) -> u32 {
        hand::feed(state, ring, bytes)
    }

    fn look(
        &self,
        state: &mut StateWords,
        ring: &[u8],
        xf: &mut [u32],
        vertex: &mut [u8],
        unit: &mut UnitWords,
        lacking: &mut u32,
    ) -> u32 {
        hand::look(state, ring, xf, vertex, unit, lacking)
    }

    fn take(
        &self,
        state: &mut StateWords,
        ring: &[u8],
        xf: &mut [u32],
        vertex: &mut [u8],
        unit: &mut UnitWords,
        lacking: &mut u32,
    ) -> u32 {
        hand::take(state, ring, xf, vertex, unit, lacking)
    }

    fn run(
        &self,
        state: &mut StateWords,
        ring: &[u8],
        xf: &mut [u32],
        vertex: &mut [u8],
        limit: u32,
        report: &mut ReportWords,
    ) -> u32 {
        hand::run(state, ring, xf, vertex, limit, report)
    }

    fn lay_out(
        &self,
        format: &FormatWords,
        sizes: &mut [u8; ATTRIBUTES],
        offsets: &mut [u8; ATTRIBUTES],
        length: &mut u32,
    ) -> u32 {
        hand::lay_out(format, sizes, offsets, length)
    }

    fn decode(
        &self,
        format: &FormatWords,
        attribute: u32,
        vertex: &[u8],
        values: &mut ValueWords,
    ) -> u32 {
        hand::decode(format, attribute, vertex, values)
    }

    fn decode_all(&self, format: &FormatWords, vertex: &[u8], values: &mut VertexWords) -> u32 {
        hand::decode_all(format, vertex, values)
    }

    fn raw_words(
        &self,
        format: &FormatWords,
        attribute: u32,
        vertex: &[u8],
        values: &mut ValueWords,
    ) -> u32 {
        Proved.raw_words(format, attribute, vertex, values)
    }

    fn write_command(
        &self,
        command: &CommandWords,
        words: &[u32],
        output: &mut [u8],
        written: &mut u32,
    ) -> u32 {
        Proved.write_command(command, words, output, written)
    }

    fn check_patch(&self, masks: &[u32], numbers: &[u32]) -> u32 {
        Proved.check_patch(masks, numbers)
    }

    fn merge_patches(
        &self,
        a_masks: &[u32],
        a_numbers: &[u32],
        b_masks: &[u32],
        b_numbers: &[u32],
        masks: &mut [u32],
        numbers: &mut [u32],
    ) -> u32 {
        Proved.merge_patches(a_masks, a_numbers, b_masks, b_numbers, masks, numbers)
    }

    fn write_patch(
        &self,
        masks: &[u32],
        numbers: &[u32],
        output: &mut [u8],
        written: &mut u32,
    ) -> u32 {
        Proved.write_patch(masks, numbers, output, written)
    }

    fn read_recording(
        &self,
        state: &mut StateWords,
        file: &[u8],
        xf: &mut [u32],
        stream: &mut StreamWords,
    ) -> u32 {
        Proved.read_recording(state, file, xf, stream)
    }

    fn read_recording_head(
        &self,
        state: &mut StateWords,
        head: &[u8],
        xf: &mut [u32],
        length: &mut u32,
    ) -> u32 {
        Proved.read_recording_head(state, head, xf, length)
    }

    fn check_recording_rest(&self, length: u32, rest: usize) -> u32 {
        Proved.check_recording_rest(length, rest)
    }

    fn find_recording_fault(&self, head: &[u8]) -> u32 {
        Proved.find_recording_fault(head)
    }

    fn write_recording(
        &self,
        state: &mut StateWords,
        xf: &mut [u32],
        stream: &[u8],
        output: &mut [u8],
        written: &mut u32,
    ) -> u32 {
        Proved.write_recording(state, xf, stream, output, written)
    }

    fn write_recording_head(
        &self,
        state: &mut StateWords,
        xf: &mut [u32],
        length: usize,
        output: &mut [u8],
        written: &mut u32,
    ) -> u32 {
        Proved.write_recording_head(state, xf, length, output, written)
    }
}
