//! Two sides at work on the same calls, compared after each.

use crate::call::{Call, Kind, Patch, Told};
use crate::course::Run;
use crate::difference::Made;
use crate::random::Random;
use crate::side::Side;
use crate::tally::Tally;
use crate::world::{Lent, World, USUAL};
use model::words::{
    CommandWords, FormatWords, ReportWords, StreamWords, UnitWords, ValueWords, VertexWords, DONE,
};
use model::ATTRIBUTES;

/// The seed of what lent memory and outputs hold before.
const GARBAGE: u64 = 0x6475_636B;

/// A layout as it was told.
pub struct Laid {
    pub answer: u32,
    pub sizes: [u8; ATTRIBUTES],
    pub offsets: [u8; ATTRIBUTES],
    pub length: u32,
}

pub struct Duo {
    sides: [Box<dyn Side>; 2],
    worlds: [World; 2],
    /// As both worlds were before the call.
    before: World,
    lent: Lent,
    /// What the last call told, where it was a look and nothing changed since.
    looked: Option<Told>,
    garbage: Random,
    scenario: &'static str,
    fault: Option<String>,
    pub tally: Tally,
}

impl Duo {
    pub fn new(first: Box<dyn Side>, second: Box<dyn Side>) -> Duo {
        let mut duo = Duo {
            sides: [first, second],
            worlds: [World::new(), World::new()],
            before: World::new(),
            lent: USUAL,
            looked: None,
            garbage: Random::new(GARBAGE),
            scenario: "start",
            fault: None,
            tally: Tally::default(),
        };
        duo.hold(USUAL);
        duo
    }

    /// Names what follows, for the telling of a difference.
    pub fn scenario(&mut self, name: &'static str) {
        self.scenario = name;
    }

    /// The first difference, with its call; no call is made after it.
    pub fn fault(&self) -> Option<&str> {
        self.fault.as_deref()
    }

    /// The state words and the lent memory, the same on both sides.
    pub fn world(&self) -> &World {
        &self.before
    }

    /// Changes the memory of both sides alike.
    fn change(&mut self, change: impl Fn(&mut World)) {
        self.looked = None;
        change(&mut self.before);
        self.worlds.iter_mut().for_each(change);
    }

    /// New memory by chance, as long as what is lent.
    pub fn hold(&mut self, lent: Lent) {
        self.lent = lent;
        self.looked = None;
        self.before.fill(&lent, &mut self.garbage);
        for world in &mut self.worlds {
            world.copy_from(&self.before);
        }
    }

    /// Lends other lengths; what is held stays.
    pub fn lend(&mut self, ring: usize, xf: usize, vertex: usize) {
        let lent = Lent { ring, xf, vertex };
        self.lent = lent;
        self.change(|world| world.make_room(&lent));
    }

    pub fn poke(&mut self, index: usize, value: u32) {
        self.change(|world| world.state[index] = value);
    }

    pub fn poke_ring(&mut self, from: usize, bytes: &[u8]) {
        self.change(|world| world.ring[from..from + bytes.len()].copy_from_slice(bytes));
    }

    /// Makes the call of both sides and compares; the answer, and the call as
    /// it is after it.
    fn call(&mut self, call: Call) -> (u32, Call) {
        if self.fault.is_some() {
            return (DONE, call);
        }
        let mut calls = [call.clone(), call.clone()];
        let mut answers = [DONE; 2];
        for at in 0..2 {
            answers[at] = calls[at].make(&*self.sides[at], &mut self.worlds[at], &self.lent);
        }
        self.tally
            .count(&calls[0], answers[0], self.worlds[0].next_byte());
        let made = Made {
            names: [self.sides[0].name(), self.sides[1].name()],
            lent: &self.lent,
            before: &self.before,
            looked: self.looked,
            call: &call,
            answers,
            calls: &calls,
            worlds: &self.worlds,
        };
        let number = self.tally.calls;
        let scenario = self.scenario;
        self.fault = made
            .fault()
            .map(|fault| format!("call {number}, in \"{scenario}\", {fault}"));
        if self.fault.is_none() {
            self.count_course(&calls[0], answers[0]);
            self.before.follow(&self.worlds[0], call.kind());
        }
        let [first, _] = calls;
        let look = first.kind() == Kind::Look;
        self.looked = first.told(answers[0]).filter(|_| look);
        (answers[0], first)
    }

    /// Counts what a run went through, and a take right after a look.
    fn count_course(&mut self, call: &Call, answer: u32) {
        match call {
            Call::Run { report, .. } => self.tally.count_course(&Run {
                before: &self.before,
                after: &self.worlds[0],
                answer,
                units: report[0],
            }),
            Call::Take { .. } if self.looked.is_some() => self.tally.count_pair(answer),
            _ => {}
        }
    }

    pub fn fresh(&mut self) {
        self.call(Call::Fresh);
    }

    pub fn read(&mut self, offset: u16) -> (u32, u32) {
        let value = self.garbage.u32();
        match self.call(Call::ReadRegister { offset, value }) {
            (answer, Call::ReadRegister { value, .. }) => (answer, value),
            (answer, _) => (answer, value),
        }
    }

    pub fn write(&mut self, offset: u16, value: u16) -> u32 {
        self.call(Call::WriteRegister { offset, value }).0
    }

    pub fn feed(&mut self, bytes: &[u8]) -> u32 {
        let bytes = bytes.to_vec();
        self.call(Call::Feed { bytes }).0
    }

    /// The answer, the unit, the bytes lacking; what is not told is chance.
    pub fn look(&mut self) -> (u32, UnitWords, u32) {
        let unit = self.garbage.array();
        let lacking = self.garbage.u32();
        match self.call(Call::Look { unit, lacking }) {
            (answer, Call::Look { unit, lacking }) => (answer, unit, lacking),
            (answer, _) => (answer, unit, lacking),
        }
    }

    /// The same of a take.
    pub fn take(&mut self) -> (u32, UnitWords, u32) {
        let unit = self.garbage.array();
        let lacking = self.garbage.u32();
        match self.call(Call::Take { unit, lacking }) {
            (answer, Call::Take { unit, lacking }) => (answer, unit, lacking),
            (answer, _) => (answer, unit, lacking),
        }
    }

    /// A look, and then a take with nothing between; what the take tells.
    pub fn look_and_take(&mut self) -> (u32, UnitWords, u32) {
        self.look();
        self.take()
    }

    pub fn run(&mut self, limit: u32) -> (u32, ReportWords) {
        let report = self.garbage.array();
        match self.call(Call::Run { limit, report }) {
            (answer, Call::Run { report, .. }) => (answer, report),
            (answer, _) => (answer, report),
        }
    }
}

/// The calls without a state.
impl Duo {
    pub fn lay_out(&mut self, format: &FormatWords) -> Laid {
        let garbage = self.garbage.bytes(2 * ATTRIBUTES);
        let sizes = std::array::from_fn(|at| garbage[at]);
        let offsets = std::array::from_fn(|at| garbage[ATTRIBUTES + at]);
        let call = Call::LayOut {
            format: *format,
            sizes,
            offsets,
            length: self.garbage.u32(),
        };
        let (answer, call) = self.call(call);
        let mut laid = Laid {
            answer,
            sizes,
            offsets,
            length: 0,
        };
        if let Call::LayOut {
            sizes,
            offsets,
            length,
            ..
        } = call
        {
            (laid.sizes, laid.offsets, laid.length) = (sizes, offsets, length);
        }
        laid
    }

    pub fn decode(
        &mut self,
        format: &FormatWords,
        attribute: u32,
        vertex: &[u8],
    ) -> (u32, ValueWords) {
        let values = self.garbage.array();
        let call = Call::Decode {
            format: *format,
            attribute,
            vertex: vertex.to_vec(),
            values,
        };
        match self.call(call) {
            (answer, Call::Decode { values, .. }) => (answer, values),
            (answer, _) => (answer, values),
        }
    }

    pub fn decode_all(&mut self, format: &FormatWords, vertex: &[u8]) -> (u32, Box<VertexWords>) {
        let values = Box::new(self.garbage.array());
        let call = Call::DecodeAll {
            format: *format,
            vertex: vertex.to_vec(),
            values: values.clone(),
        };
        match self.call(call) {
            (answer, Call::DecodeAll { values, .. }) => (answer, values),
            (answer, _) => (answer, values),
        }
    }

    pub fn raw_words(
        &mut self,
        format: &FormatWords,
        attribute: u32,
        vertex: &[u8],
    ) -> (u32, ValueWords) {
        let values = self.garbage.array();
        let call = Call::RawWords {
            format: *format,
            attribute,
            vertex: vertex.to_vec(),
            values,
        };
        match self.call(call) {
            (answer, Call::RawWords { values, .. }) => (answer, values),
            (answer, _) => (answer, values),
        }
    }

    /// The answer, and the bytes that were written; none where it is refused.
    pub fn write_command(
        &mut self,
        command: CommandWords,
        words: &[u32],
        output: usize,
    ) -> (u32, Vec<u8>) {
        let call = Call::WriteCommand {
            command,
            words: words.to_vec(),
            output: self.garbage.bytes(output),
            written: self.garbage.u32(),
        };
        match self.call(call) {
            (
                DONE,
                Call::WriteCommand {
                    output, written, ..
                },
            ) => (DONE, front(output, written)),
            (answer, _) => (answer, Vec::new()),
        }
    }

    pub fn check_patch(&mut self, patch: &Patch) -> u32 {
        let patch = patch.clone();
        self.call(Call::CheckPatch { patch }).0
    }

    /// The answer, and the merged patch, of the lengths that are lent for it.
    pub fn merge_patches(
        &mut self,
        a: &Patch,
        b: &Patch,
        masks: usize,
        numbers: usize,
    ) -> (u32, Patch) {
        let call = Call::MergePatches {
            a: a.clone(),
            b: b.clone(),
            result: Patch {
                masks: self.garbage.words(masks),
                numbers: self.garbage.words(numbers),
            },
        };
        match self.call(call) {
            (DONE, Call::MergePatches { result, .. }) => (DONE, result),
            (answer, _) => (answer, Patch::empty()),
        }
    }

    /// The answer, and the bytes that were written; none where it is refused.
    pub fn write_patch(&mut self, patch: &Patch, output: usize) -> (u32, Vec<u8>) {
        let call = Call::WritePatch {
            patch: patch.clone(),
            output: self.garbage.bytes(output),
            written: self.garbage.u32(),
        };
        match self.call(call) {
            (
                DONE,
                Call::WritePatch {
                    output, written, ..
                },
            ) => (DONE, front(output, written)),
            (answer, _) => (answer, Vec::new()),
        }
    }
}

/// The calls of recordings.
impl Duo {
    /// The answer, and where the stream stands; what is not told is chance.
    pub fn read_recording(&mut self, file: &[u8]) -> (u32, StreamWords) {
        let stream = self.garbage.array();
        let file = file.to_vec();
        match self.call(Call::ReadRecording { file, stream }) {
            (answer, Call::ReadRecording { stream, .. }) => (answer, stream),
            (answer, _) => (answer, stream),
        }
    }

    /// The answer, and the stream's length; what is not told is chance.
    pub fn read_recording_head(&mut self, head: &[u8]) -> (u32, u32) {
        let length = self.garbage.u32();
        let head = head.to_vec();
        match self.call(Call::ReadRecordingHead { head, length }) {
            (answer, Call::ReadRecordingHead { length, .. }) => (answer, length),
            (answer, _) => (answer, length),
        }
    }

    pub fn check_recording_rest(&mut self, length: u32, rest: usize) -> u32 {
        self.call(Call::CheckRecordingRest { length, rest }).0
    }

    pub fn find_recording_fault(&mut self, head: &[u8]) -> u32 {
        let head = head.to_vec();
        self.call(Call::FindRecordingFault { head }).0
    }

    /// The answer, and the file that was written; none where it is refused.
    pub fn write_recording(&mut self, stream: &[u8], output: usize) -> (u32, Vec<u8>) {
        let call = Call::WriteRecording {
            stream: stream.to_vec(),
            output: self.garbage.bytes(output),
            written: self.garbage.u32(),
        };
        match self.call(call) {
            (
                DONE,
                Call::WriteRecording {
                    output, written, ..
                },
            ) => (DONE, front(output, written)),
            (answer, _) => (answer, Vec::new()),
        }
    }

    /// The same of the head alone.
    pub fn write_recording_head(&mut self, length: usize, output: usize) -> (u32, Vec<u8>) {
        let call = Call::WriteRecordingHead {
            length,
            output: self.garbage.bytes(output),
            written: self.garbage.u32(),
        };
        match self.call(call) {
            (
                DONE,
                Call::WriteRecordingHead {
                    output, written, ..
                },
            ) => (DONE, front(output, written)),
            (answer, _) => (answer, Vec::new()),
        }
    }
}

fn front(mut output: Vec<u8>, written: u32) -> Vec<u8> {
    output.truncate(written as usize);
    output
}
