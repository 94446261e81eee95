//! A call with all that is handed in and all that is lent for its values.

use crate::side::Side;
use crate::world::{Lent, World};
use model::words::{
    CommandWords, FormatWords, ReportWords, StateWords, StreamWords, UnitWords, ValueWords,
    VertexWords, DONE, WAITING,
};
use model::{ATTRIBUTES, RECORDING_HEAD_BYTES};

/// The masks and numbers of a patch, of any lengths.
#[derive(Clone, Debug, PartialEq, Eq)]
pub struct Patch {
    pub masks: Vec<u32>,
    pub numbers: Vec<u32>,
}

impl Patch {
    /// A patch that names nothing.
    pub fn empty() -> Patch {
        Patch {
            masks: vec![0; 256],
            numbers: vec![0; 256],
        }
    }

    /// A patch that names these registers alone: register, mask, number.
    pub fn of(entries: &[(usize, u32, u32)]) -> Patch {
        let mut patch = Patch::empty();
        for &(register, mask, number) in entries {
            patch.masks[register] = mask;
            patch.numbers[register] = number;
        }
        patch
    }
}

/// What a look or a take tells of the next unit: the number, the unit where that
/// is 0, the bytes lacking where it is waiting.
#[derive(Clone, Copy)]
pub struct Told {
    pub answer: u32,
    pub unit: Option<UnitWords>,
    pub lacking: Option<u32>,
}

#[derive(Clone, Copy, Debug, PartialEq, Eq, PartialOrd, Ord)]
pub enum Kind {
    Fresh,
    ReadRegister,
    WriteRegister,
    Feed,
    Look,
    Take,
    Run,
    LayOut,
    Decode,
    DecodeAll,
    RawWords,
    WriteCommand,
    CheckPatch,
    MergePatches,
    WritePatch,
    ReadRecording,
    ReadRecordingHead,
    CheckRecordingRest,
    FindRecordingFault,
    WriteRecording,
    WriteRecordingHead,
}

pub const KINDS: [Kind; 21] = [
    Kind::Fresh,
    Kind::ReadRegister,
    Kind::WriteRegister,
    Kind::Feed,
    Kind::Look,
    Kind::Take,
    Kind::Run,
    Kind::LayOut,
    Kind::Decode,
    Kind::DecodeAll,
    Kind::RawWords,
    Kind::WriteCommand,
    Kind::CheckPatch,
    Kind::MergePatches,
    Kind::WritePatch,
    Kind::ReadRecording,
    Kind::ReadRecordingHead,
    Kind::CheckRecordingRest,
    Kind::FindRecordingFault,
    Kind::WriteRecording,
    Kind::WriteRecordingHead,
];

impl Kind {
    pub fn name(self) -> &'static str {
        match self {
            Kind::Fresh => "fresh",
            Kind::ReadRegister => "read_register",
            Kind::WriteRegister => "write_register",
            Kind::Feed => "feed",
            Kind::Look => "look",
            Kind::Take => "take",
            Kind::Run => "run",
            Kind::LayOut => "lay_out",
            Kind::Decode => "decode",
            Kind::DecodeAll => "decode_all",
            Kind::RawWords => "raw_words",
            Kind::WriteCommand => "write_command",
            Kind::CheckPatch => "check_patch",
            Kind::MergePatches => "merge_patches",
            Kind::WritePatch => "write_patch",
            Kind::ReadRecording => "read_recording",
            Kind::ReadRecordingHead => "read_recording_head",
            Kind::CheckRecordingRest => "check_recording_rest",
            Kind::FindRecordingFault => "find_recording_fault",
            Kind::WriteRecording => "write_recording",
            Kind::WriteRecordingHead => "write_recording_head",
        }
    }

    /// The answers that documents 01 and 02 let the call give. The byte that a
    /// fault is found at counts as 0.
    pub fn answers(self) -> &'static [u32] {
        match self {
            Kind::Fresh => &[DONE],
            Kind::ReadRegister => &[DONE, 1, 17],
            Kind::WriteRegister => &[DONE, 17],
            Kind::Feed => &[DONE, 1, 11],
            Kind::Look | Kind::Take | Kind::Run => &[DONE, 1, 2, 3, 4, 5, 6, 7, 8, 9, 10, WAITING],
            Kind::LayOut => &[DONE, 9, 10],
            Kind::Decode | Kind::DecodeAll | Kind::RawWords => &[DONE, 9, 10, 19],
            Kind::WriteCommand => &[DONE, 7, 8, 16, 18],
            Kind::CheckPatch | Kind::MergePatches => &[DONE, 12, 13, 14, 15],
            Kind::WritePatch => &[DONE, 12, 13, 14, 15, 16],
            Kind::ReadRecording => &[DONE, 2, 20, 21, 22, 23],
            Kind::ReadRecordingHead => &[DONE, 2, 20, 21, 22],
            Kind::CheckRecordingRest => &[DONE, 22, 23],
            Kind::FindRecordingFault => &[DONE],
            Kind::WriteRecording | Kind::WriteRecordingHead => &[DONE, 1, 2, 16, 20],
        }
    }

    /// Whether the call may return the number.
    pub fn may_return(self, number: u32) -> bool {
        match self {
            Kind::FindRecordingFault => number as usize <= RECORDING_HEAD_BYTES,
            _ => self.answers().contains(&number),
        }
    }
}

/// Compared whole after the call: what is handed in too.
#[derive(Clone, Debug, PartialEq, Eq)]
pub enum Call {
    Fresh,
    ReadRegister {
        offset: u16,
        value: u32,
    },
    WriteRegister {
        offset: u16,
        value: u16,
    },
    Feed {
        bytes: Vec<u8>,
    },
    Look {
        unit: UnitWords,
        lacking: u32,
    },
    Take {
        unit: UnitWords,
        lacking: u32,
    },
    Run {
        limit: u32,
        report: ReportWords,
    },
    LayOut {
        format: FormatWords,
        sizes: [u8; ATTRIBUTES],
        offsets: [u8; ATTRIBUTES],
        length: u32,
    },
    Decode {
        format: FormatWords,
        attribute: u32,
        vertex: Vec<u8>,
        values: ValueWords,
    },
    DecodeAll {
        format: FormatWords,
        vertex: Vec<u8>,
        values: Box<VertexWords>,
    },
    RawWords {
        format: FormatWords,
        attribute: u32,
        vertex: Vec<u8>,
        values: ValueWords,
    },
    WriteCommand {
        command: CommandWords,
        words: Vec<u32>,
        output: Vec<u8>,
        written: u32,
    },
    CheckPatch {
        patch: Patch,
    },
    MergePatches {
        a: Patch,
        b: Patch,
        result: Patch,
    },
    WritePatch {
        patch: Patch,
        output: Vec<u8>,
        written: u32,
    },
    ReadRecording {
        file: Vec<u8>,
        stream: StreamWords,
    },
    ReadRecordingHead {
        head: Vec<u8>,
        length: u32,
    },
    CheckRecordingRest {
        length: u32,
        rest: usize,
    },
    FindRecordingFault {
        head: Vec<u8>,
    },
    WriteRecording {
        stream: Vec<u8>,
        output: Vec<u8>,
        written: u32,
    },
    WriteRecordingHead {
        length: usize,
        output: Vec<u8>,
        written: u32,
    },
}

impl Call {
    pub fn kind(&self) -> Kind {
        match self {
            Call::Fresh => Kind::Fresh,
            Call::ReadRegister { .. } => Kind::ReadRegister,
            Call::WriteRegister { .. } => Kind::WriteRegister,
            Call::Feed { .. } => Kind::Feed,
            Call::Look { .. } => Kind::Look,
            Call::Take { .. } => Kind::Take,
            Call::Run { .. } => Kind::Run,
            Call::LayOut { .. } => Kind::LayOut,
            Call::Decode { .. } => Kind::Decode,
            Call::DecodeAll { .. } => Kind::DecodeAll,
            Call::RawWords { .. } => Kind::RawWords,
            Call::WriteCommand { .. } => Kind::WriteCommand,
            Call::CheckPatch { .. } => Kind::CheckPatch,
            Call::MergePatches { .. } => Kind::MergePatches,
            Call::WritePatch { .. } => Kind::WritePatch,
            Call::ReadRecording { .. } => Kind::ReadRecording,
            Call::ReadRecordingHead { .. } => Kind::ReadRecordingHead,
            Call::CheckRecordingRest { .. } => Kind::CheckRecordingRest,
            Call::FindRecordingFault { .. } => Kind::FindRecordingFault,
            Call::WriteRecording { .. } => Kind::WriteRecording,
            Call::WriteRecordingHead { .. } => Kind::WriteRecordingHead,
        }
    }

    /// What the call tells of the next unit by its answer; none where it is no
    /// look and no take.
    pub fn told(&self, answer: u32) -> Option<Told> {
        match self {
            Call::Look { unit, lacking } | Call::Take { unit, lacking } => Some(Told {
                answer,
                unit: (answer == DONE).then_some(*unit),
                lacking: (answer == WAITING).then_some(*lacking),
            }),
            _ => None,
        }
    }

    /// Makes the call of one side; its answer.
    pub fn make(&mut self, side: &dyn Side, world: &mut World, lent: &Lent) -> u32 {
        match self {
            Call::LayOut {
                format,
                sizes,
                offsets,
                length,
            } => side.lay_out(format, sizes, offsets, length),
            Call::Decode {
                format,
                attribute,
                vertex,
                values,
            } => side.decode(format, *attribute, vertex, values),
            Call::DecodeAll {
                format,
                vertex,
                values,
            } => side.decode_all(format, vertex, values),
            Call::RawWords {
                format,
                attribute,
                vertex,
                values,
            } => side.raw_words(format, *attribute, vertex, values),
            Call::WriteCommand {
                command,
                words,
                output,
                written,
            } => side.write_command(command, words, output, written),
            Call::CheckPatch { .. } | Call::MergePatches { .. } | Call::WritePatch { .. } => {
                self.make_with_patches(side)
            }
            Call::CheckRecordingRest { length, rest } => side.check_recording_rest(*length, *rest),
            Call::FindRecordingFault { head } => side.find_recording_fault(head),
            _ => self.make_with_state(side, world, lent),
        }
    }

    fn make_with_patches(&mut self, side: &dyn Side) -> u32 {
        match self {
            Call::CheckPatch { patch } => side.check_patch(&patch.masks, &patch.numbers),
            Call::MergePatches { a, b, result } => side.merge_patches(
                &a.masks,
                &a.numbers,
                &b.masks,
                &b.numbers,
                &mut result.masks,
                &mut result.numbers,
            ),
            Call::WritePatch {
                patch,
                output,
                written,
            } => side.write_patch(&patch.masks, &patch.numbers, output, written),
            _ => unreachable!("a call with patches"),
        }
    }

    fn make_with_state(&mut self, side: &dyn Side, world: &mut World, lent: &Lent) -> u32 {
        let World {
            state,
            ring,
            xf,
            vertex,
        } = world;
        let ring = &mut ring[..lent.ring];
        let xf = &mut xf[..lent.xf];
        let vertex = &mut vertex[..lent.vertex];
        match self {
            Call::Fresh => {
                side.fresh(state);
                DONE
            }
            Call::ReadRegister { offset, value } => side.read_register(state, *offset, value),
            Call::WriteRegister { offset, value } => side.write_register(state, *offset, *value),
            Call::Feed { bytes } => side.feed(state, ring, bytes),
            Call::Look { unit, lacking } => side.look(state, ring, xf, vertex, unit, lacking),
            Call::Take { unit, lacking } => side.take(state, ring, xf, vertex, unit, lacking),
            Call::Run { limit, report } => side.run(state, ring, xf, vertex, *limit, report),
            _ => self.make_with_registers(side, state, xf),
        }
    }

    /// Recordings are read to, and written from, the state and the XF words alone.
    fn make_with_registers(
        &mut self,
        side: &dyn Side,
        state: &mut StateWords,
        xf: &mut [u32],
    ) -> u32 {
        match self {
            Call::ReadRecording { file, stream } => side.read_recording(state, file, xf, stream),
            Call::ReadRecordingHead { head, length } => {
                side.read_recording_head(state, head, xf, length)
            }
            Call::WriteRecording {
                stream,
                output,
                written,
            } => side.write_recording(state, xf, stream, output, written),
            Call::WriteRecordingHead {
                length,
                output,
                written,
            } => side.write_recording_head(state, xf, *length, output, written),
            _ => unreachable!("a call with the state"),
        }
    }
}
