//! The places of a recording: what stands where in the file, and where a fault is.

use crate::before::LONGEST_BEFORE;
use crate::call::{Call, Kind};
use model::{RECORDING_HEAD_BYTES, XF_WORDS};

/// A count or a number.
pub const NUMBER_BYTES: usize = 4;

/// What a number may be.
#[derive(Clone, Copy)]
pub enum Holds {
    /// A section's count.
    Count(u32),
    /// At most this: all bits of a register, or the longest stream.
    AtMost(u32),
}

/// Numbers of one kind that stand together.
pub struct Section {
    pub name: &'static str,
    /// The first byte.
    pub from: usize,
    pub numbers: usize,
    pub holds: Holds,
}

const fn section(name: &'static str, from: usize, numbers: usize, holds: Holds) -> Section {
    Section {
        name,
        from,
        numbers,
        holds,
    }
}

/// All numbers of the head, in the file's order. What may stand there is written out and
/// not taken from the twin, as tests hold both sides to it.
pub const SECTIONS: [Section; 10] = [
    section("the BP count", 0, 1, Holds::Count(256)),
    section("a BP register", 4, 256, Holds::AtMost(0xFF_FFFF)),
    section("the CP count", 1028, 1, Holds::Count(60)),
    section("a CP register 3X to 6X", 1032, 4, Holds::AtMost(u32::MAX)),
    section("a VAT word", 1048, 24, Holds::AtMost(u32::MAX)),
    section("an array base", 1144, 16, Holds::AtMost(0x3FF_FFFF)),
    section("an array stride", 1208, 16, Holds::AtMost(0xFF)),
    section("the XF count", 1272, 1, Holds::Count(4184)),
    section("an XF word", 1276, XF_WORDS, Holds::AtMost(u32::MAX)),
    section("the stream's count", 18_012, 1, Holds::AtMost(1_048_575)),
];

impl Section {
    /// The byte of a number.
    pub fn place(&self, number: usize) -> usize {
        self.from + NUMBER_BYTES * number
    }

    /// Whether some number cannot stand here.
    pub fn can_be_wrong(&self) -> bool {
        !matches!(self.holds, Holds::AtMost(u32::MAX))
    }
}

/// What is found of a recording.
#[derive(Clone, Copy, Debug, PartialEq, Eq, PartialOrd, Ord)]
pub enum Found {
    /// The head is good.
    Nothing,
    /// A number of a section that is wrong.
    Wrong(usize),
    /// The file ends within a number of a section, so many of its bytes there.
    Cut(usize, usize),
    /// The file ends within the stream.
    StreamCut,
    /// A stream longer than any before document 02's L9, by the call that accepted it.
    Long(Kind),
}

/// The calls that tell or are handed a stream's length.
const MEET_STREAMS: [Kind; 4] = [
    Kind::ReadRecording,
    Kind::ReadRecordingHead,
    Kind::WriteRecording,
    Kind::WriteRecordingHead,
];

/// Whether an accepted call has a stream longer than any before document 02's L9.
pub fn has_long_stream(call: &Call) -> bool {
    let length = match call {
        Call::ReadRecording { stream, .. } => stream[1] as usize,
        Call::ReadRecordingHead { length, .. } => *length as usize,
        Call::WriteRecording { stream, .. } => stream.len(),
        Call::WriteRecordingHead { length, .. } => *length,
        _ => 0,
    };
    length > LONGEST_BEFORE
}

/// What is found where a head of so many bytes has its first fault at a byte.
pub fn found_at(length: usize, byte: usize) -> Found {
    if byte >= RECORDING_HEAD_BYTES {
        return Found::Nothing;
    }
    let behind = SECTIONS.iter().position(|section| byte < section.from);
    let section = behind.unwrap_or(SECTIONS.len()) - 1;
    if byte == length {
        Found::Cut(section, byte % NUMBER_BYTES)
    } else {
        Found::Wrong(section)
    }
}

impl Found {
    /// All that can be.
    pub fn all() -> Vec<Found> {
        let mut all = vec![Found::Nothing, Found::StreamCut];
        all.extend(MEET_STREAMS.map(Found::Long));
        for (at, section) in SECTIONS.iter().enumerate() {
            all.extend((0..NUMBER_BYTES).map(|bytes| Found::Cut(at, bytes)));
            if section.can_be_wrong() {
                all.push(Found::Wrong(at));
            }
        }
        all
    }

    pub fn told(self) -> String {
        match self {
            Found::Nothing => "a recording with a good head".into(),
            Found::Wrong(at) => format!("a recording with {} wrong", SECTIONS[at].name),
            Found::Cut(at, bytes) => {
                format!(
                    "a recording cut after {bytes} bytes of {}",
                    SECTIONS[at].name
                )
            }
            Found::StreamCut => "a recording cut in its stream".into(),
            Found::Long(kind) => format!("{} of a stream above 65,535", kind.name()),
        }
    }
}
