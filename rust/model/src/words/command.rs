//! A command as the header's five words: kind, a, b, c, d.

use super::CommandWords;
use crate::Command;

const NO_OPERATION: u32 = 0x00;
const VERTEX: u32 = 0x01;
const LOAD_CP: u32 = 0x08;
const LOAD_XF: u32 = 0x10;
const LOAD_INDEXED: [u32; 4] = [0x20, 0x28, 0x30, 0x38];
const CALL_LIST: u32 = 0x40;
// Document 02's L2; 68, document 01's number, is no kind.
const METRICS: u32 = 0x44;
const INVALIDATE_CACHE: u32 = 0x48;
const LOAD_BP: u32 = 0x61;
const DRAW: u32 = 0x80;

/// The array of the first kind of indexed load.
const FIRST_ARRAY: u8 = 12;

/// The words that tell a command; "those not named are 0".
pub fn command_words(command: &Command, memory_address: u32) -> CommandWords {
    match *command {
        Command::NoOperation => [NO_OPERATION, 0, 0, 0, 0],
        Command::Vertex => [VERTEX, 0, 0, 0, 0],
        Command::DiscardVertexCache => [INVALIDATE_CACHE, 0, 0, 0, 0],
        Command::Metrics => [METRICS, 0, 0, 0, 0],
        Command::CpLoad { address, number } => [LOAD_CP, address.into(), number, 0, 0],
        Command::XfLoad { words, address } => [LOAD_XF, words.into(), address.into(), 0, 0],
        Command::IndexedLoad {
            array,
            index,
            words,
            xf_address,
        } => [
            LOAD_INDEXED[usize::from(array - FIRST_ARRAY)],
            index.into(),
            words.into(),
            xf_address.into(),
            memory_address,
        ],
        Command::CallList { address, size } => [CALL_LIST, address, size, 0, 0],
        Command::BpLoad { register, number } => [LOAD_BP, register.into(), number, 0, 0],
        Command::Draw {
            primitive,
            format,
            count,
        } => [DRAW, primitive.into(), format.into(), count.into(), 0],
    }
}

/// The command that five words name; none where the kind is none or a word does
/// not fit its field. Words that the kind does not name are not looked at.
pub fn command_of(words: &CommandWords) -> Option<Command> {
    let &[kind, a, b, c, _] = words;
    if let Some(load) = LOAD_INDEXED.iter().position(|&indexed| indexed == kind) {
        return indexed_load(load, a, b, c);
    }
    Some(match kind {
        NO_OPERATION => Command::NoOperation,
        VERTEX => Command::Vertex,
        INVALIDATE_CACHE => Command::DiscardVertexCache,
        METRICS => Command::Metrics,
        LOAD_CP => Command::CpLoad {
            address: a.try_into().ok()?,
            number: b,
        },
        LOAD_XF => Command::XfLoad {
            words: a.try_into().ok()?,
            address: b.try_into().ok()?,
        },
        CALL_LIST => Command::CallList {
            address: a,
            size: b,
        },
        LOAD_BP => Command::BpLoad {
            register: a.try_into().ok()?,
            number: b,
        },
        DRAW => Command::Draw {
            primitive: a.try_into().ok()?,
            format: b.try_into().ok()?,
            count: c.try_into().ok()?,
        },
        _ => return None,
    })
}

fn indexed_load(load: usize, index: u32, words: u32, xf_address: u32) -> Option<Command> {
    Some(Command::IndexedLoad {
        array: FIRST_ARRAY + load as u8,
        index: index.try_into().ok()?,
        words: words.try_into().ok()?,
        xf_address: xf_address.try_into().ok()?,
    })
}
