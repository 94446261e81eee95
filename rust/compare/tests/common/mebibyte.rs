//! The twin's calls of rings with one fault of those that a side could have whose bounds
//! or numbers are those of before document 02's L9, or narrower than it asks.

use super::{store, Fault, END, READ_POINTER, START, WRITE_POINTER};
use compare::side::{Side, Twin};
use model::words::{ReportWords, StateWords, UnitWords, DONE, WAITING};

/// The largest ring and the most units of a run, before and now.
const LARGEST_BEFORE: u32 = 65_536;
const LARGEST: u32 = 1_048_576;
const MOST_BEFORE: u32 = 65_535;
const MOST: u32 = 1_048_575;
/// What is kept of a number in 16 bits, and in 20.
const LOW_16: u32 = 0xFFFF;
const LOW_20: u32 = 0xF_FFFF;

/// The offsets whose reads test the window: status, and the count's halves.
const STATUS: u16 = 0x000;
const COUNT_LOW: u16 = 0x030;
const COUNT_HIGH: u16 = 0x032;

/// Whether a fault is one of these.
pub fn makes(fault: Fault) -> bool {
    (Fault::OldSizeOfReads as u32..=Fault::PendingModuloOfRuns as u32).contains(&(fault as u32))
}

fn size_of(state: &StateWords) -> u32 {
    state[END].wrapping_sub(state[START])
}

/// Whether the window is larger than any before.
fn is_large(state: &StateWords) -> bool {
    size_of(state) > LARGEST_BEFORE
}

/// The bytes in the ring of a window that is good.
fn count_of(state: &StateWords) -> Option<u32> {
    let mut halves = [0; 2];
    let [low, high] = &mut halves;
    let answers = [
        Twin.read_register(state, COUNT_LOW, low),
        Twin.read_register(state, COUNT_HIGH, high),
    ];
    (answers == [DONE; 2]).then_some(halves[1] << 16 | halves[0])
}

/// Pointers so many bytes on, round the end.
fn moved(state: &StateWords, pointer: u32, bytes: u32) -> u32 {
    let place = pointer - state[START] + bytes;
    state[START] + place % size_of(state)
}

/// Makes a window that is one step too large one of the largest size; the bytes of a ring
/// of so many that are then lent.
fn shrink(state: &mut StateWords, ring: usize) -> usize {
    if size_of(state) != LARGEST + 32 {
        return ring;
    }
    state[END] -= 32;
    ring.min(LARGEST as usize)
}

pub fn read_register(fault: Fault, state: &StateWords, offset: u16, value: &mut u32) -> u32 {
    let tested = [STATUS, COUNT_LOW, COUNT_HIGH].contains(&offset);
    if fault == Fault::OldSizeOfReads && tested && is_large(state) {
        return 1;
    }
    let mut seen = *state;
    if fault == Fault::LargerSizeOfReads && tested {
        shrink(&mut seen, 0);
    }
    let answer = Twin.read_register(&seen, offset, value);
    if answer != DONE {
        return answer;
    }
    match (fault, offset) {
        (Fault::CountHighHalfZero, COUNT_HIGH) => *value = 0,
        (Fault::CountHalvesSame, COUNT_HIGH) => {
            return Twin.read_register(state, COUNT_LOW, value);
        }
        (Fault::CountLowHalfAtMost, COUNT_LOW) if count_of(state) > Some(LOW_16) => {
            *value = LOW_16;
        }
        _ => {}
    }
    answer
}

/// The twin's feed with a fault of what it sees, or of where it stores.
fn feed_wrongly(fault: Fault, state: &mut StateWords, ring: &mut [u8], bytes: &[u8]) -> u32 {
    let (start, end, write) = (state[START], state[END], state[WRITE_POINTER]);
    match fault {
        Fault::LargerSizeOfFeeds => {
            let lent = shrink(state, ring.len());
            let answer = Twin.feed(state, &mut ring[..lent], bytes);
            state[END] = end;
            answer
        }
        Fault::FeedPlaceModulo => {
            let held = ring.to_vec();
            let answer = Twin.feed(state, ring, bytes);
            if answer == DONE {
                ring.copy_from_slice(&held);
                store(ring, ((write - start) & LOW_16) as usize, bytes);
            }
            answer
        }
        Fault::FeedLengthModulo if room_of(state) >= Some(bytes.len()) => {
            Twin.feed(state, ring, &bytes[..bytes.len() & LOW_16 as usize])
        }
        _ => Twin.feed(state, ring, bytes),
    }
}

/// The room in the ring of a window that is good.
fn room_of(state: &StateWords) -> Option<usize> {
    let count = count_of(state)?;
    Some((size_of(state) - 1 - count) as usize)
}

pub fn feed(fault: Fault, state: &mut StateWords, ring: &mut [u8], bytes: &[u8]) -> u32 {
    if fault == Fault::OldSizeOfFeeds && is_large(state) {
        return 1;
    }
    let (was, count) = (*state, count_of(state).unwrap_or(0));
    let room = room_of(state).unwrap_or(0);
    let fits = bytes.len() <= room;
    if fault == Fault::RoomModulo && fits && bytes.len() > room & LOW_16 as usize {
        return 11;
    }
    let answer = feed_wrongly(fault, state, ring, bytes);
    let (start, write) = (was[START], was[WRITE_POINTER]);
    match (fault, answer) {
        // As many bytes fewer are there as the high half of the count tells.
        (Fault::FeedCountModulo, 11) if bytes.len() <= room + (count & !LOW_16) as usize => {
            store(ring, (write - start) as usize, bytes);
            state[WRITE_POINTER] = moved(state, write, bytes.len() as u32);
            return DONE;
        }
        (Fault::WritePointerModulo, DONE) => {
            state[WRITE_POINTER] = start + ((state[WRITE_POINTER] - start) & LOW_16);
        }
        (Fault::WriteLowHalfStored, DONE) => {
            state[WRITE_POINTER] = write & !LOW_16 | state[WRITE_POINTER] & LOW_16;
        }
        _ => {}
    }
    answer
}

/// A window that holds the low half of its count alone.
fn pending_modulo(state: &mut StateWords) {
    if let Some(count) = count_of(state) {
        state[WRITE_POINTER] = moved(state, state[READ_POINTER], count & LOW_16);
    }
}

pub fn look(
    fault: Fault,
    state: &StateWords,
    ring: &[u8],
    xf: &mut [u32],
    vertex: &mut [u8],
    unit: &mut UnitWords,
    lacking: &mut u32,
) -> u32 {
    let mut seen = *state;
    match fault {
        Fault::OldSizeOfLooks if is_large(state) => return 1,
        Fault::PendingModuloOfLooks => pending_modulo(&mut seen),
        _ => {}
    }
    Twin.look(&mut seen, ring, xf, vertex, unit, lacking)
}

/// The read pointer with the low half of its place, or with its low half alone.
fn spoil_read(fault: Fault, was: &StateWords, state: &mut StateWords) {
    match fault {
        Fault::ReadPointerModuloByTakes | Fault::ReadPointerModuloByRuns => {
            let place = state[READ_POINTER] - state[START];
            state[READ_POINTER] = state[START] + (place & LOW_16);
        }
        Fault::ReadLowHalfStored => {
            let high = was[READ_POINTER] & !LOW_16;
            state[READ_POINTER] = high | state[READ_POINTER] & LOW_16;
        }
        _ => {}
    }
}

pub fn take(
    fault: Fault,
    state: &mut StateWords,
    ring: &[u8],
    xf: &mut [u32],
    vertex: &mut [u8],
    unit: &mut UnitWords,
    lacking: &mut u32,
) -> u32 {
    let was = *state;
    match fault {
        Fault::OldSizeOfTakes if is_large(state) => return 1,
        Fault::PendingModuloOfTakes => pending_modulo(state),
        _ => {}
    }
    let answer = Twin.take(state, ring, xf, vertex, unit, lacking);
    state[WRITE_POINTER] = was[WRITE_POINTER];
    if answer == DONE && fault != Fault::ReadPointerModuloByRuns {
        spoil_read(fault, &was, state);
    }
    answer
}

/// The limit that a side sees.
fn seen_limit(fault: Fault, limit: u32) -> u32 {
    match fault {
        Fault::OldLimit => limit.min(MOST_BEFORE),
        Fault::LimitModulo20 => limit & LOW_20,
        _ => limit,
    }
}

pub fn run(
    fault: Fault,
    state: &mut StateWords,
    ring: &[u8],
    xf: &mut [u32],
    vertex: &mut [u8],
    limit: u32,
    report: &mut ReportWords,
) -> u32 {
    let was = *state;
    let mut lent = ring.len();
    match fault {
        Fault::OldSizeOfRuns if is_large(state) => {
            *report = [0; 2];
            return 1;
        }
        Fault::PendingModuloOfRuns => pending_modulo(state),
        Fault::LargerSizeOfRuns => lent = shrink(state, lent),
        _ => {}
    }
    let seen = seen_limit(fault, limit);
    let answer = Twin.run(state, &ring[..lent], xf, vertex, seen, report);
    (state[WRITE_POINTER], state[END]) = (was[WRITE_POINTER], was[END]);
    if report[0] != 0 && fault != Fault::ReadPointerModuloByTakes {
        spoil_read(fault, &was, state);
    }
    spoil_report(fault, limit, answer, report)
}

/// What is wrong with the report of a run; the answer.
fn spoil_report(fault: Fault, limit: u32, answer: u32, report: &mut ReportWords) -> u32 {
    match fault {
        Fault::UnitsModulo => report[0] &= LOW_16,
        Fault::UnitsAtMostAsBefore => report[0] = report[0].min(MOST_BEFORE),
        // As many units as bytes: the ring is empty.
        Fault::HigherLimitKept if answer == DONE && report[0] == MOST && limit > MOST => {
            report[1] = 1;
            return WAITING;
        }
        _ => {}
    }
    answer
}
