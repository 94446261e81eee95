//! A state as the header's 327 words.

use super::StateWords;
use crate::{CpRegisters, Draw, State, Window};

pub(super) const WRITE_POINTER: usize = 4;
pub(super) const CONTROL: usize = 6;
pub(super) const DRAW_OPEN: usize = 7;
const DRAW_PRIMITIVE: usize = 8;
const DRAW_FORMAT: usize = 9;
const DRAW_LEFT: usize = 10;
const CP_3X: usize = 11;
const VCD: usize = 13;
const VAT: usize = 15;
const BASES: usize = 39;
const STRIDES: usize = 55;
const BP: usize = 71;

fn window_of(words: &StateWords) -> Window {
    let &[start, end, high_mark, low_mark, write, read, ..] = words;
    Window {
        start,
        end,
        high_mark,
        low_mark,
        write,
        read,
    }
}

/// The words from one on, as many as asked for.
fn part<const N: usize>(words: &StateWords, from: usize) -> [u32; N] {
    std::array::from_fn(|at| words[from + at])
}

/// The bench for the calls that look at the window and at whether a draw is
/// open, and at nothing else: read, write and feed. A word that is neither 0
/// nor 1 counts as an open draw; the draw itself is not looked at.
pub(super) fn bench_of_registers(words: &StateWords) -> State {
    let mut bench = State::fresh();
    bench.window = window_of(words);
    bench.draw = (words[DRAW_OPEN] != 0).then_some(Draw {
        primitive: 0,
        format: 0,
        left: 1,
    });
    bench
}

/// The bench for the calls that look at the BP and CP registers, and at nothing
/// else: those that write a recording.
pub(super) fn bench_of_recorded(words: &StateWords) -> State {
    let mut bench = State::fresh();
    bench.cp = cp_of(words);
    bench.bp = part(words, BP);
    bench
}

fn cp_of(words: &StateWords) -> CpRegisters {
    CpRegisters {
        matrix: part(words, CP_3X),
        vcd: part(words, VCD),
        vat: std::array::from_fn(|format| part(words, VAT + 3 * format)),
        bases: part(words, BASES),
        strides: part(words, STRIDES),
    }
}

/// The state that the words say; none where a word does not fit its field,
/// which look, take and run refuse by 1.
pub fn state_of(words: &StateWords) -> Option<State> {
    Some(State {
        window: window_of(words),
        control: words[CONTROL].try_into().ok()?,
        draw: draw_of(words)?,
        cp: cp_of(words),
        bp: part(words, BP),
    })
}

/// "While no draw is open, words 8 to 10 are not looked at".
fn draw_of(words: &StateWords) -> Option<Option<Draw>> {
    match words[DRAW_OPEN] {
        0 => Some(None),
        1 => Some(Some(Draw {
            primitive: words[DRAW_PRIMITIVE].try_into().ok()?,
            format: words[DRAW_FORMAT].try_into().ok()?,
            left: words[DRAW_LEFT].try_into().ok()?,
        })),
        _ => None,
    }
}

/// The words of a state; words 7 to 10 are 0 while no draw is open.
pub fn state_words(state: &State) -> StateWords {
    let mut words = [0; super::STATE_WORDS];
    let window = &state.window;
    words[..CONTROL].copy_from_slice(&[
        window.start,
        window.end,
        window.high_mark,
        window.low_mark,
        window.write,
        window.read,
    ]);
    words[CONTROL] = state.control.into();
    if let Some(draw) = state.draw {
        words[DRAW_OPEN] = 1;
        words[DRAW_PRIMITIVE] = draw.primitive.into();
        words[DRAW_FORMAT] = draw.format.into();
        words[DRAW_LEFT] = draw.left.into();
    }
    words[CP_3X..VCD].copy_from_slice(&state.cp.matrix);
    words[VCD..VAT].copy_from_slice(&state.cp.vcd);
    words[VAT..BASES].copy_from_slice(state.cp.vat.as_flattened());
    words[BASES..STRIDES].copy_from_slice(&state.cp.bases);
    words[STRIDES..BP].copy_from_slice(&state.cp.strides);
    words[BP..].copy_from_slice(&state.bp);
    words
}
