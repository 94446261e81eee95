//! The twin's look with one fault of those that a side could have whose look and
//! take are not of one piece.

use super::{clear_draw, count_of, Fault, CONTROL, LOAD_XF, OPEN, READ_POINTER, VERTEX};
use compare::side::{Side, Twin};
use model::words::{self, StateWords, UnitWords, DONE, WAITING};

const NO_OPERATION: UnitWords = [0, 0, 0, 0, 0, 1];
/// Reading is allowed, not linked.
const READS: u32 = 0x01;
/// Of the right lengths.
static XF_WORDS: [u32; 4184] = [0; 4184];
static VERTEX_BUFFER: [u8; 129] = [0; 129];
const CP_LOAD_BYTES: u32 = 6;

/// What a look is lent.
pub struct Look<'a> {
    pub state: &'a mut StateWords,
    pub ring: &'a [u8],
    pub xf: &'a mut [u32],
    pub vertex: &'a mut [u8],
    pub unit: &'a mut UnitWords,
    pub lacking: &'a mut u32,
}

impl Look<'_> {
    /// Makes the look; its answer.
    pub fn make(&mut self, fault: Fault) -> u32 {
        let answer = self.see(fault);
        match answer {
            DONE => {
                self.spoil_unit(fault);
                self.spoil_memory(fault);
            }
            WAITING if fault == Fault::LookLacksOne => *self.lacking = 1,
            7 if fault == Fault::LookAwaitsTheUnit && count_of(self.state) < CP_LOAD_BYTES => {
                *self.lacking = CP_LOAD_BYTES - count_of(self.state);
                return WAITING;
            }
            2 | 3 if fault == Fault::LookGives4Before2 && self.state[CONTROL] & READS == 0 => {
                return 4;
            }
            _ => {}
        }
        match fault {
            Fault::LookUnitZeroed if answer != DONE => *self.unit = [0; 6],
            Fault::LookLackingZeroed if answer != WAITING => *self.lacking = 0,
            _ => {}
        }
        answer
    }

    /// The twin's look, with a fault of what it tests or looks at.
    fn see(&mut self, fault: Fault) -> u32 {
        let mut state = *self.state;
        let (mut xf, mut vertex) = (&*self.xf, &*self.vertex);
        match fault {
            Fault::LookWithout2 => xf = &XF_WORDS,
            Fault::LookWithout3 => vertex = &VERTEX_BUFFER,
            Fault::LookWithout4And5 if state[CONTROL] <= 0x3F => state[CONTROL] = READS,
            Fault::LookPastTheDraw if state[OPEN] == 1 => state[OPEN] = 0,
            _ => {}
        }
        words::look(&state, self.ring, xf, vertex, self.unit, self.lacking)
    }

    /// What is wrong with the unit that is told.
    fn spoil_unit(&mut self, fault: Fault) {
        let indexed = self.unit[0] & !0x18 == 0x20;
        match fault {
            Fault::LookShowsNoOperation => *self.unit = NO_OPERATION,
            Fault::LookTellsAnotherLength => self.unit[5] += 1,
            Fault::LookWithoutAddress if indexed => self.unit[4] = 0,
            _ => {}
        }
    }

    /// What is changed that a look must leave: all that a take changes, or a part.
    fn spoil_memory(&mut self, fault: Fault) {
        let (mut state, mut xf, mut vertex) = (*self.state, self.xf.to_vec(), self.vertex.to_vec());
        let (mut unit, mut lacking) = ([0; 6], 0);
        Twin.take(
            &mut state,
            self.ring,
            &mut xf,
            &mut vertex,
            &mut unit,
            &mut lacking,
        );
        let all = fault == Fault::LookTakes;
        if all {
            *self.state = state;
        }
        if all || fault == Fault::LookStoresXfWords && unit[0] == LOAD_XF {
            self.xf.copy_from_slice(&xf);
        }
        if all || fault == Fault::LookCopiesVertex && unit[0] == VERTEX {
            self.vertex.copy_from_slice(&vertex);
        }
        match fault {
            Fault::LookMovesThePointer => self.state[READ_POINTER] = state[READ_POINTER],
            Fault::LookClearsStaleDraw if self.state[OPEN] == 0 => clear_draw(self.state),
            _ => {}
        }
    }
}
