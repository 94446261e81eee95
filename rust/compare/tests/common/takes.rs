//! A run made of the twin's takes, with one fault of those that a side could
//! have that takes many units at once.

use super::{
    clear_draw, count_of, Fault, END, LOAD_BP, LOAD_CP, LOAD_XF, MASK_REGISTER, MASK_WORD, OPEN,
    READ_POINTER, START, VERTEX, WRITE_POINTER,
};
use compare::side::{Side, Twin};
use model::words::{self, FormatWords, ReportWords, StateWords, UnitWords, DONE, WAITING};
use model::MOST_UNITS;

const DRAW: u32 = 0x80;
const XF_WORDS: usize = 4184;

/// Whether a fault is one of these runs, or none.
pub fn makes(fault: Fault) -> bool {
    let these = Fault::KeptOverVcd0 as u32..=Fault::PointerLeftAtTheEnd as u32;
    fault == Fault::OnlyTakes || these.contains(&(fault as u32))
}

pub fn run(
    fault: Fault,
    state: &mut StateWords,
    ring: &[u8],
    xf: &mut [u32],
    vertex: &mut [u8],
    limit: u32,
    report: &mut ReportWords,
) -> u32 {
    // 1 to 5.
    let answer = Twin.run(state, ring, xf, vertex, 0, report);
    if answer != DONE {
        return answer;
    }
    let before = vertex.to_vec();
    let mut takes = Takes {
        fault,
        held: before.clone(),
        before,
        state,
        ring,
        xf,
        vertex,
        units: 0,
        lacking: 0,
        last: None,
        zeros: 0,
        short: 0,
        vertices: 0,
        kept: [None; 8],
    };
    let answer = takes.take_all(limit.min(MOST_UNITS));
    takes.end(answer);
    *report = [takes.units - takes.short, takes.lacking];
    answer
}

struct Takes<'a> {
    fault: Fault,
    /// The vertex buffer before this run, and before the last take.
    before: Vec<u8>,
    held: Vec<u8>,
    state: &'a mut StateWords,
    ring: &'a [u8],
    xf: &'a mut [u32],
    vertex: &'a mut [u8],
    units: u32,
    lacking: u32,
    /// The last unit of this run.
    last: Option<UnitWords>,
    /// Zeros in a row, up to here.
    zeros: u32,
    /// Units that were not counted.
    short: u32,
    /// The vertices of the last draw in this run.
    vertices: u32,
    /// The formats that give the bytes of vertices.
    kept: [Option<FormatWords>; 8],
}

/// The five words of a format, by their places in the state.
fn places(format: usize) -> [usize; 5] {
    let vat = 15 + 3 * format;
    [13, 14, vat, vat + 1, vat + 2]
}

impl Takes<'_> {
    fn is(&self, fault: Fault) -> bool {
        self.fault == fault
    }

    fn open(&self) -> bool {
        self.state[OPEN] == 1
    }

    /// How many bytes are there, and one of them.
    fn count(&self) -> usize {
        count_of(self.state) as usize
    }

    fn byte(&self, k: usize) -> u8 {
        let place = (self.state[READ_POINTER] - self.state[START]) as usize;
        self.ring[(place + k) % self.ring.len()]
    }

    /// The opcode, where no draw is open.
    fn opcode(&self) -> Option<u8> {
        (!self.open() && self.count() != 0).then(|| self.byte(0))
    }

    fn pass(&mut self, bytes: usize) -> u32 {
        let place = (self.state[READ_POINTER] - self.state[START]) as usize + bytes;
        self.state[READ_POINTER] = self.state[START] + (place % self.ring.len()) as u32;
        clear_draw(self.state);
        DONE
    }

    fn take_all(&mut self, limit: u32) -> u32 {
        while self.units < limit {
            let answer = self.take_one();
            if answer != DONE {
                return answer;
            }
        }
        while limit != 0 && self.passes_the_limit() && self.take_one() == DONE {}
        DONE
    }

    fn passes_the_limit(&self) -> bool {
        match self.fault {
            Fault::ZerosPastTheLimit => !self.zeros.is_multiple_of(8) && self.opcode() == Some(0),
            Fault::VerticesPastTheLimit => self.open(),
            Fault::VertexPastTheLimitOfItsHead => {
                self.open() && self.last.is_some_and(|unit| unit[0] == DRAW)
            }
            _ => false,
        }
    }

    fn take_one(&mut self) -> u32 {
        let answer = match self.take_wrongly() {
            Some(answer) => answer,
            None => self.take(),
        };
        if answer == DONE {
            self.units += 1;
        }
        answer
    }

    /// Takes a unit that is none, or that is refused.
    fn take_wrongly(&mut self) -> Option<u32> {
        let opcode = self.opcode()?;
        let count = self.count();
        let block = match self.fault {
            Fault::LastOf8TakenAsZero => 8,
            Fault::LastOf128TakenAsZero => 128,
            _ => 0,
        };
        if block != 0 && opcode != 0 && self.zeros % block == block - 1 {
            self.zeros += 1;
            return Some(self.pass(1));
        }
        let after_load = self.last.is_some_and(|unit| unit[0] == LOAD_CP.into());
        if self.is(Fault::UnlistedCpLoadTaken) && opcode == LOAD_CP && after_load && count >= 6 {
            let address = self.byte(1);
            let unlisted = (7..=9).contains(&(address >> 4)) && address & 8 != 0;
            return unlisted.then(|| self.pass(6));
        }
        if self.is(Fault::XfOnePastTaken) && u32::from(opcode) == LOAD_XF && count >= 5 {
            return self.take_xf_one_past();
        }
        None
    }

    /// All words but the last, which has no place.
    fn take_xf_one_past(&mut self) -> Option<u32> {
        let half = |k| usize::from(self.byte(k)) << 8 | usize::from(self.byte(k + 1));
        let (words, address) = (half(1) % 16 + 1, half(3));
        let bytes = 5 + 4 * words;
        if address + words != XF_WORDS + 1 || self.count() < bytes {
            return None;
        }
        for at in 0..words - 1 {
            let word = [5, 6, 7, 8].map(|k| self.byte(4 * at + k));
            self.xf[address + at] = u32::from_be_bytes(word);
        }
        Some(self.pass(bytes))
    }

    /// The bytes of a unit past the ring's end that are there, but not seen.
    fn unseen(&self) -> Option<u32> {
        let (mut unit, mut lacking) = ([0; 6], 0);
        let answer = words::look(
            self.state,
            self.ring,
            self.xf,
            self.vertex,
            &mut unit,
            &mut lacking,
        );
        let straight = self.state[END] - self.state[READ_POINTER];
        (answer == DONE && unit[5] > straight).then(|| unit[5] - straight)
    }

    fn take(&mut self) -> u32 {
        // A large ring holds a million of these.
        if let Some(opcode @ (0x00 | 0x44 | 0x48)) = self.opcode() {
            self.count_unit([opcode.into(), 0, 0, 0, 0, 1]);
            return self.pass(1);
        }
        if self.is(Fault::UnitOverTheEndAwaited) {
            if let Some(lacking) = self.unseen() {
                self.lacking = lacking;
                return WAITING;
            }
        }
        let was = *self.state;
        self.held.copy_from_slice(self.vertex);
        let drawn = self.draw_as_kept();
        let mut unit = [0; 6];
        let answer = Twin.take(
            self.state,
            self.ring,
            self.xf,
            self.vertex,
            &mut unit,
            &mut self.lacking,
        );
        if let Some(format) = drawn {
            self.keep(format, &was, answer);
        }
        if answer == DONE {
            self.after(&was, unit);
        }
        answer
    }

    /// The word over whose loads the bytes of a vertex are kept.
    fn word_kept_over(&self) -> Option<usize> {
        const KEPT: [Fault; 5] = [
            Fault::KeptOverVcd0,
            Fault::KeptOverVcd1,
            Fault::KeptOverVat0,
            Fault::KeptOverVat1,
            Fault::KeptOverVat2,
        ];
        KEPT.iter().position(|&fault| self.is(fault))
    }

    /// Whether a fault is of the bytes that are kept.
    fn keeps(&self) -> bool {
        self.is(Fault::VcdForgetsFormat0Alone) || self.word_kept_over().is_some()
    }

    /// Puts the kept words of a draw's format into the state; the format, where
    /// the next unit is of a draw.
    fn draw_as_kept(&mut self) -> Option<usize> {
        if !self.keeps() {
            return None;
        }
        let format = match self.opcode() {
            _ if self.open() => self.state[OPEN + 2] as usize,
            Some(head @ 0x80..=0xBF) => usize::from(head & 7),
            _ => return None,
        };
        if let Some(words) = self.kept[format] {
            for (place, word) in places(format).into_iter().zip(words) {
                self.state[place] = word;
            }
        }
        Some(format)
    }

    /// Puts the words of a draw's format back, and keeps them from now on.
    fn keep(&mut self, format: usize, was: &StateWords, answer: u32) {
        for place in places(format) {
            self.state[place] = was[place];
        }
        if answer == DONE && self.kept[format].is_none() {
            self.kept[format] = Some(places(format).map(|place| was[place]));
        }
    }

    /// Keeps a unit as the last, and counts zeros.
    fn count_unit(&mut self, unit: UnitWords) {
        self.last = Some(unit);
        match unit[0] {
            0 => self.zeros += 1,
            _ => self.end_zeros(),
        }
    }

    /// What is wrong after a unit.
    fn after(&mut self, was: &StateWords, unit: UnitWords) {
        let [kind, a, .., length] = unit;
        self.count_unit(unit);
        match kind {
            VERTEX => self.after_vertex(was, length as usize),
            DRAW => self.vertices = 0,
            LOAD_BP if self.is(Fault::MaskKeptByRun) && a != MASK_REGISTER => {
                self.state[MASK_WORD] = was[MASK_WORD];
            }
            _ if kind == LOAD_CP.into() => self.after_cp_load(a as usize),
            _ => {}
        }
    }

    /// Loads of the VCD and of VATs forget what is kept, but for one word's.
    fn after_cp_load(&mut self, address: usize) {
        let group = address >> 4;
        if group < 7 && self.is(Fault::VcdForgetsFormat0Alone) {
            self.kept[0] = None;
        } else if (5..=9).contains(&group) && self.word_kept_over() != Some(group - 5) {
            self.kept = [None; 8];
        }
    }

    fn after_vertex(&mut self, was: &StateWords, length: usize) {
        self.vertices += 1;
        let straight = (was[END] - was[READ_POINTER]) as usize;
        match self.fault {
            Fault::FirstVertexCopied if self.vertices > 1 => {
                self.vertex.copy_from_slice(&self.held);
            }
            Fault::LongerVertexLost => {
                self.vertex[length..].copy_from_slice(&self.before[length..]);
            }
            Fault::VertexOverTheEndPartly if straight < length => {
                self.vertex[straight..].copy_from_slice(&self.held[straight..]);
            }
            _ => {}
        }
    }

    fn end_zeros(&mut self) {
        let short = match self.fault {
            Fault::ZerosOneShort => self.zeros > 1,
            Fault::ZerosOfBlocksOneShort => self.zeros != 0 && self.zeros.is_multiple_of(128),
            _ => false,
        };
        self.short += u32::from(short);
        self.zeros = 0;
    }

    /// What is wrong at the end.
    fn end(&mut self, answer: u32) {
        self.end_zeros();
        if self.units == 0 {
            return;
        }
        let wraps = self.state[WRITE_POINTER] < self.state[READ_POINTER];
        match (self.fault, self.last) {
            (Fault::DrawLostAtTheLimit, _) if answer == DONE && self.open() => self.lose_draw(),
            (Fault::DrawLostByWaiting, _) if answer == WAITING && self.open() => self.lose_draw(),
            (Fault::EmptyDrawLeftOpen, Some([DRAW, primitive, format, 0, ..])) => {
                self.state[OPEN..OPEN + 4].copy_from_slice(&[1, primitive, format, 0]);
            }
            (Fault::LackingOfTheStretch, _) if answer == WAITING && wraps => {
                self.lacking += self.state[WRITE_POINTER] - self.state[START];
            }
            (Fault::PointerLeftAtTheEnd, _) if self.state[READ_POINTER] == self.state[START] => {
                self.state[READ_POINTER] = self.state[END];
            }
            _ => {}
        }
    }

    fn lose_draw(&mut self) {
        self.state[OPEN] = 0;
        clear_draw(self.state);
    }
}
