//! What a caller keeps for one side: the state words and the lent memory.

use crate::call::Kind;
use crate::random::Random;
use model::words::{StateWords, STATE_WORDS};

/// Held beside what is lent, so that a write past the end shows.
const GUARD: usize = 64;

/// The words of the state that are set by hand.
pub mod word {
    pub const START: usize = 0;
    pub const END: usize = 1;
    pub const HIGH_MARK: usize = 2;
    pub const LOW_MARK: usize = 3;
    pub const WRITE: usize = 4;
    pub const READ: usize = 5;
    pub const CONTROL: usize = 6;
    pub const DRAW_OPEN: usize = 7;
    pub const PRIMITIVE: usize = 8;
    pub const FORMAT: usize = 9;
    pub const LEFT: usize = 10;
    pub const VCD_0: usize = 13;
    pub const VCD_1: usize = 14;
    pub const VAT: usize = 15;
    pub const BASES: usize = 39;
    pub const STRIDES: usize = 55;
    pub const BP: usize = 71;
}

/// How many places of each are lent.
#[derive(Clone, Copy, Debug, PartialEq, Eq)]
pub struct Lent {
    pub ring: usize,
    pub xf: usize,
    pub vertex: usize,
}

/// As a caller should lend for a ring of 256 bytes.
pub const USUAL: Lent = Lent {
    ring: 256,
    xf: 4184,
    vertex: 129,
};

/// Everything is compared, also what is held past what is lent.
#[derive(Clone, PartialEq, Eq)]
pub struct World {
    pub state: StateWords,
    pub ring: Vec<u8>,
    pub xf: Vec<u32>,
    pub vertex: Vec<u8>,
}

impl World {
    pub fn new() -> World {
        World {
            state: [0; STATE_WORDS],
            ring: Vec::new(),
            xf: Vec::new(),
            vertex: Vec::new(),
        }
    }

    /// Room for what is lent, filled by chance.
    pub fn fill(&mut self, lent: &Lent, random: &mut Random) {
        self.ring = random.bytes(lent.ring + GUARD);
        self.xf = random.words(lent.xf + GUARD);
        self.vertex = random.bytes(lent.vertex + GUARD);
    }

    /// At least the room for what is lent; what is there stays.
    pub fn make_room(&mut self, lent: &Lent) {
        grow(&mut self.ring, lent.ring);
        grow(&mut self.xf, lent.xf);
        grow(&mut self.vertex, lent.vertex);
    }

    /// The bytes that are in the ring, of a window that obeys the rules.
    pub fn count(&self) -> u32 {
        let state = &self.state;
        let gap = state[word::WRITE].wrapping_sub(state[word::READ]);
        if state[word::WRITE] < state[word::READ] {
            return gap.wrapping_add(self.size());
        }
        gap
    }

    /// "size minus 1 minus count"
    pub fn room(&self) -> u32 {
        self.size().wrapping_sub(1).wrapping_sub(self.count())
    }

    fn size(&self) -> u32 {
        self.state[word::END].wrapping_sub(self.state[word::START])
    }

    /// The byte at the read pointer; none where that is outside the ring.
    pub fn next_byte(&self) -> Option<u8> {
        let place = self.state[word::READ].wrapping_sub(self.state[word::START]);
        self.ring.get(place as usize).copied()
    }

    /// The same as another, without new memory where the lengths are the same.
    pub fn copy_from(&mut self, other: &World) {
        self.state = other.state;
        self.ring.clone_from(&other.ring);
        self.xf.clone_from(&other.xf);
        self.vertex.clone_from(&other.vertex);
    }

    /// The same as another that was this one before a call of a kind which changed no more
    /// than it may: what stayed is not copied.
    pub fn follow(&mut self, other: &World, kind: Kind) {
        self.state = other.state;
        match kind {
            Kind::Feed => self.ring.clone_from(&other.ring),
            Kind::Take | Kind::Run => {
                self.xf.clone_from(&other.xf);
                self.vertex.clone_from(&other.vertex);
            }
            Kind::ReadRecording | Kind::ReadRecordingHead => self.xf.clone_from(&other.xf),
            _ => {}
        }
    }
}

impl Default for World {
    fn default() -> World {
        World::new()
    }
}

fn grow<T: Clone + Default>(list: &mut Vec<T>, lent: usize) {
    if list.len() < lent + GUARD {
        list.resize(lent + GUARD, T::default());
    }
}
