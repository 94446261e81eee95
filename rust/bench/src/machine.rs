//! The implementations behind one trait, each with the memory it is lent.

use model::words::{command_words, state_words, StateWords, UnitWords, STATE_WORDS, WAITING};
use model::{Answer, End, Memory, Refusal, State, View, XF_WORDS};

/// The bytes of a ring, but in the tables of rings of other sizes.
pub const RING: usize = 65_536;
const VERTEX: usize = 129;
/// The state words of the pointers.
pub const WRITE: usize = 4;
const READ: usize = 5;

/// Ring, XF words and vertex buffer. Aligned, so that no implementation has the
/// luckier places.
#[derive(Clone, PartialEq, Eq)]
#[repr(C, align(4096))]
pub struct Lent<const N: usize> {
    pub ring: [u8; N],
    pub xf: [u32; XF_WORDS],
    pub vertex: [u8; VERTEX],
}

impl<const N: usize> Lent<N> {
    pub fn new() -> Box<Lent<N>> {
        Box::new(Lent {
            ring: [0xCC; N],
            xf: [0xAAAA_AAAA; XF_WORDS],
            vertex: [0x55; VERTEX],
        })
    }

    fn view(&self) -> View<'_> {
        let Lent { ring, xf, vertex } = self;
        View { ring, xf, vertex }
    }
}

/// An implementation at work. Answers are the library's numbers: 0, 255 for
/// waiting, or a refusal's.
pub trait Machine {
    /// The answer of a look or a take in the implementation's own form.
    type Told;
    /// The bytes of its ring.
    const RING: usize;

    fn fresh() -> Self;
    fn read_register(&self, offset: u16) -> [u32; 2];
    fn write_register(&mut self, offset: u16, value: u16) -> u32;
    fn feed(&mut self, bytes: &[u8]) -> u32;
    fn look(&self) -> Self::Told;
    fn take(&mut self) -> Self::Told;
    /// The answer number, the unit's six words and the bytes lacking, 0 where
    /// they are not told.
    fn told_words(told: &Self::Told) -> [u32; 8];
    /// The answer number, units done, bytes lacking.
    fn run(&mut self, limit: u32) -> [u32; 3];
    /// Keeps the state for `reset`.
    fn save(&mut self);
    /// The state as it was kept. What is lent stays.
    fn reset(&mut self);
    fn state_words(&self) -> StateWords;
    fn lent(&self) -> View<'_>;
}

/// Makes a machine of calls over state words.
macro_rules! over_words {
    ($(#[$about:meta])* $machine:ident, $calls:ident) => {
        $(#[$about])*
        #[repr(align(64))]
        pub struct $machine<const N: usize> {
            state: StateWords,
            saved: StateWords,
            lent: Box<Lent<N>>,
        }

        impl<const N: usize> Machine for $machine<N> {
            /// The answer number, the unit, the bytes lacking; 0 where they are not told.
            type Told = (u32, UnitWords, u32);
            const RING: usize = N;

            fn fresh() -> $machine<N> {
                let mut state = [0; STATE_WORDS];
                $calls::fresh(&mut state);
                $machine {
                    state,
                    saved: state,
                    lent: Lent::new(),
                }
            }

            fn read_register(&self, offset: u16) -> [u32; 2] {
                let mut value = 0;
                let answer = $calls::read_register(&self.state, offset, &mut value);
                [answer, value]
            }

            fn write_register(&mut self, offset: u16, value: u16) -> u32 {
                $calls::write_register(&mut self.state, offset, value)
            }

            fn feed(&mut self, bytes: &[u8]) -> u32 {
                $calls::feed(&mut self.state, &mut self.lent.ring, bytes)
            }

            fn look(&self) -> (u32, UnitWords, u32) {
                let Lent { ring, xf, vertex } = &*self.lent;
                let mut unit = [0; 6];
                let mut lacking = 0;
                let number = $calls::look(&self.state, ring, xf, vertex, &mut unit, &mut lacking);
                (number, unit, lacking)
            }

            fn take(&mut self) -> (u32, UnitWords, u32) {
                let Lent { ring, xf, vertex } = &mut *self.lent;
                let mut unit = [0; 6];
                let mut lacking = 0;
                let number =
                    $calls::take(&mut self.state, ring, xf, vertex, &mut unit, &mut lacking);
                (number, unit, lacking)
            }

            fn told_words(&(number, unit, lacking): &(u32, UnitWords, u32)) -> [u32; 8] {
                let [kind, a, b, c, d, bytes] = unit;
                [number, kind, a, b, c, d, bytes, lacking]
            }

            fn run(&mut self, limit: u32) -> [u32; 3] {
                let Lent { ring, xf, vertex } = &mut *self.lent;
                let mut report = [0; 2];
                let number = $calls::run(&mut self.state, ring, xf, vertex, limit, &mut report);
                let [units, lacking] = report;
                [number, units, lacking]
            }

            fn save(&mut self) {
                self.saved = self.state;
            }

            fn reset(&mut self) {
                self.state = self.saved;
            }

            fn state_words(&self) -> StateWords {
                self.state
            }

            fn lent(&self) -> View<'_> {
                self.lent.view()
            }
        }
    };
}

over_words!(
    /// The proved library.
    Proved,
    proved
);

impl<const N: usize> Proved<N> {
    /// Empties the ring, as a caller can who keeps the state: the read pointer becomes
    /// the write pointer.
    pub fn drop_pending(&mut self) {
        self.state[READ] = self.state[WRITE];
    }
}

#[cfg(hand_c)]
over_words!(
    /// The hand-tuned C.
    Hand,
    hand
);

/// The implementation in plain Rust.
#[repr(align(64))]
pub struct Plain<const N: usize> {
    state: State,
    saved: State,
    lent: Box<Lent<N>>,
}

fn memory<const N: usize>(lent: &mut Lent<N>) -> Memory<'_> {
    Memory {
        ring: &lent.ring,
        xf: &mut lent.xf,
        vertex: &mut lent.vertex,
    }
}

/// 0, or the refusal's number.
fn number<T>(answer: &Result<T, Refusal>) -> u32 {
    match answer {
        Ok(_) => 0,
        Err(refusal) => u32::from(refusal.number()),
    }
}

impl<const N: usize> Machine for Plain<N> {
    type Told = Answer;
    const RING: usize = N;

    fn fresh() -> Plain<N> {
        Plain {
            state: State::fresh(),
            saved: State::fresh(),
            lent: Lent::new(),
        }
    }

    fn read_register(&self, offset: u16) -> [u32; 2] {
        let answer = self.state.read_register(offset);
        [number(&answer), u32::from(answer.unwrap_or(0))]
    }

    fn write_register(&mut self, offset: u16, value: u16) -> u32 {
        number(&self.state.write_register(offset, value))
    }

    fn feed(&mut self, bytes: &[u8]) -> u32 {
        number(&self.state.feed(&mut self.lent.ring, bytes))
    }

    fn look(&self) -> Answer {
        self.state.look(&self.lent.view())
    }

    fn take(&mut self) -> Answer {
        self.state.take(&mut memory(&mut self.lent))
    }

    fn told_words(told: &Answer) -> [u32; 8] {
        match *told {
            Answer::Unit {
                command,
                memory_address,
                length,
            } => {
                let [kind, a, b, c, d] = command_words(&command, memory_address);
                [0, kind, a, b, c, d, length, 0]
            }
            Answer::Waiting { lacking } => [WAITING, 0, 0, 0, 0, 0, 0, lacking],
            Answer::Refused(refusal) => [refusal.number().into(), 0, 0, 0, 0, 0, 0, 0],
        }
    }

    fn run(&mut self, limit: u32) -> [u32; 3] {
        let run = self.state.run(&mut memory(&mut self.lent), limit);
        match run.end {
            End::Limit => [0, run.units, 0],
            End::Waiting { lacking } => [WAITING, run.units, lacking],
            End::Refused(refusal) => [refusal.number().into(), run.units, 0],
        }
    }

    fn save(&mut self) {
        self.saved = self.state.clone();
    }

    fn reset(&mut self) {
        self.state.clone_from(&self.saved);
    }

    fn state_words(&self) -> StateWords {
        state_words(&self.state)
    }

    fn lent(&self) -> View<'_> {
        self.lent.view()
    }
}
