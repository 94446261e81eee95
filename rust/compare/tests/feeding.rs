//! Document 02's L7, of the proved library and of the twin, in a ring of 256
//! bytes. From every place and with every length a feed leaves what storing byte
//! after byte leaves, or is refused by 11 and leaves all as it was. From some
//! places, with every length and every cut, a feed cut in two has the answer of the
//! whole and, where that is accepted, leaves what it leaves. A window that breaks the
//! rules is refused by 1, and nothing changes.
#![forbid(unsafe_code)]

use compare::side::{Proved, Side, Twin};
use compare::world::word;
use model::words::{StateWords, DONE, STATE_WORDS};

const START: u32 = 0x1000;
const SIZE: usize = 256;
/// Bytes that wait already: none, one, some, one less than fill the ring, as many
/// as fill it.
const WAITING: [usize; 5] = [0, 1, 100, SIZE - 2, SIZE - 1];
const INVALID: u32 = 1;
const TOO_LONG: u32 = 11;

/// The state words and the ring's bytes.
#[derive(Clone, PartialEq, Eq, Debug)]
struct Fed {
    state: StateWords,
    ring: [u8; SIZE],
}

impl Fed {
    /// A ring whose write pointer is at a place, with bytes that wait before it.
    fn new(side: &dyn Side, place: usize, waiting: usize) -> Fed {
        let mut state = [0; STATE_WORDS];
        side.fresh(&mut state);
        state[word::START] = START;
        state[word::END] = START + SIZE as u32;
        state[word::WRITE] = START + place as u32;
        state[word::READ] = START + ((place + SIZE - waiting) % SIZE) as u32;
        Fed {
            state,
            ring: std::array::from_fn(|at| !(at as u8)),
        }
    }

    fn feed(&mut self, side: &dyn Side, bytes: &[u8]) -> u32 {
        side.feed(&mut self.state, &mut self.ring, bytes)
    }

    /// Each byte to the write pointer, which goes one place on, from the last
    /// place to the first.
    fn store_each(&mut self, bytes: &[u8]) {
        for &byte in bytes {
            let write = self.state[word::WRITE];
            self.ring[(write - START) as usize] = byte;
            let end = self.state[word::END];
            self.state[word::WRITE] = if write + 1 == end { START } else { write + 1 };
        }
    }
}

/// As many bytes as the ring has, no two the same.
fn bytes() -> Vec<u8> {
    (0..SIZE).map(|at| (at * 7 + 3) as u8).collect()
}

fn sides() -> [Box<dyn Side>; 2] {
    [Box::new(Proved), Box::new(Twin)]
}

#[test]
fn a_feed_is_byte_after_byte() {
    let bytes = bytes();
    for side in sides() {
        for place in 0..SIZE {
            for waiting in WAITING {
                let start = Fed::new(&*side, place, waiting);
                for length in 0..=SIZE {
                    let fits = waiting + length < SIZE;
                    let mut fed = start.clone();
                    let answer = fed.feed(&*side, &bytes[..length]);
                    assert_eq!(answer, if fits { DONE } else { TOO_LONG });
                    let mut stored = start.clone();
                    if fits {
                        stored.store_each(&bytes[..length]);
                    }
                    assert!(
                        fed == stored,
                        "{}: {length} bytes at place {place}, {waiting} waiting",
                        side.name()
                    );
                }
            }
        }
    }
}

#[test]
fn a_feed_may_be_cut() {
    let bytes = bytes();
    for side in sides() {
        for place in [0, 1, 100, 131, SIZE - 2, SIZE - 1] {
            for waiting in WAITING {
                let start = Fed::new(&*side, place, waiting);
                for length in 0..=SIZE {
                    let mut whole = start.clone();
                    let answer = whole.feed(&*side, &bytes[..length]);
                    for cut in 0..=length {
                        let mut pieces = start.clone();
                        let first = pieces.feed(&*side, &bytes[..cut]);
                        let second = pieces.feed(&*side, &bytes[cut..length]);
                        assert_eq!(answer, if first == DONE { second } else { first });
                        if answer == DONE {
                            assert!(pieces == whole, "{}: cut at {cut} of {length}", side.name());
                        }
                    }
                }
            }
        }
    }
}

/// A window that breaks the rules is refused by 1, the whole and its pieces, also
/// a feed of no bytes.
#[test]
fn a_broken_window_is_refused() {
    let bytes = bytes();
    for side in sides() {
        let mut start = Fed::new(&*side, 100, 0);
        start.state[word::END] -= 1;
        for length in [0, 1, SIZE] {
            for cut in [0, length / 2, length] {
                for piece in [&bytes[..length], &bytes[..cut], &bytes[cut..length]] {
                    let mut fed = start.clone();
                    assert_eq!(fed.feed(&*side, piece), INVALID);
                    assert!(fed == start);
                }
            }
        }
    }
}
