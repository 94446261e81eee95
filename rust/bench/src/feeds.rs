//! The third table: feeds beside a bare copy of as many bytes, and beside a
//! feed that stores byte after byte.

use crate::machine::{Lent, Machine, Proved, RING, WRITE};
use crate::player::{empty, place, START};
use crate::random::Random;
use crate::timing::{Side, Sides};
use model::LARGEST_RING;
use std::hint::black_box;
use std::rc::Rc;

const LARGEST: usize = LARGEST_RING as usize;
/// The bytes of a ring, and of a feed into it. Feeds of 16 bytes and more go round the
/// ring's end once in a timed part, or each of them does where it fills the ring.
pub const SIZES: [(usize, usize); 9] = [
    (RING, 1),
    (RING, 16),
    (RING, 64),
    (RING, 256),
    (RING, 4096),
    (256, 255),
    (4096, 4095),
    (RING, RING - 1),
    (LARGEST, LARGEST - 1),
];
/// The most feeds of one timed part.
const MOST: usize = 4096;

/// Feeds of one size.
pub struct Feeds {
    pub ring: usize,
    pub bytes: usize,
    pub feeds: usize,
    /// The proved feed, the bare copy, the feed byte after byte.
    pub sides: Sides,
}

/// What is fed, and how often: the same bytes at the same address for all.
struct Load<const N: usize> {
    /// Its ring holds the bytes, aligned as a ring.
    source: Rc<Lent<N>>,
    bytes: usize,
    feeds: usize,
}

impl<const N: usize> Clone for Load<N> {
    fn clone(&self) -> Load<N> {
        Load {
            source: Rc::clone(&self.source),
            ..*self
        }
    }
}

impl<const N: usize> Load<N> {
    /// Feeds that fill a ring are as many as fill 65,536 bytes, or one.
    fn new(bytes: usize) -> Load<N> {
        let mut source = Lent::<N>::new();
        source.ring.copy_from_slice(&Random::new(8).bytes(N));
        let ring = N.max(RING);
        Load {
            source: Rc::new(*source),
            bytes,
            feeds: MOST.min((ring - 1) / bytes),
        }
    }

    fn bytes(&self) -> &[u8] {
        black_box(&self.source.ring[..self.bytes])
    }

    /// Whether a feed fills the ring, so that it is emptied after each.
    fn fills(&self) -> bool {
        self.bytes == N - 1
    }
}

struct ProvedFeeds<const N: usize> {
    load: Load<N>,
    machine: Proved<N>,
}

impl<const N: usize> Side for ProvedFeeds<N> {
    fn reset(&mut self) {
        self.machine.reset();
    }

    fn work(&mut self) -> u64 {
        let fills = self.load.fills();
        let machine = black_box(&mut self.machine);
        for _ in 0..self.load.feeds {
            black_box(machine.feed(self.load.bytes()));
            if fills {
                machine.drop_pending();
            }
        }
        self.load.feeds as u64
    }
}

/// As long as two rings, so that nothing goes round an end; aligned as a ring.
#[repr(align(4096))]
struct Straight<const N: usize>([[u8; N]; 2]);

/// Copies one after the other, straight on from the place of the first feed, but that one
/// which fills a ring is followed by one to where the next feed begins.
struct Copies<const N: usize> {
    load: Load<N>,
    out: Box<Straight<N>>,
}

impl<const N: usize> Side for Copies<N> {
    fn reset(&mut self) {}

    fn work(&mut self) -> u64 {
        let fills = self.load.fills();
        let out = black_box(self.out.0.as_flattened_mut());
        let mut place = place(N);
        for _ in 0..self.load.feeds {
            let bytes = self.load.bytes();
            out[place..place + bytes.len()].copy_from_slice(bytes);
            black_box(&mut *out);
            place += bytes.len();
            if fills && place >= N {
                place -= N;
            }
        }
        self.load.feeds as u64
    }
}

/// A feed byte after byte in plain Rust, written to be timed: it tests 11 alone,
/// and keeps its write pointer and count as two numbers, no state words. Nothing
/// reads the ring, so the count only grows, but where it is emptied.
struct ByteAfterByte<const N: usize> {
    load: Load<N>,
    lent: Box<Lent<N>>,
    write: usize,
    count: usize,
}

impl<const N: usize> ByteAfterByte<N> {
    /// Whether there was room.
    #[inline(never)]
    fn feed(&mut self, bytes: &[u8]) -> bool {
        if bytes.len() > N - 1 - self.count {
            return false;
        }
        for &byte in bytes {
            self.lent.ring[self.write] = byte;
            self.write += 1;
            if self.write == N {
                self.write = 0;
            }
        }
        self.count += bytes.len();
        true
    }
}

impl<const N: usize> Side for ByteAfterByte<N> {
    fn reset(&mut self) {
        self.write = place(N);
        self.count = 0;
    }

    fn work(&mut self) -> u64 {
        let load = self.load.clone();
        for _ in 0..load.feeds {
            black_box(self.feed(load.bytes()));
            if load.fills() {
                self.count = 0;
            }
        }
        load.feeds as u64
    }
}

/// Feeds of the sizes that are asked for, each once the proved feed and the one byte
/// after byte left the same.
pub fn feeds(sizes: &[(usize, usize)]) -> Result<Vec<Feeds>, String> {
    let of = |&(ring, bytes): &(usize, usize)| match ring {
        256 => compared::<256>(bytes),
        4096 => compared::<4096>(bytes),
        RING => compared::<RING>(bytes),
        _ => compared::<LARGEST>(bytes),
    };
    sizes.iter().map(of).collect()
}

/// Feeds all of the load to both, and compares what is left.
fn feed_both<const N: usize>(
    proved: &mut ProvedFeeds<N>,
    by_bytes: &mut ByteAfterByte<N>,
) -> Result<(), String> {
    let load = proved.load.clone();
    let bytes = load.bytes;
    for feed in 1..=load.feeds {
        let answer = proved.machine.feed(load.bytes());
        if answer != 0 {
            return Err(format!("feed {feed} of {bytes} bytes: refusal {answer}"));
        }
        if !by_bytes.feed(load.bytes()) {
            return Err(format!(
                "feed {feed} of {bytes} bytes, byte after byte: no room"
            ));
        }
        if load.fills() {
            proved.machine.drop_pending();
            by_bytes.count = 0;
        }
    }
    if proved.machine.state_words()[WRITE] != START + by_bytes.write as u32 {
        return Err(format!(
            "the write pointers after feeds of {bytes} bytes differ"
        ));
    }
    if *proved.machine.lent().ring != by_bytes.lent.ring {
        return Err(format!("the rings after feeds of {bytes} bytes differ"));
    }
    Ok(())
}

fn compared<const N: usize>(bytes: usize) -> Result<Feeds, String> {
    let load = Load::<N>::new(bytes);
    let feeds = load.feeds;
    let mut proved = ProvedFeeds {
        load: load.clone(),
        machine: empty(),
    };
    let mut by_bytes = ByteAfterByte {
        load: load.clone(),
        lent: Lent::new(),
        write: place(N),
        count: 0,
    };
    feed_both(&mut proved, &mut by_bytes)?;
    let copies = Copies {
        load,
        out: Box::new(Straight([[0xCC; N]; 2])),
    };
    Ok(Feeds {
        ring: N,
        bytes,
        feeds,
        sides: vec![Box::new(proved), Box::new(copies), Box::new(by_bytes)],
    })
}
