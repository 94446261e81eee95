//! A machine brought to a row's start, what it does there, and the comparison
//! of the machines before anything is timed.

#[cfg(hand_c)]
use crate::machine::Hand;
use crate::machine::{Machine, Plain, Proved};
use crate::streams::Stream;
use crate::timing::{Side, Sides};
use crate::which::Which;
use model::words::{StateWords, WAITING};
use model::MOST_UNITS as LIMIT;
use std::hint::black_box;

pub const START: u32 = 0x1000;

/// Where both pointers begin in a ring of a size, counted from its start: a stream that
/// fills the ring wraps. In one of 65,536 bytes it is place 40,001.
pub const fn place(ring: usize) -> usize {
    ring * 625 / 1024 + 1
}

/// What is timed.
#[derive(Clone)]
pub enum Work {
    /// One run of the largest limit; its units are counted.
    Run,
    /// So many single takes.
    Takes(u32),
    /// So many units, each looked at and then taken.
    LooksAndTakes(u32),
    /// The same bytes fed so often; the feeds are counted.
    Feeds(Vec<u8>, u32),
    /// So many runs of limit 0.
    EmptyRuns(u32),
    /// The stream in pieces of so many bytes, a feed and a run of each; the
    /// pieces are counted.
    Bursts(Stream, usize),
    /// The same, but its units are counted.
    Through(Stream, usize),
}

/// How a row starts and what it does.
pub struct Input {
    /// Run before the row's own start: registers.
    pub preamble: Stream,
    /// What waits in the ring.
    pub stream: Stream,
    pub work: Work,
}

impl Input {
    /// How many units the work must do.
    pub fn units(&self) -> u64 {
        match &self.work {
            Work::Run => u64::from(self.stream.units),
            Work::Takes(times)
            | Work::LooksAndTakes(times)
            | Work::Feeds(_, times)
            | Work::EmptyRuns(times) => u64::from(*times),
            Work::Bursts(stream, size) => stream.bytes.chunks(*size).len() as u64,
            Work::Through(stream, _) => u64::from(stream.units),
        }
    }
}

/// A machine at a row's start.
struct Player<M> {
    machine: M,
    work: Work,
}

/// Does something so often; how often.
#[inline(always)]
fn repeat(times: u32, mut something: impl FnMut()) -> u64 {
    for _ in 0..times {
        something();
    }
    u64::from(times)
}

impl<M: Machine> Side for Player<M> {
    fn reset(&mut self) {
        self.machine.reset();
    }

    fn work(&mut self) -> u64 {
        let machine = black_box(&mut self.machine);
        match &self.work {
            Work::Run => u64::from(black_box(machine.run(black_box(LIMIT)))[1]),
            Work::Takes(times) => repeat(*times, || {
                black_box(machine.take());
            }),
            Work::LooksAndTakes(times) => repeat(*times, || {
                black_box(machine.look());
                black_box(machine.take());
            }),
            Work::Feeds(bytes, times) => repeat(*times, || {
                black_box(machine.feed(black_box(bytes)));
            }),
            Work::EmptyRuns(times) => repeat(*times, || {
                black_box(machine.run(black_box(0)));
            }),
            Work::Bursts(stream, size) => burst(machine, stream, *size),
            Work::Through(stream, size) => {
                burst(machine, stream, *size);
                u64::from(stream.units)
            }
        }
    }
}

/// A feed and a run of each piece; how many there were.
#[inline(always)]
fn burst<M: Machine>(machine: &mut M, stream: &Stream, size: usize) -> u64 {
    let bursts = stream.bytes.chunks(size);
    let count = bursts.len();
    for burst in bursts {
        black_box(machine.feed(black_box(burst)));
        black_box(machine.run(black_box(LIMIT)));
    }
    count as u64
}

/// All that can be seen of a machine from its fresh state to the row's end.
#[derive(Clone)]
struct Seen {
    answers: Vec<u32>,
    units: u64,
    state: StateWords,
    ring: Vec<u8>,
    xf: Vec<u32>,
    vertex: Vec<u8>,
}

fn write_word<M: Machine>(machine: &mut M, offset: u16, word: u32) -> [u32; 2] {
    [
        machine.write_register(offset, word as u16),
        machine.write_register(offset + 2, (word >> 16) as u16),
    ]
}

/// Brings a machine to a row's start; its answers on the way.
fn set_up<M: Machine>(input: &Input) -> (M, Vec<u32>) {
    let mut machine = M::fresh();
    let mut answers = vec![machine.write_register(0x002, 1)];
    for (offset, word) in [(0x20, START), (0x24, START + M::RING as u32)] {
        answers.extend(write_word(&mut machine, offset, word));
    }
    for (offset, word) in [(0x34, START), (0x38, START)] {
        answers.extend(write_word(&mut machine, offset, word));
    }
    answers.push(machine.feed(&input.preamble.bytes));
    answers.extend(machine.run(LIMIT));
    for offset in [0x34, 0x38] {
        let pointer = START + place(M::RING) as u32;
        answers.extend(write_word(&mut machine, offset, pointer));
    }
    answers.push(machine.feed(&input.stream.bytes));
    for offset in [0x000, 0x030, 0x032] {
        answers.extend(machine.read_register(offset));
    }
    machine.save();
    (machine, answers)
}

/// A machine with an empty ring, kept for `reset`.
pub fn empty<M: Machine>() -> M {
    let nothing = Input {
        preamble: Stream::default(),
        stream: Stream::default(),
        work: Work::Run,
    };
    set_up(&nothing).0
}

/// What takes tell, one after the other, and how many of them did a unit.
fn takes_told<M: Machine>(machine: &mut M, times: u32) -> (Vec<u32>, u64) {
    let takes: Vec<[u32; 8]> = (0..times).map(|_| M::told_words(&machine.take())).collect();
    let done = takes.iter().filter(|words| words[0] == 0).count();
    (takes.concat(), done as u64)
}

/// What a look at each unit and the take after it tell; a unit counts where both
/// tell the same.
fn looks_and_takes_told<M: Machine>(machine: &mut M, times: u32) -> (Vec<u32>, u64) {
    let mut told = Vec::new();
    let mut done = 0;
    for _ in 0..times {
        let look = M::told_words(&machine.look());
        let take = M::told_words(&machine.take());
        done += u64::from(take[0] == 0 && look == take);
        told.extend([look, take].concat());
    }
    (told, done)
}

/// Does the work once and tells every answer, and how many units were done.
fn answers_of<M: Machine>(machine: &mut M, work: &Work) -> (Vec<u32>, u64) {
    match work {
        Work::Run => {
            let answer = machine.run(LIMIT);
            let units = if answer[0] == WAITING { answer[1] } else { 0 };
            (answer.to_vec(), u64::from(units))
        }
        Work::Takes(times) => takes_told(machine, *times),
        Work::LooksAndTakes(times) => looks_and_takes_told(machine, *times),
        Work::Feeds(bytes, times) => {
            let feeds: Vec<u32> = (0..*times).map(|_| machine.feed(bytes)).collect();
            let done = feeds.iter().filter(|&&answer| answer == 0).count();
            (feeds, done as u64)
        }
        Work::EmptyRuns(times) => {
            let runs: Vec<[u32; 3]> = (0..*times).map(|_| machine.run(0)).collect();
            let done = runs.iter().filter(|&&run| run == [0, 0, 0]).count();
            (runs.concat(), done as u64)
        }
        Work::Bursts(stream, size) => bursts_told(machine, stream, *size),
        Work::Through(stream, size) => {
            let (answers, bursts) = bursts_told(machine, stream, *size);
            (answers, if bursts == 0 { 0 } else { stream.units.into() })
        }
    }
}

/// Every answer of a stream in bursts; no burst counts unless all were fed and
/// all units of the stream were done.
fn bursts_told<M: Machine>(machine: &mut M, stream: &Stream, size: usize) -> (Vec<u32>, u64) {
    let mut answers = Vec::new();
    let mut units = 0;
    let bursts = stream.bytes.chunks(size);
    let count = bursts.len() as u64;
    for burst in bursts {
        let fed = machine.feed(burst);
        let run = machine.run(LIMIT);
        units += run[1];
        answers.push(fed);
        answers.extend(run);
    }
    let good = answers.chunks(4).all(|told| told[..2] == [0, WAITING]);
    (
        answers,
        if good && units == stream.units {
            count
        } else {
            0
        },
    )
}

/// A player at the row's start, and what was seen of the machine as it did the
/// row's work once.
fn prepare<M: Machine + 'static>(input: &Input) -> (Box<dyn Side>, Seen) {
    let (mut machine, mut answers) = set_up::<M>(input);
    let (more, units) = answers_of(&mut machine, &input.work);
    answers.extend(more);
    let lent = machine.lent();
    let seen = Seen {
        answers,
        units,
        state: machine.state_words(),
        ring: lent.ring.to_vec(),
        xf: lent.xf.to_vec(),
        vertex: lent.vertex.to_vec(),
    };
    machine.reset();
    let work = input.work.clone();
    (Box::new(Player { machine, work }), seen)
}

/// What differs first.
fn difference(these: &Seen, those: &Seen) -> Option<String> {
    let parts = [
        ("answers", these.answers == those.answers),
        ("units", these.units == those.units),
        ("ring", these.ring == those.ring),
        ("XF words", these.xf == those.xf),
        ("vertex buffer", these.vertex == those.vertex),
    ];
    if let Some((part, _)) = parts.iter().find(|part| !part.1) {
        return Some(format!("the {part} differ"));
    }
    let words = these.state.iter().zip(&those.state);
    let word = words.into_iter().position(|(a, b)| a != b)?;
    Some(format!("state word {word} differs"))
}

/// The sides of a row that are asked for, with rings of so many bytes, once all did the
/// same and all that was planned.
pub fn sides<const N: usize>(input: &Input, which: &[Which]) -> Result<Sides, String> {
    let mut sides: Sides = Vec::new();
    let mut first = None;
    for &which in which {
        let (side, seen) = match which {
            Which::Proved => prepare::<Proved<N>>(input),
            #[cfg(hand_c)]
            Which::C => prepare::<Hand<N>>(input),
            Which::Rust => prepare::<Plain<N>>(input),
        };
        sides.push(side);
        if seen.units != input.units() {
            let (done, planned) = (seen.units, input.units());
            let name = which.name();
            return Err(format!("{name}: {done} units were done, {planned} planned"));
        }
        let first = first.get_or_insert_with(|| (which, seen.clone()));
        if let Some(what) = difference(&first.1, &seen) {
            let (these, those) = (first.0.name(), which.name());
            return Err(format!("{these} and {those}: {what}"));
        }
    }
    Ok(sides)
}
