//! Document 02's L4, of the proved library and of the twin, in a ring of 256
//! bytes: what a look, a take and a run that wait say is lacking of a unit of every
//! kind, cut at every byte, from several places of the ring; that a loader which
//! feeds just that many has every feed accepted, and three are enough for a unit;
//! and that a run which ends otherwise says nothing is lacking.
#![forbid(unsafe_code)]

use compare::side::{Proved, Side, Twin};
use compare::world::word;
use model::words::{StateWords, DONE, STATE_WORDS, WAITING};

const START: u32 = 0x1000;
const SIZE: usize = 256;
/// From the first place, from the middle, and round the end.
const PLACES: [usize; 5] = [0, 100, SIZE - 70, SIZE - 5, SIZE - 1];
const MOST_UNITS: u32 = 1_048_575;
/// What is lent holds this before a call; no answer is this number.
const BEFORE: u32 = 0x5A5A_5A5A;
const XF_LOAD: u8 = 0x10;
const XF_HEAD: usize = 5;

struct Machine {
    side: Box<dyn Side>,
    state: StateWords,
    ring: [u8; SIZE],
    xf: Vec<u32>,
    vertex: [u8; 129],
}

impl Machine {
    /// An empty ring from a place on; vertices of format 0 have 12 bytes, a
    /// position of three f32, and the position of format 1 has an unknown format.
    fn new(side: Box<dyn Side>, place: usize) -> Machine {
        let mut state = [0; STATE_WORDS];
        side.fresh(&mut state);
        state[word::START] = START;
        state[word::END] = START + SIZE as u32;
        state[word::WRITE] = START + place as u32;
        state[word::READ] = START + place as u32;
        state[word::CONTROL] = 1;
        state[word::VCD_0] = 0x200;
        state[word::VAT] = 9;
        state[word::VAT + 3] = 5 << 1;
        Machine {
            side,
            state,
            ring: [0xEE; SIZE],
            xf: vec![0; 4184],
            vertex: [0; 129],
        }
    }

    fn open_draw(&mut self, vertices: u32) {
        self.state[word::DRAW_OPEN] = 1;
        self.state[word::LEFT] = vertices;
    }

    /// "size minus 1 minus count"
    fn room(&self) -> u32 {
        let held = self.state[word::WRITE] + SIZE as u32 - self.state[word::READ];
        SIZE as u32 - 1 - held % SIZE as u32
    }

    fn feed(&mut self, bytes: &[u8]) {
        let answer = self.side.feed(&mut self.state, &mut self.ring, bytes);
        assert_eq!(answer, DONE, "{}: {} bytes", self.side.name(), bytes.len());
    }

    /// The answer of a look, and the bytes lacking.
    fn look(&mut self) -> (u32, u32) {
        let mut lacking = BEFORE;
        let answer = self.side.look(
            &mut self.state,
            &self.ring,
            &mut self.xf,
            &mut self.vertex,
            &mut [BEFORE; 6],
            &mut lacking,
        );
        (answer, lacking)
    }

    /// The same of a take.
    fn take(&mut self) -> (u32, u32) {
        let mut lacking = BEFORE;
        let answer = self.side.take(
            &mut self.state,
            &self.ring,
            &mut self.xf,
            &mut self.vertex,
            &mut [BEFORE; 6],
            &mut lacking,
        );
        (answer, lacking)
    }

    /// The answer of a run, its units, and the bytes lacking.
    fn run(&mut self, limit: u32) -> (u32, u32, u32) {
        let mut report = [BEFORE; 2];
        let answer = self.side.run(
            &mut self.state,
            &self.ring,
            &mut self.xf,
            &mut self.vertex,
            limit,
            &mut report,
        );
        (answer, report[0], report[1])
    }

    /// A look and a take wait for so many bytes, and so does a run.
    #[track_caller]
    fn waits(&mut self, lacking: usize) {
        let lacking = lacking as u32;
        let told = [self.look(), self.take()];
        assert_eq!(told, [(WAITING, lacking); 2], "{}", self.side.name());
        assert_eq!(self.run(MOST_UNITS), (WAITING, 0, lacking));
        assert!((1..=self.room()).contains(&lacking));
    }

    /// A look, a take and a run are refused, and tell no bytes.
    #[track_caller]
    fn refuses(&mut self, refusal: u32) {
        let told = [self.look(), self.take()];
        assert_eq!(told, [(refusal, BEFORE); 2], "{}", self.side.name());
        assert_eq!(self.run(MOST_UNITS), (refusal, 0, 0));
    }
}

fn machines(place: usize) -> [Machine; 2] {
    [
        Machine::new(Box::new(Proved), place),
        Machine::new(Box::new(Twin), place),
    ]
}

/// An XF load of so many words.
fn xf_load(words: u8) -> Vec<u8> {
    let mut unit = vec![XF_LOAD, 0, words - 1, 0, 7];
    unit.resize(XF_HEAD + 4 * usize::from(words), 0xA5);
    unit
}

/// A unit of every kind, no draw being open; the last opens one of two vertices.
fn commands() -> Vec<Vec<u8>> {
    let mut units = vec![
        vec![0x00],
        vec![0x44],
        vec![0x48],
        vec![0x08, 0x30, 1, 2, 3, 4],
        xf_load(1),
        xf_load(4),
        xf_load(16),
    ];
    units.extend([0x20, 0x28, 0x30, 0x38].map(|op| vec![op, 0, 3, 0xB0, 0]));
    units.push(vec![0x40, 1, 2, 3, 4, 5, 6, 7, 8]);
    units.push(vec![0x61, 0x41, 1, 2, 3]);
    units.push(vec![0x90, 0, 2]);
    units
}

/// All of these and the two vertices of the draw.
fn units() -> Vec<Vec<u8>> {
    let mut units = commands();
    units.extend([vec![1; 12], vec![2; 12]]);
    units
}

/// "one for an empty ring with no draw open, then the rest of the unit, for an XF
/// load first of its five-byte head, then of its words"
fn lacking(unit: &[u8], there: usize) -> usize {
    match there {
        0 => 1,
        1..XF_HEAD if unit[0] == XF_LOAD => XF_HEAD - there,
        _ => unit.len() - there,
    }
}

#[test]
fn a_command_lacks_the_rest_of_its_stage() {
    for unit in commands() {
        for there in 0..unit.len() {
            for place in PLACES {
                for mut machine in machines(place) {
                    machine.feed(&unit[..there]);
                    machine.waits(lacking(&unit, there));
                }
            }
        }
    }
}

/// "in an open draw, the rest of the vertex"
#[test]
fn a_vertex_lacks_its_rest() {
    for there in 0..12 {
        for place in PLACES {
            for mut machine in machines(place) {
                machine.open_draw(2);
                machine.feed(&[XF_LOAD; 12][..there]);
                machine.waits(12 - there);
            }
        }
    }
}

/// A first byte that is no opcode, a CP address that is none, an XF load past
/// the end and a layout that is refused are refused as soon as they are seen.
#[test]
fn a_refusal_comes_before_waiting() {
    for mut machine in machines(0) {
        machine.feed(&[0x10, 0, 1, 0x10]);
        machine.waits(1);
        machine.feed(&[0x57]);
        machine.refuses(8);
    }
    for (bytes, refusal) in [(&[0x68][..], 6), (&[0x08, 0x78], 7), (&[0x91], 10)] {
        for mut machine in machines(0) {
            machine.feed(bytes);
            machine.refuses(refusal);
        }
    }
    for mut machine in machines(0) {
        machine.state[word::VCD_0] = 0;
        machine.open_draw(2);
        machine.refuses(9);
    }
}

/// Although the ring is empty then.
#[test]
fn a_run_ended_by_its_limit_tells_none() {
    for mut machine in machines(SIZE - 1) {
        assert_eq!(machine.run(0), (DONE, 0, 0));
        machine.feed(&[0x00, 0x00]);
        assert_eq!(machine.run(2), (DONE, 2, 0));
        machine.waits(1);
    }
}

/// Feeds just what is said to be lacking, with no feed for a unit after the third.
fn load_by(tell: fn(&mut Machine) -> (u32, u32)) {
    let stream = units().concat();
    for place in 0..SIZE {
        for mut machine in machines(place) {
            let (mut at, mut done, mut feeds) = (0, 0, 0);
            while at < stream.len() || done < units().len() {
                match tell(&mut machine) {
                    (WAITING, lacking) => {
                        assert!((1..=machine.room()).contains(&lacking));
                        let end = at + lacking as usize;
                        machine.feed(&stream[at..end]);
                        (at, feeds) = (end, feeds + 1);
                        assert!(feeds <= 3, "{}: unit {done}", machine.side.name());
                    }
                    (answer, _) => {
                        assert_eq!(answer, DONE);
                        (done, feeds) = (done + 1, 0);
                    }
                }
            }
            machine.waits(1);
        }
    }
}

#[test]
fn a_loader_that_takes() {
    load_by(Machine::take);
}

/// By looks alone: no unit is tried to be taken before it is all there.
#[test]
fn a_loader_that_looks() {
    load_by(|machine| match machine.look() {
        (DONE, _) => machine.take(),
        told => told,
    });
}

/// The same with runs: no more than three feeds for each unit, and the XF loads
/// take three.
#[test]
fn a_loader_that_runs() {
    let stream = units().concat();
    for mut machine in machines(200) {
        let (mut at, mut done, mut feeds) = (0, 0, 0);
        loop {
            let (answer, units, lacking) = machine.run(MOST_UNITS);
            assert_eq!(answer, WAITING);
            done += units;
            if at == stream.len() {
                break;
            }
            assert!((1..=machine.room()).contains(&lacking));
            let end = at + lacking as usize;
            machine.feed(&stream[at..end]);
            (at, feeds) = (end, feeds + 1);
            assert!(feeds <= 3 * (done + 1));
        }
        assert_eq!(done as usize, units().len());
        // One feed for each of the three units of one byte, three for each of the
        // three XF loads, one for each of the two vertices, two for each other unit.
        assert_eq!(feeds, 3 + 3 * 3 + 2 + 2 * 8);
    }
}
