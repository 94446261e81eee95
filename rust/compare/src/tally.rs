//! How many calls of each kind were made, and what they answered.

use crate::call::{Call, Kind, KINDS};
use crate::course::{Mark, Run, CASES, LIES, MOST_ZEROS, WORDS};
use crate::recording::{found_at, has_long_stream, Found, NUMBER_BYTES, SECTIONS};
use model::words::{FormatWords, DONE, VALUE_WORDS, WAITING};
use model::RECORDING_HEAD_BYTES;
use std::collections::BTreeMap;

/// What a unit can be.
const UNITS: [u32; 13] = [
    0x00, VERTEX, 0x08, 0x10, 0x20, 0x28, 0x30, 0x38, 0x40, 0x44, 0x48, 0x61, 0x80,
];
/// A unit that is no command to write.
const VERTEX: u32 = 0x01;
/// The offset of the count's high half.
const COUNT_HIGH: u16 = 0x032;
/// What an attribute decodes to.
const VALUES: [u32; 9] = [0, 1, 2, 3, 4, 5, 6, 7, 8];

/// The metrics opcode until document 02's L2, and the calls that meet it.
const OLD_METRICS: u32 = 0x68;
const MEET_OLD_METRICS: [Kind; 4] = [Kind::Look, Kind::Take, Kind::Run, Kind::WriteCommand];
const UNKNOWN_OPCODE: u32 = 6;
const UNWRITABLE: u32 = 18;
const FILE_SHORT: u32 = 22;

const NORMAL: u32 = 10;
/// The formats of a normal, by number.
const FORMATS: [&str; 5] = ["u8", "s8", "u16", "s16", "f32"];
/// Count bit and bit 30 of a normal's VAT.
const COUNTS_AND_BITS: [(u32, u32); 4] = [(0, 0), (0, 1), (1, 0), (1, 1)];
/// The calls that take a normal apart.
const TAKE_NORMALS: [Kind; 3] = [Kind::Decode, Kind::DecodeAll, Kind::RawWords];

type Counts<K> = BTreeMap<K, u64>;

/// A direct normal: the call that took it apart, its format, count bit, bit 30.
type Normal = (Kind, u32, (u32, u32));

#[derive(Default)]
pub struct Tally {
    pub calls: u64,
    answers: Counts<(Kind, u32)>,
    /// By the kind of the unit that a look showed.
    shown: Counts<u32>,
    /// By the kind of the unit that a take did.
    units: Counts<u32>,
    /// Takes right after a look, by their answer.
    pairs: Counts<u32>,
    /// By the kind of the command that was written.
    written: Counts<u32>,
    /// 68, refused as an opcode or as a kind to write.
    old_metrics: Counts<Kind>,
    /// By the kind of the attribute that was decoded.
    values: Counts<u32>,
    /// By the kind of an attribute of a vertex that was decoded whole.
    whole: Counts<u32>,
    /// By the number of raw words told.
    raw_words: Counts<u32>,
    normals: Counts<Normal>,
    /// Waiting answers by the bytes lacking.
    lacking: Counts<u32>,
    /// Units that runs did.
    run_units: u64,
    /// What runs went through.
    marks: Counts<Mark>,
    /// What was found of recordings.
    found: Counts<Found>,
    /// Reads of a count's high half that was not 0.
    high_counts: u64,
}

fn add<K: Ord>(counts: &mut Counts<K>, key: K) {
    *counts.entry(key).or_default() += 1;
}

/// How often; 0 where it is not there.
fn times<K: Ord>(counts: &Counts<K>, key: &K) -> u64 {
    counts.get(key).copied().unwrap_or(0)
}

impl Tally {
    /// Counts a call as it is after its answer, with the byte that the read
    /// pointer is at then.
    pub fn count(&mut self, call: &Call, answer: u32, next: Option<u8>) {
        self.calls += 1;
        match call {
            // A byte of the file, and no answer.
            Call::FindRecordingFault { .. } => add(&mut self.answers, (call.kind(), DONE)),
            _ => add(&mut self.answers, (call.kind(), answer)),
        }
        match call {
            Call::Look { .. } | Call::Take { .. } | Call::Run { .. } => {
                self.count_units(call, answer, next);
            }
            Call::Decode { values, .. } if answer == DONE => add(&mut self.values, values[0]),
            Call::DecodeAll { values, .. } if answer == DONE => {
                for value in values.chunks_exact(VALUE_WORDS) {
                    add(&mut self.whole, value[0]);
                }
            }
            Call::RawWords { values, .. } if answer == DONE => add(&mut self.raw_words, values[0]),
            Call::WriteCommand { command, .. } => match (command[0], answer) {
                (kind, DONE) => add(&mut self.written, kind),
                (OLD_METRICS, UNWRITABLE) => add(&mut self.old_metrics, Kind::WriteCommand),
                _ => {}
            },
            Call::FindRecordingFault { head } => {
                add(&mut self.found, found_at(head.len(), answer as usize));
            }
            Call::ReadRecording { file, .. }
                if answer == FILE_SHORT && file.len() >= RECORDING_HEAD_BYTES =>
            {
                add(&mut self.found, Found::StreamCut);
            }
            _ => {}
        }
        if answer == DONE {
            self.count_normal(call);
            self.count_long(call);
        }
    }

    /// Counts of an accepted call what no call had before document 02's L9.
    fn count_long(&mut self, call: &Call) {
        if has_long_stream(call) {
            add(&mut self.found, Found::Long(call.kind()));
        }
        if let Call::ReadRegister { offset, value } = *call {
            self.high_counts += u64::from(offset == COUNT_HIGH && value != 0);
        }
    }

    fn count_units(&mut self, call: &Call, answer: u32, next: Option<u8>) {
        match call {
            Call::Look { unit, .. } if answer == DONE => add(&mut self.shown, unit[0]),
            Call::Take { unit, .. } if answer == DONE => add(&mut self.units, unit[0]),
            Call::Look { lacking, .. } | Call::Take { lacking, .. } if answer == WAITING => {
                add(&mut self.lacking, *lacking);
            }
            Call::Run { report, .. } => {
                self.run_units += u64::from(report[0]);
                if answer == WAITING {
                    add(&mut self.lacking, report[1]);
                }
            }
            _ => {}
        }
        if answer == UNKNOWN_OPCODE && next.map(u32::from) == Some(OLD_METRICS) {
            add(&mut self.old_metrics, call.kind());
        }
    }

    /// Counts what a run went through that both sides did alike.
    pub fn count_course(&mut self, run: &Run) {
        for mark in run.marks() {
            add(&mut self.marks, mark);
        }
    }

    /// Counts a take that told what a look right before it did.
    pub fn count_pair(&mut self, answer: u32) {
        add(&mut self.pairs, answer);
    }

    fn count_normal(&mut self, call: &Call) {
        let (format, attribute) = match call {
            Call::Decode {
                format, attribute, ..
            }
            | Call::RawWords {
                format, attribute, ..
            } => (format, *attribute),
            Call::DecodeAll { format, .. } => (format, NORMAL),
            _ => return,
        };
        if attribute == NORMAL && normal_is_direct(format) {
            let bits = |from: u32, mask: u32| format[2] >> from & mask;
            let normal = (call.kind(), bits(10, 7), (bits(9, 1), bits(30, 1)));
            add(&mut self.normals, normal);
        }
    }

    fn of_kind(&self, kind: Kind) -> u64 {
        let range = (kind, 0)..=(kind, u32::MAX);
        self.answers.range(range).map(|(_, count)| count).sum()
    }

    /// All that was not reached: of the answers, what no run went through, and what
    /// was found of no recording.
    pub fn unreached(&self) -> Vec<String> {
        let mut unreached = self.unreached_answers();
        let mut marks = Mark::all();
        marks.retain(|mark| !self.marks.contains_key(mark));
        unreached.extend(marks.iter().map(|mark| format!("a run: {}", mark.told())));
        let mut found = Found::all();
        found.retain(|found| !self.found.contains_key(found));
        unreached.extend(found.into_iter().map(Found::told));
        if self.high_counts == 0 {
            unreached.push("a count whose high half is not 0".into());
        }
        unreached
    }

    /// The answers that a call can give and did not, and the kinds of units,
    /// commands, attributes and normals that did not come up.
    pub fn unreached_answers(&self) -> Vec<String> {
        let mut unreached = Vec::new();
        for kind in KINDS {
            for &answer in kind.answers() {
                if !self.answers.contains_key(&(kind, answer)) {
                    unreached.push(format!("{} answering {}", kind.name(), told(answer)));
                }
            }
        }
        for &answer in Kind::Take.answers() {
            if !self.pairs.contains_key(&answer) {
                unreached.push(format!("a look and a take answering {}", told(answer)));
            }
        }
        unreached.extend(self.unreached_units());
        for kind in MEET_OLD_METRICS {
            if !self.old_metrics.contains_key(&kind) {
                unreached.push(format!("{} refusing {OLD_METRICS:02X}", kind.name()));
            }
        }
        for value in VALUES {
            if !self.values.contains_key(&value) {
                unreached.push(format!("an attribute of kind {value}"));
            }
            if !self.whole.contains_key(&value) {
                unreached.push(format!("an attribute of kind {value} of a whole vertex"));
            }
        }
        unreached.extend(self.unreached_normals());
        unreached
    }

    fn unreached_units(&self) -> Vec<String> {
        let mut unreached = Vec::new();
        for unit in UNITS {
            if !self.shown.contains_key(&unit) {
                unreached.push(format!("a look at a unit of kind {unit:02X}"));
            }
            if !self.units.contains_key(&unit) {
                unreached.push(format!("a take of a unit of kind {unit:02X}"));
            }
            if unit != VERTEX && !self.written.contains_key(&unit) {
                unreached.push(format!("a command of kind {unit:02X} written"));
            }
        }
        unreached
    }

    fn unreached_normals(&self) -> Vec<String> {
        let mut unreached = Vec::new();
        for kind in TAKE_NORMALS {
            for (format, name) in (0..).zip(FORMATS) {
                for bits in COUNTS_AND_BITS {
                    if !self.normals.contains_key(&(kind, format, bits)) {
                        let (count, bit_30) = bits;
                        let call = kind.name();
                        unreached.push(format!(
                            "{call} of a normal of {name}, count bit {count}, bit 30 {bit_30}"
                        ));
                    }
                }
            }
        }
        unreached
    }

    pub fn print(&self) {
        println!("calls and their answers (0 accepted or done, W waiting):");
        for kind in KINDS {
            let range = (kind, 0)..=(kind, u32::MAX);
            let answers: String = self
                .answers
                .range(range)
                .map(|(&(_, answer), count)| format!("  {}:{count}", told(answer)))
                .collect();
            println!("  {:<20}{:>9} {answers}", kind.name(), self.of_kind(kind));
        }
        println!("units shown by looks, by kind:{}", list(&self.shown));
        println!("units done by takes, by kind:{}", list(&self.units));
        let pairs: u64 = self.pairs.values().sum();
        println!("takes right after a look, that told the same: {pairs}");
        println!("units done by runs: {}", self.run_units);
        println!("commands written, by kind:{}", list(&self.written));
        let old: String = MEET_OLD_METRICS
            .map(|kind| format!("  {}:{}", kind.name(), times(&self.old_metrics, &kind)))
            .concat();
        println!("{OLD_METRICS:02X} refused, by call:{old}");
        println!("attributes decoded, by kind:{}", list(&self.values));
        println!("those of whole vertices:{}", list(&self.whole));
        println!("raw words, by how many:{}", list(&self.raw_words));
        println!("direct normals (of 3 with bit 30 clear, set; of 9 with it clear, set):");
        for kind in TAKE_NORMALS {
            println!("  {:<15}{}", kind.name(), self.list_normals(kind));
        }
        let most = self.lacking.keys().next_back().copied().unwrap_or(0);
        println!(
            "waiting: {} numbers of bytes lacking, at most {most}",
            self.lacking.len()
        );
        println!("counts whose high half is not 0: {}", self.high_counts);
        self.print_marks();
        self.print_found();
    }

    fn print_found(&self) {
        let of = |found: Found| times(&self.found, &found);
        let (good, cut) = (of(Found::Nothing), of(Found::StreamCut));
        println!("recordings with a good head: {good}; cut in the stream: {cut}");
        let long: String = Found::all()
            .into_iter()
            .filter_map(|found| match found {
                Found::Long(kind) => Some(format!("  {}:{}", kind.name(), of(found))),
                _ => None,
            })
            .collect();
        println!("streams above 65,535 bytes, by call:{long}");
        println!("faults of heads (wrong; cut after 0, 1, 2, 3 bytes of a number):");
        for (at, section) in SECTIONS.iter().enumerate() {
            let cuts: Vec<String> = (0..NUMBER_BYTES)
                .map(|bytes| of(Found::Cut(at, bytes)).to_string())
                .collect();
            let wrong = of(Found::Wrong(at));
            println!("  {:<23}{wrong:>6};  {}", section.name, cuts.join(", "));
        }
    }

    fn print_marks(&self) {
        let of = |mark: Mark| times(&self.marks, &mark);
        println!(
            "draws by runs after a load of one word of their format (of other bytes, refused):"
        );
        let words: String = (0..)
            .zip(WORDS)
            .map(|(at, word)| {
                let (other, refused) = (of(Mark::DrawAfter(at)), of(Mark::RefusedAfter(at)));
                format!("  {word}:{other},{refused}")
            })
            .collect();
        println!("{words}");
        let addresses = (0..=255).filter(|&address| of(Mark::CpLoad(address)) != 0);
        println!("CP addresses between draws of a run: {}", addresses.count());
        println!("lengths of zeros in a row that a run took, 1 to {MOST_ZEROS}:");
        for lie in LIES {
            let lengths = (1..=MOST_ZEROS).filter(|&zeros| of(Mark::Zeros(zeros, lie)) != 0);
            println!("  {:<22}{}", lie.told(), lengths.count());
        }
        println!("runs with:");
        for case in CASES {
            println!("  {:>8} {case}", of(Mark::Case(case)));
        }
    }

    /// The normals that a call took apart, by format.
    fn list_normals(&self, kind: Kind) -> String {
        let of_format = |(format, name)| {
            let counts =
                COUNTS_AND_BITS.map(|bits| times(&self.normals, &(kind, format, bits)).to_string());
            format!("  {name}:{}", counts.join(","))
        };
        (0..).zip(FORMATS).map(of_format).collect()
    }
}

/// VCD group 0, bits 11 and 12: 1 is direct.
fn normal_is_direct(format: &FormatWords) -> bool {
    format[0] >> 11 & 3 == 1
}

fn told(answer: u32) -> String {
    match answer {
        WAITING => "W".into(),
        _ => answer.to_string(),
    }
}

fn list(counts: &Counts<u32>) -> String {
    counts
        .iter()
        .map(|(key, count)| format!("  {key:02X}:{count}"))
        .collect()
}
