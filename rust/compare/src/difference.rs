//! What differs between the two sides after a call, and what both do that the
//! header does not allow.

use crate::call::{Call, Kind, Patch, Told};
use crate::world::{word, Lent, World};
use model::words::{DONE, WAITING};
use model::{LONGEST_STREAM, RECORDING_HEAD_BYTES};
use std::fmt::Write;

/// A call after both sides made it.
pub struct Made<'a> {
    pub names: [&'static str; 2],
    pub lent: &'a Lent,
    /// The caller's memory, and the call, as they were before.
    pub before: &'a World,
    /// What a look told that came right before, with nothing between.
    pub looked: Option<Told>,
    pub call: &'a Call,
    pub answers: [u32; 2],
    pub calls: &'a [Call; 2],
    pub worlds: &'a [World; 2],
}

/// Something that was lent or handed in, by its name.
type Part = (&'static str, Vec<u32>);

fn widen(bytes: &[u8]) -> Vec<u32> {
    bytes.iter().map(|&byte| byte.into()).collect()
}

fn world_parts(world: &World) -> Vec<Part> {
    vec![
        ("state", world.state.to_vec()),
        ("ring", widen(&world.ring)),
        ("XF words", world.xf.clone()),
        ("vertex buffer", widen(&world.vertex)),
    ]
}

fn patch_parts(names: [&'static str; 2], patch: &Patch) -> [Part; 2] {
    [
        (names[0], patch.masks.clone()),
        (names[1], patch.numbers.clone()),
    ]
}

fn call_parts(call: &Call) -> Vec<Part> {
    match call {
        Call::Fresh => vec![],
        Call::ReadRegister { offset, value } => {
            vec![
                ("offset", vec![u32::from(*offset)]),
                ("value", vec![*value]),
            ]
        }
        Call::WriteRegister { offset, value } => vec![
            ("offset", vec![u32::from(*offset)]),
            ("value", vec![u32::from(*value)]),
        ],
        Call::Feed { bytes } => vec![("bytes", widen(bytes))],
        Call::Look { unit, lacking } | Call::Take { unit, lacking } => {
            vec![("unit", unit.to_vec()), ("lacking", vec![*lacking])]
        }
        Call::Run { limit, report } => {
            vec![("limit", vec![*limit]), ("report", report.to_vec())]
        }
        _ => stateless_parts(call),
    }
}

fn told_parts(told: &Told) -> Vec<Part> {
    vec![
        ("answer", vec![told.answer]),
        ("unit", told.unit.into_iter().flatten().collect()),
        ("lacking", told.lacking.into_iter().collect()),
    ]
}

fn stateless_parts(call: &Call) -> Vec<Part> {
    match call {
        Call::LayOut {
            format,
            sizes,
            offsets,
            length,
        } => vec![
            ("format", format.to_vec()),
            ("sizes", widen(sizes)),
            ("offsets", widen(offsets)),
            ("length", vec![*length]),
        ],
        Call::Decode {
            format,
            attribute,
            vertex,
            values,
        }
        | Call::RawWords {
            format,
            attribute,
            vertex,
            values,
        } => vec![
            ("format", format.to_vec()),
            ("attribute", vec![*attribute]),
            ("vertex", widen(vertex)),
            ("values", values.to_vec()),
        ],
        Call::DecodeAll {
            format,
            vertex,
            values,
        } => vec![
            ("format", format.to_vec()),
            ("vertex", widen(vertex)),
            ("values", values.to_vec()),
        ],
        _ => written_parts(call),
    }
}

fn written_parts(call: &Call) -> Vec<Part> {
    match call {
        Call::WriteCommand {
            command,
            words,
            output,
            written,
        } => vec![
            ("command", command.to_vec()),
            ("words", words.clone()),
            ("output", widen(output)),
            ("written", vec![*written]),
        ],
        Call::CheckPatch { patch } => patch_parts(["masks", "numbers"], patch).to_vec(),
        Call::MergePatches { a, b, result } => [
            patch_parts(["a_masks", "a_numbers"], a),
            patch_parts(["b_masks", "b_numbers"], b),
            patch_parts(["masks", "numbers"], result),
        ]
        .concat(),
        Call::WritePatch {
            patch,
            output,
            written,
        } => {
            let mut parts = patch_parts(["masks", "numbers"], patch).to_vec();
            parts.push(("output", widen(output)));
            parts.push(("written", vec![*written]));
            parts
        }
        _ => recording_parts(call),
    }
}

/// A length's high and low half.
fn halves(length: usize) -> Vec<u32> {
    vec![(length as u64 >> 32) as u32, length as u32]
}

fn recording_parts(call: &Call) -> Vec<Part> {
    match call {
        Call::ReadRecording { file, stream } => {
            vec![("file", widen(file)), ("stream", stream.to_vec())]
        }
        Call::ReadRecordingHead { head, length } => {
            vec![("head", widen(head)), ("length", vec![*length])]
        }
        Call::CheckRecordingRest { length, rest } => {
            vec![("length", vec![*length]), ("rest", halves(*rest))]
        }
        Call::FindRecordingFault { head } => vec![("head", widen(head))],
        Call::WriteRecording {
            stream,
            output,
            written,
        } => vec![
            ("stream", widen(stream)),
            ("output", widen(output)),
            ("written", vec![*written]),
        ],
        Call::WriteRecordingHead {
            length,
            output,
            written,
        } => vec![
            ("length", halves(*length)),
            ("output", widen(output)),
            ("written", vec![*written]),
        ],
        _ => vec![],
    }
}

/// The first part that differs, its first place that does, and both values.
fn first(these: &[Part], those: &[Part]) -> Option<(String, [String; 2])> {
    for ((name, a), (_, b)) in these.iter().zip(those) {
        let longest = a.len().max(b.len());
        let differs = (0..longest).find(|&at| a.get(at) != b.get(at));
        if let Some(at) = differs {
            let value = |list: &[u32]| {
                list.get(at)
                    .map_or("none".into(), |word| format!("{word:X}"))
            };
            return Some((format!("{name}, place {at}"), [value(a), value(b)]));
        }
    }
    None
}

/// What both sides changed alike, from a value that should have stayed.
fn both_changed((place, [before, after]): (String, [String; 2])) -> (String, [String; 2]) {
    let what = format!("nothing, but both changed {place} from {before}");
    (what, [after.clone(), after])
}

/// A list in hex: whole where it is short, else its places that are not 0.
fn list(words: &[u32]) -> String {
    const MOST: usize = 400;
    if words.len() <= 40 {
        let all: Vec<String> = words.iter().map(|word| format!("{word:X}")).collect();
        return format!("[{}]", all.join(" "));
    }
    let places = words.iter().enumerate().filter(|(_, &word)| word != 0);
    let told: Vec<String> = places
        .take(MOST)
        .map(|(at, word)| format!("{at}:{word:X}"))
        .collect();
    format!("{} places, but 0: {}", words.len(), told.join(" "))
}

impl Made<'_> {
    /// The first difference, or the first thing that the header rules out.
    pub fn fault(&self) -> Option<String> {
        let found = self
            .differs()
            .or_else(|| self.breaks_the_header())
            .or_else(|| self.is_unlike_the_look());
        found.map(|(what, values)| self.tell(&what, &values))
    }

    fn differs(&self) -> Option<(String, [String; 2])> {
        let [a, b] = self.answers;
        if a != b {
            return Some(("answer".into(), [a.to_string(), b.to_string()]));
        }
        if self.calls[0] != self.calls[1] {
            return first(&call_parts(&self.calls[0]), &call_parts(&self.calls[1]));
        }
        if self.worlds[0] != self.worlds[1] {
            return first(&world_parts(&self.worlds[0]), &world_parts(&self.worlds[1]));
        }
        None
    }

    /// What both sides did alike against the header: an answer that the call
    /// cannot give, bytes lacking or a recording's length that cannot be, or
    /// something changed that stays.
    fn breaks_the_header(&self) -> Option<(String, [String; 2])> {
        let answer = self.answers[0];
        if !self.call.kind().may_return(answer) {
            let what = "nothing, but the call cannot give this answer".to_string();
            return Some((what, [answer, answer].map(|a| a.to_string())));
        }
        let expected = self.rightful_call();
        if self.calls[0] != expected {
            let found = first(&call_parts(&expected), &call_parts(&self.calls[0]));
            return found.map(both_changed);
        }
        if let Some(lacking) = self.lacking() {
            let room = self.worlds[0].room();
            if !(1..=room).contains(&lacking) {
                let what = format!("nothing, but the bytes lacking are not 1 to the room, {room}");
                return Some((what, [lacking, lacking].map(|n| n.to_string())));
            }
        }
        if let Some(told) = self.wrong_length() {
            let what = "nothing, but both told a length that cannot be".to_string();
            return Some((what, [told, told].map(|n| n.to_string())));
        }
        if let Some(found) = self.wrongly_loaded() {
            return Some(found);
        }
        let part = self.changed_part()?;
        let of = |world| -> Vec<Part> {
            let parts = world_parts(world).into_iter();
            parts.filter(|(name, _)| *name == part).collect()
        };
        first(&of(self.before), &of(&self.worlds[0])).map(both_changed)
    }

    /// What a look or a take tells of the next unit, and a look right before it
    /// told otherwise, on both sides alike.
    fn is_unlike_the_look(&self) -> Option<(String, [String; 2])> {
        let (looked, told) = (self.looked?, self.calls[0].told(self.answers[0])?);
        let (place, [before, after]) = first(&told_parts(&looked), &told_parts(&told))?;
        let what = format!("nothing, but a look right before told {place}, as {before}");
        Some((what, [after.clone(), after]))
    }

    /// The bytes lacking, where the call waits.
    fn lacking(&self) -> Option<u32> {
        match &self.calls[0] {
            _ if self.answers[0] != WAITING => None,
            Call::Look { lacking, .. } | Call::Take { lacking, .. } => Some(*lacking),
            Call::Run { report, .. } => Some(report[1]),
            _ => None,
        }
    }

    /// The place or the length of an accepted recording, where it is not the one that
    /// the lengths of what was handed in give, or of a head not within the limit.
    fn wrong_length(&self) -> Option<u32> {
        let differing = |told: u32, right: usize| (told as usize != right).then_some(told);
        match &self.calls[0] {
            _ if self.answers[0] != DONE => None,
            Call::ReadRecording {
                file,
                stream: [place, length],
            } => differing(*place, RECORDING_HEAD_BYTES)
                .or_else(|| differing(*length, file.len().wrapping_sub(RECORDING_HEAD_BYTES))),
            Call::ReadRecordingHead { length, .. } => {
                (*length as usize > LONGEST_STREAM).then_some(*length)
            }
            Call::WriteRecording {
                stream, written, ..
            } => differing(*written, RECORDING_HEAD_BYTES + stream.len()),
            Call::WriteRecordingHead { written, .. } => differing(*written, RECORDING_HEAD_BYTES),
            _ => None,
        }
    }

    /// Whether a recording was read and accepted.
    fn loads(&self) -> bool {
        let kind = self.call.kind();
        matches!(kind, Kind::ReadRecording | Kind::ReadRecordingHead) && self.answers[0] == DONE
    }

    /// A word that is not as a recording that was read leaves it: the window's and
    /// the control word stay, and those of the draw are 0.
    fn wrongly_loaded(&self) -> Option<(String, [String; 2])> {
        if !self.loads() {
            return None;
        }
        let of = |world: &World| vec![("state", world.state[..=word::LEFT].to_vec())];
        let mut rightful = of(self.before);
        rightful[0].1[word::DRAW_OPEN..].fill(0);
        let (place, [right, found]) = first(&rightful, &of(&self.worlds[0]))?;
        let what = format!("nothing, but a recording that is read leaves {right} in {place}");
        Some((what, [found.clone(), found]))
    }

    /// The call as it may be after its answer: a refused one as it was, a look or
    /// a take that waits with the bytes lacking and else as it was, an accepted
    /// one with its values. A run's report is told whatever the answer.
    fn rightful_call(&self) -> Call {
        let mut rightful = self.call.clone();
        let done = self.answers[0] == DONE;
        let waits = self.answers[0] == WAITING;
        match (&mut rightful, &self.calls[0]) {
            (
                Call::Look { unit, lacking },
                Call::Look {
                    unit: u,
                    lacking: l,
                },
            )
            | (
                Call::Take { unit, lacking },
                Call::Take {
                    unit: u,
                    lacking: l,
                },
            ) => {
                if waits {
                    *lacking = *l;
                }
                if done {
                    *unit = *u;
                }
            }
            (
                Call::Run { report, .. },
                Call::Run {
                    report: [units, l], ..
                },
            ) => {
                *report = [*units, if waits { *l } else { 0 }];
            }
            (rightful, after) if done => take_values(rightful, after),
            _ => {}
        }
        rightful
    }

    /// A part of the caller's memory that changed though it stays.
    fn changed_part(&self) -> Option<&'static str> {
        let (before, after) = (self.before, &self.worlds[0]);
        let kind = self.call.kind();
        let still = match &self.calls[0] {
            Call::Run { report, .. } => report[0] == 0,
            _ => self.answers[0] != DONE,
        };
        let takes = matches!(kind, Kind::Take | Kind::Run) && !still;
        let feeds = kind == Kind::Feed && !still;
        let loads = self.loads();
        if before.ring != after.ring && !feeds {
            Some("ring")
        } else if before.xf != after.xf && !takes && !loads {
            Some("XF words")
        } else if before.vertex != after.vertex && !takes {
            Some("vertex buffer")
        } else if !takes && !loads && kind != Kind::Fresh && !self.state_stays(still) {
            Some("state")
        } else {
            None
        }
    }

    /// A feed changes the write pointer, a register's write one word of 0 to 6,
    /// and other calls that are asked here none.
    fn state_stays(&self, still: bool) -> bool {
        let (before, after) = (&self.before.state, &self.worlds[0].state);
        if still {
            return before == after;
        }
        let mut changed = (0..before.len()).filter(|&at| before[at] != after[at]);
        match (self.call.kind(), changed.next(), changed.next()) {
            (_, None, _) => true,
            (Kind::Feed, Some(at), None) => at == word::WRITE,
            (Kind::WriteRegister, Some(at), None) => at <= word::CONTROL,
            _ => false,
        }
    }

    fn tell(&self, what: &str, values: &[String; 2]) -> String {
        let mut text = format!("{}:", self.call.kind().name());
        for (name, words) in call_parts(self.call) {
            let _ = write!(text, "\n    {name} {}", list(&words));
        }
        if matches!(
            self.call.kind(),
            Kind::ReadRegister
                | Kind::WriteRegister
                | Kind::Feed
                | Kind::Look
                | Kind::Take
                | Kind::Run
                | Kind::ReadRecording
                | Kind::ReadRecordingHead
                | Kind::WriteRecording
                | Kind::WriteRecordingHead
        ) {
            self.tell_world(&mut text);
        }
        let [a, b] = self.names;
        let _ = write!(text, "\n  differs first: {what}");
        let _ = write!(text, "\n    {a}: {}\n    {b}: {}", values[0], values[1]);
        let _ = write!(
            text,
            "\n  answers {} and {}",
            self.answers[0], self.answers[1]
        );
        text
    }

    /// The state before the call, and the ring from its read pointer on.
    fn tell_world(&self, text: &mut String) {
        let Lent { ring, xf, vertex } = self.lent;
        let state = &self.before.state;
        let _ = write!(
            text,
            "\n    lent: ring {ring}, XF words {xf}, vertex {vertex}"
        );
        let _ = write!(text, "\n    state {}", list(state));
        let place = state[word::READ].wrapping_sub(state[word::START]) as usize;
        let pending = self.before.ring.get(place..).unwrap_or_default();
        let shown = &pending[..pending.len().min(40)];
        let _ = write!(
            text,
            "\n    ring from the read pointer {}",
            list(&widen(shown))
        );
    }
}

/// Takes over what an accepted call tells; all else stays as it was.
fn take_values(call: &mut Call, after: &Call) {
    match (call, after) {
        (Call::ReadRegister { value, .. }, Call::ReadRegister { value: told, .. }) => {
            *value = *told;
        }
        (
            Call::LayOut {
                sizes,
                offsets,
                length,
                ..
            },
            Call::LayOut {
                sizes: s,
                offsets: o,
                length: l,
                ..
            },
        ) => (*sizes, *offsets, *length) = (*s, *o, *l),
        (Call::Decode { values, .. }, Call::Decode { values: told, .. })
        | (Call::RawWords { values, .. }, Call::RawWords { values: told, .. }) => *values = *told,
        (Call::DecodeAll { values, .. }, Call::DecodeAll { values: told, .. }) => {
            values.clone_from(told);
        }
        (Call::MergePatches { result, .. }, Call::MergePatches { result: told, .. }) => {
            result.clone_from(told);
        }
        (Call::ReadRecording { stream, .. }, Call::ReadRecording { stream: told, .. }) => {
            *stream = *told;
        }
        (Call::ReadRecordingHead { length, .. }, Call::ReadRecordingHead { length: told, .. }) => {
            *length = *told;
        }
        (call, after) => take_written(call, after),
    }
}

/// "bytes past what is written stay" (document 01)
fn take_written(call: &mut Call, after: &Call) {
    if let (
        Call::WriteCommand {
            output, written, ..
        },
        Call::WriteCommand {
            output: o,
            written: w,
            ..
        },
    )
    | (
        Call::WritePatch {
            output, written, ..
        },
        Call::WritePatch {
            output: o,
            written: w,
            ..
        },
    )
    | (
        Call::WriteRecording {
            output, written, ..
        },
        Call::WriteRecording {
            output: o,
            written: w,
            ..
        },
    )
    | (
        Call::WriteRecordingHead {
            output, written, ..
        },
        Call::WriteRecordingHead {
            output: o,
            written: w,
            ..
        },
    ) = (call, after)
    {
        let front = (*w as usize).min(output.len());
        output[..front].copy_from_slice(&o[..front]);
        *written = *w;
    }
}
