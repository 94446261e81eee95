//! What a run went through, read off the ring and the registers that it began
//! with: that which taking many units at once has to heed.

use crate::before::{LARGEST_BEFORE, MOST_BEFORE};
use crate::world::{word, World};
use model::words::{DONE, WAITING};
use model::{layout, CpRegisters, MOST_UNITS};

/// Something that a run went through.
#[derive(Clone, Copy, Debug, PartialEq, Eq, PartialOrd, Ord)]
pub enum Mark {
    /// A draw whose vertices have not the bytes of those of its format before,
    /// after loads of this one of its format's five words alone.
    DrawAfter(usize),
    /// The same, but refused by 9 or 10.
    RefusedAfter(usize),
    /// A CP load of this address between draws, or refused after one.
    CpLoad(u8),
    /// So many zeros in a row.
    Zeros(usize, Lie),
    Case(&'static str),
}

/// Where in the ring something lies.
#[derive(Clone, Copy, Debug, PartialEq, Eq, PartialOrd, Ord)]
pub enum Lie {
    Within,
    UpToTheEnd,
    OverTheEnd,
}

pub const LIES: [Lie; 3] = [Lie::Within, Lie::UpToTheEnd, Lie::OverTheEnd];

/// The words of a format, as `FormatWords` has them.
pub const WORDS: [&str; 5] = [
    "VCD word 0",
    "VCD word 1",
    "VAT group 0",
    "VAT group 1",
    "VAT group 2",
];
/// A load of another format's VAT.
const OTHER: usize = WORDS.len();

/// The most zeros in a row that are asked for.
pub const MOST_ZEROS: usize = 300;

const HEAD_OVER_END: &str = "a draw's head over the ring's end";
const VERTEX_OVER_END: &str = "a vertex over the ring's end";
const VERTEX_UP_TO_END: &str = "a vertex up to the ring's end, with one after it";
const SHORTER_VERTEX: &str = "a vertex after a longer one of another draw";
const LIMIT_AFTER_HEAD: &str = "a limit after a draw's head, with a vertex after it";
const LIMIT_IN_DRAW: &str = "a limit between the vertices of a draw that began in the run";
const LIMIT_IN_OPEN_DRAW: &str = "a limit between the vertices of a draw that was open";
const LIMIT_IN_ZEROS: &str = "a limit between zeros";
const CUT_VERTEX: &str = "a vertex cut by the write pointer";
const CUT_UP_TO_END: &str = "a vertex cut by the write pointer at the ring's end";
const CUT_OVER_END: &str = "a vertex over the ring's end, cut by the write pointer";
const CUT_BETWEEN: &str = "a draw cut by the write pointer between its vertices";
const EMPTY_DRAW: &str = "a draw of no vertex, with a unit after it";
const XF_UP_TO_END: &str = "an XF load that ends at 4,184";
const XF_PAST_END: &str = "an XF load that ends at 4,185, refused after other units";
const REFUSED_IN_ROW: &str = "a CP load refused right after another";
const LOAD_AFTER_MASKED: &str = "a mask, a BP load under it, and one after it";
const LARGE_RING: &str = "a ring above 65,536 bytes";
const LARGE_OVER_END: &str = "units over the end of a ring above 65,536 bytes";
const MANY_UNITS: &str = "more than 65,535 units";
const ALL_UNITS: &str = "as many units as a run can do, and no more in the ring";

pub const CASES: [&str; 21] = [
    HEAD_OVER_END,
    VERTEX_OVER_END,
    VERTEX_UP_TO_END,
    SHORTER_VERTEX,
    LIMIT_AFTER_HEAD,
    LIMIT_IN_DRAW,
    LIMIT_IN_OPEN_DRAW,
    LIMIT_IN_ZEROS,
    CUT_VERTEX,
    CUT_UP_TO_END,
    CUT_OVER_END,
    CUT_BETWEEN,
    EMPTY_DRAW,
    XF_UP_TO_END,
    XF_PAST_END,
    REFUSED_IN_ROW,
    LOAD_AFTER_MASKED,
    LARGE_RING,
    LARGE_OVER_END,
    MANY_UNITS,
    ALL_UNITS,
];

impl Mark {
    /// All that runs are to go through.
    pub fn all() -> Vec<Mark> {
        let mut all: Vec<Mark> = CASES.map(Mark::Case).to_vec();
        for at in 0..WORDS.len() {
            all.extend([Mark::DrawAfter(at), Mark::RefusedAfter(at)]);
        }
        all.extend((0..=255).map(Mark::CpLoad));
        for zeros in 1..=MOST_ZEROS {
            // One byte does not lie over the end.
            let lies = &LIES[..if zeros == 1 { 2 } else { 3 }];
            all.extend(lies.iter().map(|&lie| Mark::Zeros(zeros, lie)));
        }
        all
    }

    pub fn told(self) -> String {
        match self {
            Mark::DrawAfter(at) => format!("a draw of other bytes after a load of {}", WORDS[at]),
            Mark::RefusedAfter(at) => format!("a draw refused after a load of {}", WORDS[at]),
            Mark::CpLoad(address) => format!("a CP load of {address:02X} between draws"),
            Mark::Zeros(zeros, lie) => format!("{zeros} zeros in a row, {}", lie.told()),
            Mark::Case(case) => case.into(),
        }
    }
}

impl Lie {
    pub fn told(self) -> &'static str {
        match self {
            Lie::Within => "within the ring",
            Lie::UpToTheEnd => "up to the ring's end",
            Lie::OverTheEnd => "over the ring's end",
        }
    }

    fn of(at: usize, bytes: usize, size: usize) -> Lie {
        match at + bytes {
            end if end < size => Lie::Within,
            end if end == size => Lie::UpToTheEnd,
            _ => Lie::OverTheEnd,
        }
    }
}

/// A run as both sides did it.
pub struct Run<'a> {
    pub before: &'a World,
    pub after: &'a World,
    pub answer: u32,
    pub units: u32,
}

impl Run<'_> {
    /// What it went through; nothing where it did no unit.
    pub fn marks(&self) -> Vec<Mark> {
        let Some(mut walk) = Walk::new(self) else {
            return Vec::new();
        };
        while walk.units != 0 {
            walk.take();
        }
        walk.end(self);
        walk.marks
    }
}

/// The last draw of a format.
#[derive(Clone, Copy)]
struct Drawn {
    length: usize,
    /// A bit for each of its words that was loaded since.
    loads: u8,
}

/// A walk over the units of a run.
struct Walk<'a> {
    ring: &'a [u8],
    /// The place in the ring.
    at: usize,
    /// Units to go.
    units: u32,
    cp: CpRegisters,
    /// The open draw's format and vertices left.
    draw: Option<(u8, u32)>,
    /// Whether the head of the open draw was met, and how many vertices were.
    head_met: bool,
    vertices: u32,
    /// The bytes of the longest vertex.
    longest: usize,
    drawn: [Option<Drawn>; 8],
    /// The CP addresses since the last draw; none before the first.
    addresses: Option<Vec<u8>>,
    /// BP loads since the mask's, and that one.
    masked: u32,
    /// The opcode of the last unit; none after vertices.
    last: Option<u8>,
    marks: Vec<Mark>,
}

impl<'a> Walk<'a> {
    fn new(run: &Run<'a>) -> Option<Walk<'a>> {
        let state = &run.before.state;
        let size = state[word::END].checked_sub(state[word::START])?;
        let ring = run.before.ring.get(..size as usize)?;
        let at = state[word::READ].checked_sub(state[word::START])? as usize;
        let mut cp = CpRegisters::default();
        cp.vcd.copy_from_slice(&state[word::VCD_0..word::VAT]);
        for (format, vat) in cp.vat.iter_mut().enumerate() {
            let from = word::VAT + 3 * format;
            vat.copy_from_slice(&state[from..from + 3]);
        }
        let open = state[word::DRAW_OPEN] == 1;
        (run.units != 0 && at < ring.len()).then_some(Walk {
            ring,
            at,
            units: run.units,
            cp,
            draw: open.then_some((state[word::FORMAT] as u8 & 7, state[word::LEFT])),
            head_met: false,
            vertices: 0,
            longest: 0,
            drawn: [None; 8],
            addresses: None,
            masked: 0,
            last: None,
            marks: Vec::new(),
        })
    }

    fn case(&mut self, case: &'static str) {
        self.marks.push(Mark::Case(case));
    }

    /// The place so many bytes on. Most are before the ring's end, and need no division.
    fn place(&self, after: usize) -> usize {
        let place = self.at + after;
        if place < self.ring.len() {
            place
        } else {
            place % self.ring.len()
        }
    }

    fn byte(&self, k: usize) -> u8 {
        self.ring[self.place(k)]
    }

    fn half(&self, k: usize) -> u16 {
        u16::from_be_bytes([self.byte(k), self.byte(k + 1)])
    }

    fn word(&self, k: usize) -> u32 {
        u32::from(self.half(k)) << 16 | u32::from(self.half(k + 2))
    }

    /// Passes units of so many bytes together.
    fn pass(&mut self, units: u32, bytes: usize) {
        let size = self.ring.len();
        if size > LARGEST_BEFORE as usize && Lie::of(self.at, bytes, size) == Lie::OverTheEnd {
            self.case(LARGE_OVER_END);
        }
        self.at = self.place(bytes);
        self.units = self.units.saturating_sub(units);
    }

    fn vertex_length(&self, format: u8) -> Option<usize> {
        let layout = layout(&self.cp.vertex_format(format)).ok()?;
        Some(layout.length.into())
    }

    fn take(&mut self) {
        if let Some((format, left)) = self.draw {
            self.last = None;
            return self.vertices(format, left);
        }
        let opcode = self.byte(0);
        self.last = Some(opcode);
        match opcode {
            0x00 => self.zeros(),
            0x08 => self.cp_load(),
            0x10 => self.xf_load(),
            0x20 | 0x28 | 0x30 | 0x38 => self.pass(1, 5),
            0x40 => self.pass(1, 9),
            0x61 => self.bp_load(),
            0x80..=0xBF => self.head(opcode),
            _ => self.pass(1, 1),
        }
    }

    fn zeros(&mut self) {
        let most = self.units as usize;
        let zeros = (0..most).take_while(|&k| self.byte(k) == 0).count();
        if zeros <= MOST_ZEROS {
            let lie = Lie::of(self.at, zeros, self.ring.len());
            self.marks.push(Mark::Zeros(zeros, lie));
        }
        self.pass(zeros as u32, zeros);
    }

    fn cp_load(&mut self) {
        let (address, number) = (self.byte(1), self.word(2));
        let format = usize::from(address & 7);
        let at = match address >> 4 {
            group @ 5..=9 => usize::from(group - 5),
            _ => OTHER,
        };
        if at < 2 {
            self.cp.vcd[at] = number;
        } else if at < OTHER {
            self.cp.vat[format][at - 2] = number;
        }
        if at < OTHER {
            self.loaded(at, format);
        }
        if let Some(addresses) = &mut self.addresses {
            addresses.push(address);
        }
        self.pass(1, 6);
    }

    /// A load of a format's word, which of the VCD is every format's.
    fn loaded(&mut self, at: usize, format: usize) {
        for (each, drawn) in self.drawn.iter_mut().enumerate() {
            let own = at < 2 || each == format;
            if let Some(drawn) = drawn {
                drawn.loads |= 1 << if own { at } else { OTHER };
            }
        }
    }

    fn xf_load(&mut self) {
        let (words, end) = self.xf_end();
        if end == 4184 {
            self.case(XF_UP_TO_END);
        }
        self.pass(1, 5 + 4 * words);
    }

    /// The words of the XF load here, and the place after the last.
    fn xf_end(&self) -> (usize, usize) {
        let words = usize::from(self.half(1) % 16) + 1;
        (words, words + usize::from(self.half(3)))
    }

    fn bp_load(&mut self) {
        let mask = self.byte(1) == 0xFE;
        match self.masked {
            _ if mask => self.masked = u32::from(self.word(1) != 0xFEFF_FFFF),
            0 => {}
            1 => self.masked = 2,
            _ => self.case(LOAD_AFTER_MASKED),
        }
        self.pass(1, 5);
    }

    fn head(&mut self, head: u8) {
        let (format, count) = (head & 7, u32::from(self.half(1)));
        let Some(length) = self.vertex_length(format) else {
            self.units = 0;
            return;
        };
        if Lie::of(self.at, 3, self.ring.len()) == Lie::OverTheEnd {
            self.case(HEAD_OVER_END);
        }
        self.pass(1, 3);
        if count == 0 && self.units != 0 {
            self.case(EMPTY_DRAW);
        }
        if count != 0 && self.units != 0 {
            self.drawn_again(format, length);
        }
        self.drawn[usize::from(format)] = Some(Drawn { length, loads: 0 });
        for address in self.addresses.replace(Vec::new()).unwrap_or_default() {
            self.marks.push(Mark::CpLoad(address));
        }
        self.draw = (count != 0).then_some((format, count));
        (self.head_met, self.vertices) = (true, 0);
    }

    fn drawn_again(&mut self, format: u8, length: usize) {
        if let Some(at) = self.loaded_alone(format) {
            let before = self.drawn[usize::from(format)].map(|drawn| drawn.length);
            if before != Some(length) {
                self.marks.push(Mark::DrawAfter(at));
            }
        }
    }

    /// The one word that was loaded since the last draw of a format.
    fn loaded_alone(&self, format: u8) -> Option<usize> {
        let drawn = self.drawn[usize::from(format)]?;
        (0..WORDS.len()).find(|&at| drawn.loads == 1 << at)
    }

    fn vertices(&mut self, format: u8, left: u32) {
        let Some(length) = self.vertex_length(format) else {
            self.units = 0;
            return;
        };
        let taken = left.min(self.units);
        let (bytes, room) = (taken as usize * length, self.ring.len() - self.at);
        if bytes > room {
            let whole = room.is_multiple_of(length);
            self.case(if whole {
                VERTEX_UP_TO_END
            } else {
                VERTEX_OVER_END
            });
        }
        if length < self.longest {
            self.case(SHORTER_VERTEX);
        }
        self.longest = self.longest.max(length);
        self.pass(taken, bytes);
        self.vertices += taken;
        self.draw = (taken != left).then_some((format, left - taken));
    }

    /// How much the run did, and why it went no further.
    fn end(&mut self, run: &Run) {
        let pending = run.after.count() as usize;
        if self.ring.len() > LARGEST_BEFORE as usize {
            self.case(LARGE_RING);
        }
        if run.units > MOST_BEFORE {
            self.case(MANY_UNITS);
        }
        if run.units == MOST_UNITS && run.answer == DONE && pending == 0 {
            self.case(ALL_UNITS);
        }
        match (run.answer, self.draw) {
            (DONE | WAITING, Some((format, _))) => {
                let length = self.vertex_length(format).unwrap_or(usize::MAX);
                if pending < length {
                    self.cut_draw(run.answer, pending);
                } else {
                    self.limited_draw();
                }
            }
            (DONE, None) if self.last == Some(0) && pending != 0 && self.byte(0) == 0 => {
                self.case(LIMIT_IN_ZEROS);
            }
            (7, None) => self.refused_load(),
            (8, None) if self.xf_end().1 == 4185 => self.case(XF_PAST_END),
            (9 | 10, None) => {
                let refused = self.loaded_alone(self.byte(0) & 7);
                self.marks.extend(refused.map(Mark::RefusedAfter));
            }
            _ => {}
        }
    }

    fn refused_load(&mut self) {
        if self.last == Some(0x08) {
            self.case(REFUSED_IN_ROW);
        }
        if self.addresses.is_some() {
            self.marks.push(Mark::CpLoad(self.byte(1)));
        }
    }

    fn limited_draw(&mut self) {
        self.case(match (self.head_met, self.vertices) {
            (true, 0) => LIMIT_AFTER_HEAD,
            (true, _) => LIMIT_IN_DRAW,
            (false, _) => LIMIT_IN_OPEN_DRAW,
        });
    }

    fn cut_draw(&mut self, answer: u32, pending: usize) {
        if answer == DONE {
            return;
        }
        if pending == 0 {
            return self.case(CUT_BETWEEN);
        }
        self.case(match Lie::of(self.at, pending, self.ring.len()) {
            Lie::Within => CUT_VERTEX,
            Lie::UpToTheEnd => CUT_UP_TO_END,
            Lie::OverTheEnd => CUT_OVER_END,
        });
    }
}
