//! Document 02's L1, whose words are quoted here: "one file, written and read
//! back: sections in a fixed order, each after its count. BP (256 numbers), CP
//! (in order: the four registers 3X to 6X, 24 VAT words by format then group, 16
//! bases, 16 strides; 60 in all), XF (4,184), stream bytes (0 to 65,535). Counts
//! and numbers are 4 bytes, big-endian; nothing follows."
//!
//! All but the stream's bytes is the file's head, of always the same length.

use crate::refusal::Refusal;
use crate::state::{CpRegisters, State, BASE_BITS, BP_ALL, STRIDE_BITS};
use crate::XF_WORDS;
use std::cmp::Ordering;
use std::iter::{once, repeat_n};

/// "BP (256 numbers)"
const BP_NUMBERS: usize = 256;
/// "60 in all"
const CP_NUMBERS: usize = 60;
/// Those before the bases: "the four registers 3X to 6X, 24 VAT words".
const CP_PLAIN: usize = 4 + 24;
/// "16 bases, 16 strides"
const ARRAYS: usize = 16;
/// The numbers of the head: the three sections and four counts.
const HEAD_NUMBERS: usize = 1 + BP_NUMBERS + 1 + CP_NUMBERS + 1 + XF_WORDS + 1;
/// "Counts and numbers are 4 bytes"
const NUMBER_BYTES: usize = 4;

/// The file up to the stream's first byte.
pub const RECORDING_HEAD_BYTES: usize = HEAD_NUMBERS * NUMBER_BYTES;
/// "stream bytes (0 to 65,535)"; L9 raises "the recording's stream to 1,048,575". A file
/// with a shorter stream has the same bytes as before it.
pub const LONGEST_STREAM: usize = 1_048_575;

/// "The reader … tells where the stream stands."
#[derive(Clone, Copy, Debug, PartialEq, Eq)]
pub struct Stream {
    /// Of its first byte in the file.
    pub place: usize,
    pub length: usize,
}

/// What a number of the head is.
#[derive(Clone, Copy)]
enum Entry {
    /// The count of a section, always the same.
    Count(usize),
    /// A register or an XF word, with all bits that it can hold.
    Number(u32),
    /// The stream's count, within its limit.
    StreamCount,
}

impl Entry {
    /// The refusal of a number that cannot stand here.
    fn check(self, number: u32) -> Result<(), Refusal> {
        let (fits, refusal) = match self {
            Entry::Count(count) => (number as usize == count, Refusal::WrongCount),
            Entry::Number(bits) => (number <= bits, Refusal::NumberTooWide),
            Entry::StreamCount => (number as usize <= LONGEST_STREAM, Refusal::WrongCount),
        };
        if fits {
            Ok(())
        } else {
            Err(refusal)
        }
    }
}

/// What the numbers of the head are, in the file's order.
fn entries() -> impl Iterator<Item = Entry> {
    let numbers = |bits, count| repeat_n(Entry::Number(bits), count);
    let cp = numbers(u32::MAX, CP_PLAIN)
        .chain(numbers(BASE_BITS, ARRAYS))
        .chain(numbers(STRIDE_BITS, ARRAYS));
    once(Entry::Count(BP_NUMBERS))
        .chain(numbers(BP_ALL, BP_NUMBERS))
        .chain(once(Entry::Count(CP_NUMBERS)))
        .chain(cp)
        .chain(once(Entry::Count(XF_WORDS)))
        .chain(numbers(u32::MAX, XF_WORDS))
        .chain(once(Entry::StreamCount))
}

/// The number that begins at a byte; none where it is not whole.
fn number_at(file: &[u8], place: usize) -> Option<u32> {
    let bytes = file.get(place..)?.first_chunk()?;
    Some(u32::from_be_bytes(*bytes))
}

/// A refusal of a file's head, and the byte where it stands.
struct Fault {
    refusal: Refusal,
    byte: usize,
}

/// "Refused at the first place in the file": a number that is not whole is no
/// number, whatever its first bytes are.
fn search(file: &[u8]) -> Result<(), Fault> {
    for (at, entry) in entries().enumerate() {
        let place = NUMBER_BYTES * at;
        let Some(number) = number_at(file, place) else {
            return Err(Fault {
                refusal: Refusal::FileShort,
                byte: file.len(),
            });
        };
        entry.check(number).map_err(|refusal| Fault {
            refusal,
            byte: place,
        })?;
    }
    Ok(())
}

/// The byte of the first fault of a file's head: of a number that is not whole the
/// first that is not there. The head's length where there is none.
pub fn find_recording_fault(file: &[u8]) -> usize {
    match search(file) {
        Ok(()) => RECORDING_HEAD_BYTES,
        Err(fault) => fault.byte,
    }
}

/// Whether so many bytes behind the head are the stream that its count tells.
pub fn check_recording_rest(length: u32, rest: usize) -> Result<(), Refusal> {
    match rest.cmp(&(length as usize)) {
        Ordering::Less => Err(Refusal::FileShort),
        Ordering::Equal => Ok(()),
        Ordering::Greater => Err(Refusal::FileLong),
    }
}

/// The numbers of a head that was searched, without its counts.
struct Head {
    bp: Vec<u32>,
    cp: Vec<u32>,
    xf: Vec<u32>,
    stream_count: u32,
}

/// Takes a head that was searched apart.
fn take_apart(head: &[u8]) -> Head {
    let mut numbers = head
        .as_chunks()
        .0
        .iter()
        .map(|&four| u32::from_be_bytes(four));
    let mut section = |count: usize| -> Vec<u32> { numbers.by_ref().skip(1).take(count).collect() };
    let (bp, cp, xf) = (section(BP_NUMBERS), section(CP_NUMBERS), section(XF_WORDS));
    let stream_count = numbers.next().unwrap_or_default();
    Head {
        bp,
        cp,
        xf,
        stream_count,
    }
}

impl CpRegisters {
    /// The 60 numbers in the file's order.
    fn numbers(&self) -> impl Iterator<Item = u32> + '_ {
        let four = self.matrix.iter().chain(&self.vcd);
        let vat = self.vat.as_flattened();
        four.chain(vat)
            .chain(&self.bases)
            .chain(&self.strides)
            .copied()
    }

    /// The registers that the 60 numbers say.
    fn of_numbers(numbers: &[u32]) -> CpRegisters {
        let mut numbers = numbers.iter().copied();
        let mut next = || numbers.next().unwrap_or_default();
        CpRegisters {
            matrix: std::array::from_fn(|_| next()),
            vcd: std::array::from_fn(|_| next()),
            vat: std::array::from_fn(|_| std::array::from_fn(|_| next())),
            bases: std::array::from_fn(|_| next()),
            strides: std::array::from_fn(|_| next()),
        }
    }
}

/// "XF words not 4,184"
fn check_xf(xf: &[u32]) -> Result<(), Refusal> {
    if xf.len() == XF_WORDS {
        Ok(())
    } else {
        Err(Refusal::XfLength)
    }
}

impl State {
    /// Reads a whole file: "The reader gives 2 before these", which are 20 to 23 by
    /// the first place. "A loaded recording starts with no draw open"; window and
    /// control stay.
    pub fn read_recording(&mut self, file: &[u8], xf: &mut [u32]) -> Result<Stream, Refusal> {
        check_xf(xf)?;
        search(file).map_err(|fault| fault.refusal)?;
        let (head, stream) = file.split_at(RECORDING_HEAD_BYTES);
        let head = take_apart(head);
        check_recording_rest(head.stream_count, stream.len())?;
        self.load(&head, xf);
        Ok(Stream {
            place: RECORDING_HEAD_BYTES,
            length: stream.len(),
        })
    }

    /// The same of the head alone, whatever stands behind it: 2, then 20 to 22.
    /// Gives the stream's length by its count.
    pub fn read_recording_head(&mut self, head: &[u8], xf: &mut [u32]) -> Result<u32, Refusal> {
        check_xf(xf)?;
        search(head).map_err(|fault| fault.refusal)?;
        let head = take_apart(&head[..RECORDING_HEAD_BYTES]);
        self.load(&head, xf);
        Ok(head.stream_count)
    }

    /// The registers and XF words become the file's, and no draw is open.
    fn load(&mut self, head: &Head, xf: &mut [u32]) {
        self.draw = None;
        self.bp.copy_from_slice(&head.bp);
        self.cp = CpRegisters::of_numbers(&head.cp);
        xf.copy_from_slice(&head.xf);
    }

    /// "The writer gives 1, 2, 20 for a long stream, then 16." Gives the bytes
    /// written.
    pub fn write_recording(
        &self,
        xf: &[u32],
        stream: &[u8],
        output: &mut [u8],
    ) -> Result<usize, Refusal> {
        self.check_recorded(xf, stream.len())?;
        let bytes = RECORDING_HEAD_BYTES + stream.len();
        let file = output.get_mut(..bytes).ok_or(Refusal::OutputShort)?;
        let (head, behind) = file.split_at_mut(RECORDING_HEAD_BYTES);
        self.put_head(xf, stream.len(), head);
        behind.copy_from_slice(stream);
        Ok(bytes)
    }

    /// The same of the head alone, for a stream of so many bytes.
    pub fn write_recording_head(
        &self,
        xf: &[u32],
        length: usize,
        output: &mut [u8],
    ) -> Result<usize, Refusal> {
        self.check_recorded(xf, length)?;
        let head = output.get_mut(..RECORDING_HEAD_BYTES);
        self.put_head(xf, length, head.ok_or(Refusal::OutputShort)?);
        Ok(RECORDING_HEAD_BYTES)
    }

    /// 1 of the registers that a file holds, 2, 20.
    fn check_recorded(&self, xf: &[u32], length: usize) -> Result<(), Refusal> {
        if !self.bp_and_cp_are_in_range() {
            return Err(Refusal::BrokenState);
        }
        check_xf(xf)?;
        if length <= LONGEST_STREAM {
            Ok(())
        } else {
            Err(Refusal::WrongCount)
        }
    }

    /// Writes each section after its count, and the stream's count.
    fn put_head(&self, xf: &[u32], length: usize, head: &mut [u8]) {
        let numbers = once(BP_NUMBERS as u32)
            .chain(self.bp)
            .chain(once(CP_NUMBERS as u32))
            .chain(self.cp.numbers())
            .chain(once(XF_WORDS as u32))
            .chain(xf.iter().copied())
            .chain(once(length as u32));
        for (four, number) in head.as_chunks_mut().0.iter_mut().zip(numbers) {
            *four = number.to_be_bytes();
        }
    }
}
