//! The calls. All unsafe code of this package is here.

use model::words::{FormatWords, ReportWords, StateWords, UnitWords, ValueWords, VertexWords};
use model::ATTRIBUTES;

mod c {
    unsafe extern "C" {
        pub fn hand_fresh(state: *mut u32);
        pub fn hand_read_register(state: *const u32, offset: u16, value: *mut u32) -> u32;
        pub fn hand_write_register(state: *mut u32, offset: u16, value: u16) -> u32;
        pub fn hand_feed(
            state: *mut u32,
            ring: *mut u8,
            ring_len: usize,
            bytes: *const u8,
            bytes_len: usize,
        ) -> u32;
        pub fn hand_look(
            state: *const u32,
            ring: *const u8,
            ring_len: usize,
            xf: *const u32,
            xf_len: usize,
            vertex: *const u8,
            vertex_len: usize,
            unit: *mut u32,
            lacking: *mut u32,
        ) -> u32;
        pub fn hand_take(
            state: *mut u32,
            ring: *const u8,
            ring_len: usize,
            xf: *mut u32,
            xf_len: usize,
            vertex: *mut u8,
            vertex_len: usize,
            unit: *mut u32,
            lacking: *mut u32,
        ) -> u32;
        pub fn hand_run(
            state: *mut u32,
            ring: *const u8,
            ring_len: usize,
            xf: *mut u32,
            xf_len: usize,
            vertex: *mut u8,
            vertex_len: usize,
            limit: u32,
            report: *mut u32,
        ) -> u32;
        pub fn hand_lay_out(
            format: *const u32,
            sizes: *mut u8,
            offsets: *mut u8,
            length: *mut u32,
        ) -> u32;
        pub fn hand_decode(
            format: *const u32,
            attribute: u32,
            vertex: *const u8,
            vertex_len: usize,
            values: *mut u32,
        ) -> u32;
        pub fn hand_decode_all(
            format: *const u32,
            vertex: *const u8,
            vertex_len: usize,
            values: *mut u32,
        ) -> u32;
    }
}

/// The pointer of a slice. An empty slice's own may lead nowhere in Rust:
/// `spare` is lent in its place, with the length 0.
fn place<T>(slice: &[T], spare: &T) -> *const T {
    if slice.is_empty() {
        spare
    } else {
        slice.as_ptr()
    }
}

fn place_mut<T>(slice: &mut [T], spare: &mut T) -> *mut T {
    if slice.is_empty() {
        spare
    } else {
        slice.as_mut_ptr()
    }
}

pub fn fresh(state: &mut StateWords) {
    // SAFETY: one array of 327 words, lent for the call.
    unsafe { c::hand_fresh(state.as_mut_ptr()) }
}

pub fn read_register(state: &StateWords, offset: u16, value: &mut u32) -> u32 {
    // SAFETY: one array of 327 words and one word, lent for the call.
    unsafe { c::hand_read_register(state.as_ptr(), offset, value) }
}

pub fn write_register(state: &mut StateWords, offset: u16, value: u16) -> u32 {
    // SAFETY: one array of 327 words, lent for the call.
    unsafe { c::hand_write_register(state.as_mut_ptr(), offset, value) }
}

pub fn feed(state: &mut StateWords, ring: &mut [u8], bytes: &[u8]) -> u32 {
    let ring_len = ring.len();
    // SAFETY: three places that don't overlap, each lent for the call with its
    // own length.
    unsafe {
        c::hand_feed(
            state.as_mut_ptr(),
            place_mut(ring, &mut 0),
            ring_len,
            place(bytes, &0),
            bytes.len(),
        )
    }
}

/// `unit` is written only where there is one, `lacking` only where the look waits.
pub fn look(
    state: &StateWords,
    ring: &[u8],
    xf: &[u32],
    vertex: &[u8],
    unit: &mut UnitWords,
    lacking: &mut u32,
) -> u32 {
    // SAFETY: the last two overlap nothing, the others are not written; each is
    // lent for the call with its own length.
    unsafe {
        c::hand_look(
            state.as_ptr(),
            place(ring, &0),
            ring.len(),
            place(xf, &0),
            xf.len(),
            place(vertex, &0),
            vertex.len(),
            unit.as_mut_ptr(),
            lacking,
        )
    }
}

/// `unit` is written only where there is one, `lacking` only where the take waits.
pub fn take(
    state: &mut StateWords,
    ring: &[u8],
    xf: &mut [u32],
    vertex: &mut [u8],
    unit: &mut UnitWords,
    lacking: &mut u32,
) -> u32 {
    let (xf_len, vertex_len) = (xf.len(), vertex.len());
    // SAFETY: six places that don't overlap, each lent for the call with its
    // own length.
    unsafe {
        c::hand_take(
            state.as_mut_ptr(),
            place(ring, &0),
            ring.len(),
            place_mut(xf, &mut 0),
            xf_len,
            place_mut(vertex, &mut 0),
            vertex_len,
            unit.as_mut_ptr(),
            lacking,
        )
    }
}

pub fn run(
    state: &mut StateWords,
    ring: &[u8],
    xf: &mut [u32],
    vertex: &mut [u8],
    limit: u32,
    report: &mut ReportWords,
) -> u32 {
    let (xf_len, vertex_len) = (xf.len(), vertex.len());
    // SAFETY: five places that don't overlap, each lent for the call with its
    // own length.
    unsafe {
        c::hand_run(
            state.as_mut_ptr(),
            place(ring, &0),
            ring.len(),
            place_mut(xf, &mut 0),
            xf_len,
            place_mut(vertex, &mut 0),
            vertex_len,
            limit,
            report.as_mut_ptr(),
        )
    }
}

pub fn lay_out(
    format: &FormatWords,
    sizes: &mut [u8; ATTRIBUTES],
    offsets: &mut [u8; ATTRIBUTES],
    length: &mut u32,
) -> u32 {
    // SAFETY: four places of their lengths that don't overlap, lent for the
    // call.
    unsafe {
        c::hand_lay_out(
            format.as_ptr(),
            sizes.as_mut_ptr(),
            offsets.as_mut_ptr(),
            length,
        )
    }
}

pub fn decode(format: &FormatWords, attribute: u32, vertex: &[u8], values: &mut ValueWords) -> u32 {
    // SAFETY: three places that don't overlap, each lent for the call with its
    // own length.
    unsafe {
        c::hand_decode(
            format.as_ptr(),
            attribute,
            place(vertex, &0),
            vertex.len(),
            values.as_mut_ptr(),
        )
    }
}

/// All attributes of a vertex: 9, 10, 19; the values are told where it is accepted.
pub fn decode_all(format: &FormatWords, vertex: &[u8], values: &mut VertexWords) -> u32 {
    // SAFETY: three places that don't overlap, each lent for the call with its
    // own length.
    unsafe {
        c::hand_decode_all(
            format.as_ptr(),
            place(vertex, &0),
            vertex.len(),
            values.as_mut_ptr(),
        )
    }
}
