//! The proved library's C functions, as safe functions on arrays and slices.
//! All unsafe code of these packages is here; `include/duckhammock.h` says what
//! each function answers and changes.

pub const STATE_WORDS: usize = 327;
pub const ATTRIBUTES: usize = 21;

pub type StateWords = [u32; STATE_WORDS];
/// Groups 0 and 1 of the VCD, groups 0 to 2 of one format's VAT.
pub type FormatWords = [u32; 5];
/// Kind, a, b, c, d.
pub type CommandWords = [u32; 5];
/// A command's words, and how many bytes the unit has.
pub type UnitWords = [u32; 6];
/// Units done, bytes lacking.
pub type ReportWords = [u32; 2];
/// The place of a recording's stream in its file, and its length.
pub type StreamWords = [u32; 2];
/// A kind or a count, and nine values.
pub type ValueWords = [u32; 10];
/// So many for each attribute in order.
pub type VertexWords = [u32; 210];

mod c {
    unsafe extern "C" {
        pub fn duckhammock_fresh(state: *mut u32);
        pub fn duckhammock_read_register(state: *const u32, offset: u16, value: *mut u32) -> u32;
        pub fn duckhammock_write_register(state: *mut u32, offset: u16, value: u16) -> u32;
        pub fn duckhammock_feed(
            state: *mut u32,
            ring: *mut u8,
            ring_len: usize,
            bytes: *const u8,
            bytes_len: usize,
        ) -> u32;
        pub fn duckhammock_look(
            state: *const u32,
            ring: *const u8,
            ring_len: usize,
            xf: *const u32,
            xf_len: usize,
            vertex: *const u8,
            vertex_len: usize,
            unit: *mut u32,
            lacking: *mut u32,
        ) -> u32;
        pub fn duckhammock_take(
            state: *mut u32,
            ring: *const u8,
            ring_len: usize,
            xf: *mut u32,
            xf_len: usize,
            vertex: *mut u8,
            vertex_len: usize,
            unit: *mut u32,
            lacking: *mut u32,
        ) -> u32;
        pub fn duckhammock_run(
            state: *mut u32,
            ring: *const u8,
            ring_len: usize,
            xf: *mut u32,
            xf_len: usize,
            vertex: *mut u8,
            vertex_len: usize,
            limit: u32,
            report: *mut u32,
        ) -> u32;
        pub fn duckhammock_lay_out(
            format: *const u32,
            sizes: *mut u8,
            offsets: *mut u8,
            length: *mut u32,
        ) -> u32;
        pub fn duckhammock_decode(
            format: *const u32,
            attribute: u32,
            vertex: *const u8,
            vertex_len: usize,
            values: *mut u32,
        ) -> u32;
        pub fn duckhammock_decode_all(
            format: *const u32,
            vertex: *const u8,
            vertex_len: usize,
            values: *mut u32,
        ) -> u32;
        pub fn duckhammock_raw_words(
            format: *const u32,
            attribute: u32,
            vertex: *const u8,
            vertex_len: usize,
            values: *mut u32,
        ) -> u32;
        pub fn duckhammock_write_command(
            command: *const u32,
            words: *const u32,
            words_len: usize,
            output: *mut u8,
            output_len: usize,
            written: *mut u32,
        ) -> u32;
        pub fn duckhammock_check_patch(
            masks: *const u32,
            masks_len: usize,
            numbers: *const u32,
            numbers_len: usize,
        ) -> u32;
        pub fn duckhammock_merge_patches(
            a_masks: *const u32,
            a_masks_len: usize,
            a_numbers: *const u32,
            a_numbers_len: usize,
            b_masks: *const u32,
            b_masks_len: usize,
            b_numbers: *const u32,
            b_numbers_len: usize,
            masks: *mut u32,
            masks_len: usize,
            numbers: *mut u32,
            numbers_len: usize,
        ) -> u32;
        pub fn duckhammock_write_patch(
            masks: *const u32,
            masks_len: usize,
            numbers: *const u32,
            numbers_len: usize,
            output: *mut u8,
            output_len: usize,
            written: *mut u32,
        ) -> u32;
        pub fn duckhammock_read_recording(
            state: *mut u32,
            file: *const u8,
            file_len: usize,
            xf: *mut u32,
            xf_len: usize,
            stream: *mut u32,
        ) -> u32;
        pub fn duckhammock_read_recording_head(
            state: *mut u32,
            head: *const u8,
            head_len: usize,
            xf: *mut u32,
            xf_len: usize,
            length: *mut u32,
        ) -> u32;
        pub fn duckhammock_check_recording_rest(length: u32, rest: usize) -> u32;
        pub fn duckhammock_find_recording_fault(head: *const u8, head_len: usize) -> u32;
        pub fn duckhammock_write_recording(
            state: *const u32,
            xf: *const u32,
            xf_len: usize,
            stream: *const u8,
            stream_len: usize,
            output: *mut u8,
            output_len: usize,
            written: *mut u32,
        ) -> u32;
        pub fn duckhammock_write_recording_head(
            state: *const u32,
            xf: *const u32,
            xf_len: usize,
            length: usize,
            output: *mut u8,
            output_len: usize,
            written: *mut u32,
        ) -> u32;
    }
}

/// The pointer of a slice. An empty slice's own may lead nowhere in Rust:
/// `spare` is lent in its place, with the length 0.
fn place<T>(slice: &[T], spare: &T) -> *const T {
    if slice.is_empty() {
        spare
    } else {
        slice.as_ptr()
    }
}

fn place_mut<T>(slice: &mut [T], spare: &mut T) -> *mut T {
    if slice.is_empty() {
        spare
    } else {
        slice.as_mut_ptr()
    }
}

pub fn fresh(state: &mut StateWords) {
    // SAFETY: one array of 327 words, lent for the call.
    unsafe { c::duckhammock_fresh(state.as_mut_ptr()) }
}

pub fn read_register(state: &StateWords, offset: u16, value: &mut u32) -> u32 {
    // SAFETY: one array of 327 words and one word, lent for the call.
    unsafe { c::duckhammock_read_register(state.as_ptr(), offset, value) }
}

pub fn write_register(state: &mut StateWords, offset: u16, value: u16) -> u32 {
    // SAFETY: one array of 327 words, lent for the call.
    unsafe { c::duckhammock_write_register(state.as_mut_ptr(), offset, value) }
}

pub fn feed(state: &mut StateWords, ring: &mut [u8], bytes: &[u8]) -> u32 {
    let ring_len = ring.len();
    // SAFETY: three places that don't overlap, each lent for the call with its
    // own length.
    unsafe {
        c::duckhammock_feed(
            state.as_mut_ptr(),
            place_mut(ring, &mut 0),
            ring_len,
            place(bytes, &0),
            bytes.len(),
        )
    }
}

/// `unit` is written only where there is one, `lacking` only where the look waits.
pub fn look(
    state: &StateWords,
    ring: &[u8],
    xf: &[u32],
    vertex: &[u8],
    unit: &mut UnitWords,
    lacking: &mut u32,
) -> u32 {
    // SAFETY: the last two overlap nothing, the others are not written; each is
    // lent for the call with its own length.
    unsafe {
        c::duckhammock_look(
            state.as_ptr(),
            place(ring, &0),
            ring.len(),
            place(xf, &0),
            xf.len(),
            place(vertex, &0),
            vertex.len(),
            unit.as_mut_ptr(),
            lacking,
        )
    }
}

/// `unit` is written only where there is one, `lacking` only where the take waits.
pub fn take(
    state: &mut StateWords,
    ring: &[u8],
    xf: &mut [u32],
    vertex: &mut [u8],
    unit: &mut UnitWords,
    lacking: &mut u32,
) -> u32 {
    let (xf_len, vertex_len) = (xf.len(), vertex.len());
    // SAFETY: six places that don't overlap, each lent for the call with its
    // own length.
    unsafe {
        c::duckhammock_take(
            state.as_mut_ptr(),
            place(ring, &0),
            ring.len(),
            place_mut(xf, &mut 0),
            xf_len,
            place_mut(vertex, &mut 0),
            vertex_len,
            unit.as_mut_ptr(),
            lacking,
        )
    }
}

pub fn run(
    state: &mut StateWords,
    ring: &[u8],
    xf: &mut [u32],
    vertex: &mut [u8],
    limit: u32,
    report: &mut ReportWords,
) -> u32 {
    let (xf_len, vertex_len) = (xf.len(), vertex.len());
    // SAFETY: five places that don't overlap, each lent for the call with its
    // own length.
    unsafe {
        c::duckhammock_run(
            state.as_mut_ptr(),
            place(ring, &0),
            ring.len(),
            place_mut(xf, &mut 0),
            xf_len,
            place_mut(vertex, &mut 0),
            vertex_len,
            limit,
            report.as_mut_ptr(),
        )
    }
}

pub fn lay_out(
    format: &FormatWords,
    sizes: &mut [u8; ATTRIBUTES],
    offsets: &mut [u8; ATTRIBUTES],
    length: &mut u32,
) -> u32 {
    // SAFETY: four places of their lengths that don't overlap, lent for the
    // call.
    unsafe {
        c::duckhammock_lay_out(
            format.as_ptr(),
            sizes.as_mut_ptr(),
            offsets.as_mut_ptr(),
            length,
        )
    }
}

pub fn decode(format: &FormatWords, attribute: u32, vertex: &[u8], values: &mut ValueWords) -> u32 {
    // SAFETY: three places that don't overlap, each lent for the call with its
    // own length.
    unsafe {
        c::duckhammock_decode(
            format.as_ptr(),
            attribute,
            place(vertex, &0),
            vertex.len(),
            values.as_mut_ptr(),
        )
    }
}

pub fn decode_all(format: &FormatWords, vertex: &[u8], values: &mut VertexWords) -> u32 {
    // SAFETY: three places that don't overlap, each lent for the call with its
    // own length.
    unsafe {
        c::duckhammock_decode_all(
            format.as_ptr(),
            place(vertex, &0),
            vertex.len(),
            values.as_mut_ptr(),
        )
    }
}

pub fn raw_words(
    format: &FormatWords,
    attribute: u32,
    vertex: &[u8],
    values: &mut ValueWords,
) -> u32 {
    // SAFETY: three places that don't overlap, each lent for the call with its
    // own length.
    unsafe {
        c::duckhammock_raw_words(
            format.as_ptr(),
            attribute,
            place(vertex, &0),
            vertex.len(),
            values.as_mut_ptr(),
        )
    }
}

pub fn write_command(
    command: &CommandWords,
    words: &[u32],
    output: &mut [u8],
    written: &mut u32,
) -> u32 {
    let output_len = output.len();
    // SAFETY: four places that don't overlap, each lent for the call with its
    // own length.
    unsafe {
        c::duckhammock_write_command(
            command.as_ptr(),
            place(words, &0),
            words.len(),
            place_mut(output, &mut 0),
            output_len,
            written,
        )
    }
}

pub fn check_patch(masks: &[u32], numbers: &[u32]) -> u32 {
    // SAFETY: two places, each lent for the call with its own length.
    unsafe {
        c::duckhammock_check_patch(
            place(masks, &0),
            masks.len(),
            place(numbers, &0),
            numbers.len(),
        )
    }
}

pub fn merge_patches(
    a_masks: &[u32],
    a_numbers: &[u32],
    b_masks: &[u32],
    b_numbers: &[u32],
    masks: &mut [u32],
    numbers: &mut [u32],
) -> u32 {
    let (masks_len, numbers_len) = (masks.len(), numbers.len());
    // SAFETY: the last two overlap nothing, the others are not written; each is
    // lent for the call with its own length.
    unsafe {
        c::duckhammock_merge_patches(
            place(a_masks, &0),
            a_masks.len(),
            place(a_numbers, &0),
            a_numbers.len(),
            place(b_masks, &0),
            b_masks.len(),
            place(b_numbers, &0),
            b_numbers.len(),
            place_mut(masks, &mut 0),
            masks_len,
            place_mut(numbers, &mut 0),
            numbers_len,
        )
    }
}

pub fn write_patch(masks: &[u32], numbers: &[u32], output: &mut [u8], written: &mut u32) -> u32 {
    let output_len = output.len();
    // SAFETY: four places that don't overlap, each lent for the call with its
    // own length.
    unsafe {
        c::duckhammock_write_patch(
            place(masks, &0),
            masks.len(),
            place(numbers, &0),
            numbers.len(),
            place_mut(output, &mut 0),
            output_len,
            written,
        )
    }
}

/// `stream` is written only where the file is accepted.
pub fn read_recording(
    state: &mut StateWords,
    file: &[u8],
    xf: &mut [u32],
    stream: &mut StreamWords,
) -> u32 {
    let xf_len = xf.len();
    // SAFETY: four places that don't overlap, each lent for the call with its
    // own length.
    unsafe {
        c::duckhammock_read_recording(
            state.as_mut_ptr(),
            place(file, &0),
            file.len(),
            place_mut(xf, &mut 0),
            xf_len,
            stream.as_mut_ptr(),
        )
    }
}

/// `length` is written only where the head is accepted.
pub fn read_recording_head(
    state: &mut StateWords,
    head: &[u8],
    xf: &mut [u32],
    length: &mut u32,
) -> u32 {
    let xf_len = xf.len();
    // SAFETY: four places that don't overlap, each lent for the call with its
    // own length.
    unsafe {
        c::duckhammock_read_recording_head(
            state.as_mut_ptr(),
            place(head, &0),
            head.len(),
            place_mut(xf, &mut 0),
            xf_len,
            length,
        )
    }
}

pub fn check_recording_rest(length: u32, rest: usize) -> u32 {
    // SAFETY: nothing is lent.
    unsafe { c::duckhammock_check_recording_rest(length, rest) }
}

/// No refusal, but the byte of one.
pub fn find_recording_fault(head: &[u8]) -> u32 {
    // SAFETY: one place, lent for the call with its own length.
    unsafe { c::duckhammock_find_recording_fault(place(head, &0), head.len()) }
}

pub fn write_recording(
    state: &StateWords,
    xf: &[u32],
    stream: &[u8],
    output: &mut [u8],
    written: &mut u32,
) -> u32 {
    let output_len = output.len();
    // SAFETY: the last two overlap nothing, the others are not written; each is
    // lent for the call with its own length.
    unsafe {
        c::duckhammock_write_recording(
            state.as_ptr(),
            place(xf, &0),
            xf.len(),
            place(stream, &0),
            stream.len(),
            place_mut(output, &mut 0),
            output_len,
            written,
        )
    }
}

pub fn write_recording_head(
    state: &StateWords,
    xf: &[u32],
    length: usize,
    output: &mut [u8],
    written: &mut u32,
) -> u32 {
    let output_len = output.len();
    // SAFETY: the last two overlap nothing, the others are not written; each is
    // lent for the call with its own length.
    unsafe {
        c::duckhammock_write_recording_head(
            state.as_ptr(),
            place(xf, &0),
            xf.len(),
            length,
            place_mut(output, &mut 0),
            output_len,
            written,
        )
    }
}
