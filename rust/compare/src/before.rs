//! The bounds until document 02's L9 raised them.

/// The largest ring.
pub const LARGEST_BEFORE: u32 = 65_536;
/// The most units of a run.
pub const MOST_BEFORE: u32 = 65_535;
/// The longest stream of a recording.
pub const LONGEST_BEFORE: usize = 65_535;
