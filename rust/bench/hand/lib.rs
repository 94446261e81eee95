//! The hand-tuned C's functions (`hand.c`), as `proved` has the proved library's: safe
//! functions on arrays and slices. There are none where no C compiler was found.

/// Which compiler made it, where there was one.
pub const COMPILER: Option<&str> = option_env!("HAND_COMPILER");

#[cfg(hand_c)]
mod calls;
#[cfg(hand_c)]
pub use calls::*;
