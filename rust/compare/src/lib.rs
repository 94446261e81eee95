//! Drives two sides, the proved library over its C interface and the twin in
//! plain Rust, through the same calls, and compares all that they answer and
//! all that they leave after every call.
#![forbid(unsafe_code)]

mod before;
pub mod call;
mod course;
mod difference;
pub mod duo;
mod formats;
pub mod random;
pub mod recording;
pub mod scenarios;
pub mod side;
mod stream;
pub mod tally;
mod units;
pub mod world;
