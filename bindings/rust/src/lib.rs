//! kira's effects, with the bits that Sedhavil proves: a safe crate over the exported functions of
//! `crates/sedhavil` and `crates/sedhavil_wav`.
//!
//! A [`Chain`] is a list of at most 16 [`Stage`]s with what they hold. It renders blocks of at most
//! 4,096 stereo frames:
//!
//! ```
//! use sedhavil::{Chain, Stage};
//!
//! fn main() -> Result<(), Box<dyn std::error::Error>> {
//!     // an echo: a delay of one frame, fed back at 0 dB, all wet
//!     let echo = Stage::Delay { frames: 1, feedback: 0, mix: 1.0, owned: 0 };
//!     let mut chain = Chain::new(48_000, &[echo])?;
//!     let mut samples = [1.0, 1.0, 0.0, 0.0, 0.0, 0.0]; // left and right in turn
//!     chain.render(&mut samples)?;
//!     assert_eq!(samples, [0.0, 0.0, 1.0, 1.0, 1.0, 1.0]);
//!     Ok(())
//! }
//! ```
//!
//! Between blocks, [`Chain::set`] changes the settings of a stage, [`Chain::reset`] makes a fresh start, and
//! [`Chain::into_parts`] takes the chain apart so that [`Chain::resumed`] can go on with it later. A
//! [`Block`] runs single steps in an order of your choice. What samples come to depends neither on how they
//! are cut into blocks nor on the order of steps.
//!
//! What cannot be run is refused with a [`Refusal`], and then nothing has changed. Print a refusal with `{}`;
//! an error out of `main` shows only its case. The module [`wav`] turns the bytes of a WAV file into samples
//! and back.
//!
//! # The float mode
//!
//! The promises hold in the default mode of the floating-point unit: rounding to nearest, no
//! flush-to-zero, no denormals-are-zero. Rust itself takes that mode for granted. An audio host that
//! sets FTZ or DAZ gets other bits wherever a number below 2^-126 turns up (`tests/float_mode.rs`
//! shows one): set the default mode around a call.
//!
//! All NaNs count as one value: the bits of a NaN are not promised.
#![deny(missing_docs)]

mod block;
mod chain;
mod face;
mod memories;
mod parts;
mod refusal;
mod set;
mod stage;
pub mod wav;
mod words;

pub use block::Block;
pub use chain::Chain;
pub use memories::Memories;
pub use parts::{NotResumed, Parts};
pub use refusal::Refusal;
pub use set::NotSet;
pub use stage::{DistortionKind, EqFilterKind, FilterMode, Stage, tangent};
pub use words::LAYOUT_VERSION;

/// The most stages that a list can have.
pub const PLACES: usize = 16;
/// How many positions stages remember: 24 for each place of the list.
pub const POSITIONS: usize = 24 * PLACES;
/// How many floats stages remember beside their lines: 20 for each place of the list.
pub const FLOATS: usize = 20 * PLACES;
/// How many top stages a block counts frames for. What counts for no stage of the chain is ignored.
pub const PROGRESS: usize = PLACES;

/// The layout that the linked library reads. It equals [`LAYOUT_VERSION`], unless the library is older or
/// newer than this crate; then nothing else of this crate may be used.
pub fn layout_version() -> u32 {
    face::layout_version()
}

/// How many floats the lines of these stages need. Refusals 1 to 4 can come.
pub fn floats_needed(rate: u32, stages: &[Stage]) -> Result<usize, Refusal> {
    words::needed(rate, &words::of_stages(stages))
}
