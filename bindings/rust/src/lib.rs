//! Page frames, taken and given without locks, by a proved allocator (LLFree).
//!
//! ```
//! use llfree::{Core, Refused};
//!
//! fn main() -> Result<(), Refused> {
//!     let [mut core, mut other]: [Core; 2] = Core::open(524_288, &[])?; // 2 GiB, two cores
//!     let block = core.take(3)?; // eight frames
//!     println!("frame {}", block.frame());
//!     other.give(block).map_err(|(refused, _)| refused) // any core gives what any core took
//! }
//! ```
//!
//! A [`Core`] takes and gives; each thread has one, or a [`Pool`] shares them. A [`Block`] is the right to its frames:
//! it is never copied, and only a core of its own memory takes it back. So the compiler keeps the C header's duties on
//! pointers, handles and structs, in the [`Unchecked`] form too. Two are left to the caller. No handler, and no child
//! of a fork, calls through a core that is in a call. One heap stands behind `rattle_alloc` (in the installed library
//! that is `malloc`).
//!
//! [`Core::take_at`] takes just the block that begins at a frame: what grows in place, or has to lie there.
//!
//! Single frames that are soon taken again may rest with a core ([`Core::take_frame`]); in the [`Unchecked`] form
//! several come and go at once ([`Core::take_frames`]).
//!
//! The crate has no `std`, no dependency, and allocates nothing but what an opening does. The functions that it calls
//! are proved; the crate itself is not: it is tested.
#![no_std]
#![warn(missing_docs)]

mod cores;
mod form;
mod pool;
mod refused;
mod sys;

pub use cores::{image_words, Block, Core, Parts};
pub use form::{Checked, Form, Unchecked};
pub use pool::{Frames, Pool, Processor};
pub use refused::Refused;

/// The bytes of a frame.
pub const FRAME_BYTES: usize = 4096;

/// A range: its first frame, and how many frames it has.
#[repr(C)]
#[derive(Clone, Copy, Debug, PartialEq, Eq)]
pub struct Range {
    /// Its first frame.
    pub first: u32,
    /// How many it has, at least one.
    pub frames: u32,
}

/// A block that a program holds from before an opening.
#[repr(C)]
#[derive(Clone, Copy, Debug, PartialEq, Eq)]
pub struct Claim {
    /// Its first frame.
    pub frame: u32,
    /// 0 to 9.
    pub order: u8,
}
