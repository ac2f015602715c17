//! An m4 expander in buffers that the caller lends: a template in, a settings sheet out, and never a short text that
//! claims to be whole.
//!
//! ```
//! use quenhovach::Reading;
//!
//! let sheet = quenhovach::expand_to_sheet(b"define(`guys',`3')dnl\nguy_count=guys\n")?;
//! assert_eq!(sheet.get("guy_count"), Some(Reading::Number(3)));
//! assert_eq!(sheet.expansion().output, b"guy_count=3\n");
//! # Ok::<(), quenhovach::NoSheet>(())
//! ```
//!
//! A refusal is an error there, and so is a template that ends itself with `m4exit`, or an output that is no sheet ([`NoSheet`]).
//! [`expand_to_vec`] gives any text; `m4exit` with 0 is a success to it, and with another number an error ([`Failure`]). What
//! the `?` lets through is whole, and the template is content with it.
//!
//! | | needs | room | |
//! |---|---|---|---|
//! | [`expand`] | `core` alone | seven slices | a [`Report`] with one of 17 [`Answer`]s |
//! | [`Expander`] | feature `alloc` | its own, kept from call to call | text in its buffers, or a [`Failure`] |
//! | [`expand_to_vec`] | feature `alloc` | as much as may be lent, made anew | an [`Expansion`] of vectors, or a [`Failure`] |
//! | [`sheet::expand`] | `core` alone | seven slices, and 10 KB of lines | as [`expand`], and whether the output is a [`Sheet`] |
//! | [`sheet::read`] | `core` alone | 10 KB of lines | the [`Sheet`] that a text is, or its first [`BadLine`] |
//! | [`Expander::expand_sheet`] | feature `alloc` | its own, kept from call to call | a [`Sheet`] in its buffers, or why there is [`NoSheet`] |
//! | [`expand_to_sheet`] | feature `alloc` | as much as may be lent, made anew | a [`SheetBuf`], or why there is [`NoSheet`] |
//! | [`Set`] | feature `alloc` | a vector | the texts that a template may include, for [`Expander::with_set`] and [`expand`] |
//! | [`set::items`] | `core` alone | none | what a set holds, or the byte at which it is bad |
//! | [`Refusal::position`] | `core` alone | 25 KB of stack | line and column of a refusal |
//! | [`LineIndex`], [`lines`] | `core` alone | 12 KB of its own; two slices | the same for any place of a text, and where a line starts |
//!
//! A text may have 65,536 bytes, each of the seven buffers too, a set 1,048,576, and a budget of steps is given. A run ends
//! on every input, without a heap and with nothing undefined. Done and exit give the whole text; every other answer is a
//! refusal, says where it came, and leaves the output and error buffers as they were. With one set and more room or budget
//! a run that had finished gives the same bytes and numbers. What is diverted comes out once.
//!
//! A small call (two lines, 37 bytes) took 13 µs with an [`Expander`], as in slices and from C, and 18 µs with
//! [`expand_to_vec`], or 215 µs where the heap gets the room from the system anew each time. That is the least of 20,000
//! calls each, measured on one machine (AMD EPYC, Linux): `cargo run --release --example small_call` measures it on yours.
//!
//! The work is done by a library written in Rattle and proved to meet its rules; this crate only calls it. A call needs up
//! to 1.25 MiB of stack, and calls in several threads don't know of each other.
#![no_std]
#![warn(missing_docs)]

#[cfg(feature = "alloc")]
extern crate alloc;

mod answer;
mod call;
#[cfg(feature = "alloc")]
mod expander;
#[cfg(feature = "alloc")]
mod expansion;
mod line_index;
pub mod lines;
mod refusal;
pub mod set;
pub mod sheet;

pub use answer::{Answer, Buffer, Opened};
pub use call::{expand, Buffers, Report, BUDGET, LONGEST};
#[cfg(feature = "alloc")]
pub use expander::{Expander, Written};
#[cfg(feature = "alloc")]
pub use expansion::{expand_to_vec, Expansion, Failure};
pub use line_index::{LineIndex, Position};
pub use refusal::Refusal;
#[cfg(feature = "alloc")]
pub use set::Set;
pub use set::{EMPTY as EMPTY_SET, LONGEST as LONGEST_SET};
#[cfg(feature = "alloc")]
pub use sheet::{expand_to_sheet, NoSheet, SheetBuf};
pub use sheet::{BadLine, Reading, Setting, Sheet};
