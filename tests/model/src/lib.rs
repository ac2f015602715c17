//! A plain executable model of the expander that document 01 defines, with the requests 1, 2, 3, 5
//! and 7 of document 02, of the sheet that its request 4 reads, of the index of lines that its
//! request 6 asks for, and of the numbers that its request 8 gives to bytes.
//!
//! Its rules are written from the papers alone and care for clarity first. Memory comes from the
//! heap; the seven lent lengths only judge what the state holds after each step, as 01 says: "Room
//! is judged on the state after a step, not on the way."
//!
//! The modules follow the paper: [`bytes`], [`marks`], [`tokens`] and [`house`] read; [`calls`],
//! [`definitions`], [`predefined`], [`streams`] and [`ahead`] hold; [`numbers`], [`eval`],
//! [`expansion`] and [`macros`] work; [`step`] and [`run`] join them. [`sheet`] reads what a run has
//! written, and answers questions by name. [`history`] numbers the bytes of a run by what its steps did
//! to the streams, and holds what request 8 says to them. [`lines`] stands by itself: it indexes a text
//! and answers questions of the index. [`table`], [`random`], [`generate`] and [`demand3`] serve the
//! programs `vectors`, `lines`, `sheets`, `histories`, `random`, `random_sheets` and `random_histories`,
//! and tests/differential. [`ways`] serves tests: it watches runs and looks at cases of the index and of
//! the sheet. [`buckets`] serves these two, for request 9, which changes no answer. No rule asks any of
//! these.

pub mod ahead;
pub mod answer;
pub mod buckets;
pub mod bytes;
pub mod calls;
pub mod definitions;
pub mod demand3;
pub mod eval;
pub mod expansion;
pub mod generate;
pub mod history;
pub mod house;
pub mod lines;
pub mod macros;
pub mod marks;
pub mod numbers;
pub mod predefined;
pub mod random;
pub mod run;
pub mod sheet;
pub mod state;
pub mod step;
pub mod streams;
pub mod table;
pub mod tokens;
pub mod ways;

pub use answer::{Report, Setting, ANSWERS};
pub use house::{NO_ITEMS, SET_LIMIT};
pub use run::{expand, expand_buffers, expand_recorded, expand_traced, Trace};

/// No text and no lent buffer may be longer. 01: "the text or a buffer exceeds 65,536 bytes".
pub const LIMIT: usize = 65_536;
