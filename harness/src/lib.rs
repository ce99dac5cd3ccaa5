//! A second source for the crash bench, written from document 01, with request 2's cas and the refusals that request 5 leaves; what mends a text,
//! from the words of request 1; whether runs are legal, and the state after a run, from those of request 3.
//!
//! The simulator: `program`, `text`, `machine`, `ask`, `follow`, `print`; `mend`; `legal`. Two faster ways to count: `fast` and `hand`.
//! The comparison with the proved side: `protocol`, `reply`, `generate`, `compare`, `own`, `shrink`; `feed`, `runs`. Measured: `paced`,
//! `questions`, `timed`.

pub mod ask;
pub mod compare;
pub mod fast;
pub mod feed;
pub mod follow;
pub mod generate;
pub mod hand;
pub mod legal;
pub mod machine;
pub mod mend;
pub mod own;
pub mod paced;
pub mod pack;
pub mod print;
pub mod program;
pub mod protocol;
pub mod questions;
pub mod random;
pub mod reply;
pub mod runs;
pub mod shrink;
pub mod text;
pub mod timed;
