//! Requests made from fixed seeds: the same number of the same family is the same request everywhere.

mod codes;
mod damage;
mod forum;
mod inputs;
mod programs;
mod questions;

use crate::protocol::{Kind, Request};
use crate::random::Random;

pub use codes::allowed_walk_from;
pub use inputs::{fixed_inputs, input, large_input};
pub use programs::{any_program, full_program, small_program};

/// Walks of the comparison end behind this many runs.
pub const MOST_RUNS: u64 = 1500;

#[derive(Clone, Copy, Debug, PartialEq, Eq, PartialOrd, Ord)]
pub enum Family {
    /// Legal questions, asked.
    Questions,
    /// Texts with something changed, asked or written again.
    Damaged,
    /// Lists of codes, followed.
    Codes,
    /// Legal questions, written into buffers of about their length.
    Written,
    /// Texts from the forum, mended.
    Forum,
    /// The same lists of codes: which of them is the first that is not allowed.
    Legality,
    /// The same lists of codes: the state after the longest allowed beginning.
    States,
}

impl Family {
    pub const ALL: [Family; 7] = [
        Family::Questions,
        Family::Damaged,
        Family::Codes,
        Family::Legality,
        Family::States,
        Family::Written,
        Family::Forum,
    ];

    pub fn name(self) -> &'static str {
        match self {
            Family::Questions => "questions",
            Family::Damaged => "damaged texts",
            Family::Codes => "lists of codes",
            Family::Legality => "lists of codes, legality",
            Family::States => "lists of codes, state",
            Family::Written => "written texts",
            Family::Forum => "texts from the forum",
        }
    }

    /// How many requests a whole comparison makes.
    pub fn count(self) -> u64 {
        match self {
            Family::Written => 6_000,
            _ => 24_000,
        }
    }

    /// The seed of one of its requests. The three families of lists have the same seeds, and so the same lists.
    pub fn seed(self, index: u64) -> u64 {
        let family = match self {
            Family::Legality | Family::States => Family::Codes,
            other => other,
        };
        (family as u64 + 1) << 32 | index
    }
}

/// The request that a seed of a family stands for.
pub fn request(family: Family, seed: u64) -> Request {
    let random = &mut Random::new(seed);
    match family {
        Family::Questions => questions::asked(random),
        Family::Damaged => damage::damaged(random),
        Family::Codes => codes::listed(random, Kind::Follow),
        Family::Legality => codes::listed(random, Kind::Legality),
        Family::States => codes::listed(random, Kind::State),
        Family::Written => questions::written(random),
        Family::Forum => forum::mended(random).0,
    }
}

/// The text that mending must make of a request's, where the generator knows it: that which it damaged.
pub fn original(family: Family, seed: u64) -> Option<Vec<u8>> {
    match family {
        Family::Forum => forum::mended(&mut Random::new(seed)).1,
        _ => None,
    }
}
