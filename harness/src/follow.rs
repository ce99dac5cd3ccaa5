//! A list of codes: the index of the first one that is not allowed; the state after the longest allowed beginning; and both at once, as
//! document 01 has it. Each of the three walks the list by itself, so that the tests can hold them beside each other.

use crate::machine::{step, NotAllowed, State};
use crate::program::{Program, MAX_LOCS, MAX_THREADS, REGISTERS};

/// What stands after the last code. Unused locations, registers and threads read 0.
#[derive(Clone, Copy, Debug, Default, PartialEq, Eq)]
pub struct Followed {
    pub memory: [u8; MAX_LOCS],
    pub registers: [[u8; REGISTERS]; MAX_THREADS],
    pub places: [u8; MAX_THREADS],
}

impl Followed {
    fn of(program: &Program, state: &State) -> Followed {
        let mut followed = Followed::default();
        followed.memory[..program.locs].copy_from_slice(&state.memory);
        for (t, thread) in state.threads.iter().enumerate() {
            followed.registers[t] = thread.registers;
            followed.places[t] = thread.place as u8;
        }
        followed
    }
}

/// A refusal: 6, or 10 with the index of the code.
#[derive(Clone, Copy, Debug, PartialEq, Eq)]
pub enum NotFollowed {
    BreaksLimit,
    NotAllowed { index: usize },
}

pub fn follow(program: &Program, codes: &[u8]) -> Result<Followed, NotFollowed> {
    if !program.keeps_limits() {
        return Err(NotFollowed::BreaksLimit);
    }
    let mut state = State::start(program);
    for (index, &code) in codes.iter().enumerate() {
        state = step(program, &state, code).map_err(|NotAllowed| NotFollowed::NotAllowed { index })?;
    }
    Ok(Followed::of(program, &state))
}

/// The number of the only refusal of what `follow` is split into.
const BREAKS_LIMIT: u8 = 6;

/// The index of the first code that is not allowed, or that there is none.
pub fn legality(program: &Program, codes: &[u8]) -> Result<Option<usize>, u8> {
    if !program.keeps_limits() {
        return Err(BREAKS_LIMIT);
    }
    let mut state = State::start(program);
    for (index, &code) in codes.iter().enumerate() {
        match step(program, &state, code) {
            Ok(next) => state = next,
            Err(NotAllowed) => return Ok(Some(index)),
        }
    }
    Ok(None)
}

/// The longest allowed beginning of a list, by its length, and what stands after it.
#[derive(Clone, Copy, Debug, PartialEq, Eq)]
pub struct Beginning {
    pub length: usize,
    pub after: Followed,
}

/// The longest allowed beginning: it is never longer than the list, and nothing behind it is looked at but one code.
pub fn longest(program: &Program, codes: &[u8]) -> Result<Beginning, u8> {
    if !program.keeps_limits() {
        return Err(BREAKS_LIMIT);
    }
    let mut state = State::start(program);
    let mut length = 0;
    while length < codes.len() {
        state = match step(program, &state, codes[length]) {
            Ok(next) => next,
            Err(NotAllowed) => break,
        };
        length += 1;
    }
    Ok(Beginning { length, after: Followed::of(program, &state) })
}
