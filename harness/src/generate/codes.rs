//! Lists of codes: allowed ones of every length, ones with a bad code in them, and any.

use super::damage::damaged;
use super::programs::{any_program, full_program, small_program};
use super::questions::question;
use crate::machine::{step, State, LAST_CODE};
use crate::program::{Program, Question, Want};
use crate::protocol::{Kind, Request};
use crate::random::Random;
use crate::text::text_of;

/// Longer than any run: three steps for each of 32 instructions.
const BEYOND_ANY_RUN: usize = 97;

/// A list of codes for a question, to be followed or judged.
pub fn listed(random: &mut Random, kind: Kind) -> Request {
    let question = question_for_codes(random);
    let codes = codes_for(random, &question.program);
    let mut text = text_of(&question).into_bytes();
    match random.below(60) {
        0 => {
            text.pop();
        }
        // A text that is refused by any number, or one of another program.
        1 => text = damaged(random).text,
        _ => (),
    }
    Request { kind, lent: 0, text, codes }
}

/// A question with a program of any size, since it is not walked.
pub fn question_for_codes(random: &mut Random) -> Question {
    if random.once_in(4) {
        return question(random);
    }
    let program = match random.below(6) {
        0 => small_program(random),
        1 | 2 => full_program(random),
        _ => any_program(random),
    };
    Question { program, budget: 1 + random.below(100) as u64, want: Want::All }
}

pub fn codes_for(random: &mut Random, program: &Program) -> Vec<u8> {
    let length = random.below(BEYOND_ANY_RUN);
    match random.below(13) {
        // An allowed list, to its end or cut short.
        0..=3 => allowed_walk(random, program, length).0,
        4 | 5 => allowed_walk(random, program, usize::MAX).0,
        // A bad code behind an allowed list of any length, and perhaps more behind it.
        6..=9 => {
            let (mut codes, state) = allowed_walk(random, program, length);
            codes.push(bad_code(random, program, &state));
            for _ in 0..random.below(4) {
                codes.push(random.byte());
            }
            codes
        }
        // One code of an allowed list changed, lost or doubled.
        10 => {
            let mut codes = allowed_walk(random, program, usize::MAX).0;
            if !codes.is_empty() {
                let at = random.below(codes.len());
                match random.below(3) {
                    0 => codes[at] = random.below(usize::from(LAST_CODE) + 2) as u8,
                    1 => codes.insert(at, codes[at]),
                    _ => {
                        codes.remove(at);
                    }
                }
            }
            codes
        }
        // Longer than any run.
        11 => {
            let mut codes = allowed_walk(random, program, usize::MAX).0;
            let more = if random.once_in(20) { 5000 } else { BEYOND_ANY_RUN };
            codes.extend((0..more).map(|_| random.below(usize::from(LAST_CODE) + 1) as u8));
            codes
        }
        _ => (0..random.below(BEYOND_ANY_RUN)).map(|_| random.byte()).collect(),
    }
}

/// Allowed codes, at most so many, and the state behind them.
pub fn allowed_walk(random: &mut Random, program: &Program, length: usize) -> (Vec<u8>, State) {
    allowed_walk_from(random, program, State::start(program), length)
}

/// The same from any state on. Some walks like one sort of step better than others.
pub fn allowed_walk_from(random: &mut Random, program: &Program, start: State, length: usize) -> (Vec<u8>, State) {
    let taste = random.below(6);
    let strict = random.once_in(2);
    let mut state = start;
    let mut codes = Vec::new();
    while codes.len() < length {
        let allowed: Vec<(u8, State)> =
            (0..=LAST_CODE).filter_map(|code| step(program, &state, code).ok().map(|next| (code, next))).collect();
        let best = allowed.iter().map(|(code, _)| rank(taste, *code)).min();
        let liked: Vec<&(u8, State)> = allowed.iter().filter(|(code, _)| Some(rank(taste, *code)) == best).collect();
        let (code, next) = if !liked.is_empty() && (strict || !random.once_in(4)) {
            random.pick(&liked)
        } else if !allowed.is_empty() {
            random.pick(&allowed)
        } else {
            break;
        };
        codes.push(*code);
        state = next.clone();
    }
    (codes, state)
}

/// How late a code comes to a taste.
fn rank(taste: usize, code: u8) -> u8 {
    let place = code % 8;
    let overtakes = (16..64).contains(&code) && place > 0;
    match taste {
        0 => u8::from(code >= 16),
        1 => u8::from(!(16..64).contains(&code)),
        2 => u8::from(code < 64),
        // The queues are filled.
        3 => u8::from(code >= 64),
        // The buffers are filled, then entries overtake from far behind.
        4 if code < 16 => 0,
        4 if overtakes => 8 - place,
        4 => 8,
        _ => 0,
    }
}

/// A code that is not allowed here, of a sort that is chosen first.
fn bad_code(random: &mut Random, program: &Program, state: &State) -> u8 {
    let (low, high) = *random.pick(&[(0, 3), (4, 15), (16, 47), (16, 47), (48, 63), (64, 69), (70, 255)]);
    let bad: Vec<u8> = (low..=high).filter(|&code| step(program, state, code).is_err()).collect();
    if bad.is_empty() {
        u8::MAX
    } else {
        *random.pick(&bad)
    }
}
