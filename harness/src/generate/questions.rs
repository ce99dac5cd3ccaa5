//! Legal questions: budgets about the total, memories that are reached and that are not, buffers of about the answer's length.

use super::programs::{any_program, small_program};
use super::MOST_RUNS;
use crate::hand::{self, Counts};
use crate::pack::packed;
use crate::print::BENCH_LENDS;
use crate::program::{Program, Question, Want, MAX_BUDGET};
use crate::protocol::{Kind, Request};
use crate::random::Random;
use crate::text::text_of;

/// What the hand-written walk finds with a budget. It only guides the choice; the answer is the simulator's.
pub fn counted(program: &Program, budget: u64, want: &Want) -> Box<Counts> {
    let mut counts = Box::new(Counts::new());
    let wanted = match want {
        Want::All => None,
        Want::One(memory) => Some(hand::memory_number(memory)),
    };
    hand::walk(&packed(program), budget, wanted, &mut counts);
    counts
}

/// A question whose walk ends soon, by its total or by its budget.
pub fn question(random: &mut Random) -> Question {
    let program = if random.once_in(8) { any_program(random) } else { small_program(random) };
    let known = counted(&program, MOST_RUNS, &Want::All);
    let budget =
        if known.over { random.within(1, MOST_RUNS as usize) as u64 } else { budget_about(random, known.runs) };
    let want = if random.below(5) < 2 { Want::All } else { Want::One(memory_about(random, &program, &known)) };
    Question { program, budget, want }
}

/// The total itself, one below, one above, or anything.
fn budget_about(random: &mut Random, total: u64) -> u64 {
    let budget = match random.below(8) {
        0..=2 => total,
        3 => total - 1,
        4 => total + 1,
        5 => random.within(1, total as usize) as u64,
        6 => total + random.below(1000) as u64,
        _ => MAX_BUDGET - random.below(2) as u64,
    };
    budget.max(1)
}

/// A memory that was met, one that differs from it in one place, or any.
fn memory_about(random: &mut Random, program: &Program, known: &Counts) -> Vec<u8> {
    let met = *random.pick(&known.memories[..known.memory_count]);
    let mut memory: Vec<u8> = met.to_be_bytes()[..program.locs].to_vec();
    match random.below(8) {
        0..=3 => (),
        4..=6 => {
            let loc = random.below(program.locs);
            let other = *random.pick(&known.memories[..known.memory_count]);
            memory[loc] = if random.once_in(2) { other.to_be_bytes()[loc] } else { random.below(3) as u8 };
        }
        _ => memory.iter_mut().for_each(|value| *value = random.byte()),
    }
    memory
}

/// A question, with a lent buffer of about the length that its answer needs.
pub fn asked(random: &mut Random) -> Request {
    let question = question(random);
    let counts = counted(&question.program, question.budget, &question.want);
    let needed = match &question.want {
        Want::All => counts.memory_count * question.program.locs,
        Want::One(_) => counts.run_length,
    };
    let lent = lent_about(random, needed);
    Request { kind: Kind::Query, lent, text: text_of(&question).into_bytes(), codes: Vec::new() }
}

/// A question to be written, with a lent buffer of about its text's length.
pub fn written(random: &mut Random) -> Request {
    let mut question = question(random);
    if random.once_in(4) {
        question.program = any_program(random);
        question.want = Want::All;
    }
    if random.once_in(4) {
        question.budget = random.within(1, MAX_BUDGET as usize) as u64;
    }
    let text = text_of(&question).into_bytes();
    let lent = lent_about(random, text.len());
    Request { kind: Kind::Write, lent, text, codes: Vec::new() }
}

/// A length of a buffer: what bench lends, or close to what is needed.
fn lent_about(random: &mut Random, needed: usize) -> u16 {
    let lent = match random.below(12) {
        0..=5 => BENCH_LENDS,
        6 | 7 => needed,
        8 => needed.saturating_sub(1),
        9 => needed + 1,
        10 => 0,
        _ => random.below(200),
    };
    lent.min(BENCH_LENDS) as u16
}
