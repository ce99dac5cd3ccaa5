//! The two questions, answered by walking every run in dictionary order.

use crate::machine::{step, State, LAST_CODE};
use crate::program::{Program, Question, Want};
use std::collections::BTreeSet;

/// What asking gives back. Memories and runs stand at the front of the lent buffer.
#[derive(Clone, Copy, Debug, PartialEq, Eq)]
pub enum Answer {
    /// All memories: the total of runs and the number of memories.
    All { runs: u64, memories: usize },
    /// The memory was reached by the run at this place, of this length.
    Reached { place: u64, length: usize },
    /// No run leaves the memory; the total of runs.
    Never { runs: u64 },
    /// Refusal 8, with the budget.
    Over { budget: u64 },
    /// Any other refusal.
    Refused { number: u8 },
}

/// One walk over the runs, from the empty one on.
struct Walk<'a> {
    program: &'a Program,
    budget: u64,
    wanted: Option<&'a [u8]>,
    /// Runs met so far, the present one included.
    runs: u64,
    run: Vec<u8>,
    memories: BTreeSet<Vec<u8>>,
}

/// Why a walk ends before its last run.
enum End {
    Found,
    OverBudget,
}

impl Walk<'_> {
    /// Meets the run that led to `state`, then all its extensions, smallest code first.
    fn visit(&mut self, state: &State) -> Result<(), End> {
        if self.runs == self.budget {
            return Err(End::OverBudget);
        }
        self.runs += 1;
        match self.wanted {
            Some(memory) if memory == state.memory => return Err(End::Found),
            Some(_) => (),
            None => {
                self.memories.insert(state.memory.clone());
            }
        }
        for code in 0..=LAST_CODE {
            if let Ok(next) = step(self.program, state, code) {
                self.run.push(code);
                self.visit(&next)?;
                self.run.pop();
            }
        }
        Ok(())
    }
}

/// Answers a question. The lent buffer is left as document 01 says for each answer.
pub fn ask(question: &Question, lent: &mut [u8]) -> Answer {
    if let Some(number) = question.refusal() {
        return Answer::Refused { number };
    }
    lent.fill(0);
    let mut walk = Walk {
        program: &question.program,
        budget: question.budget,
        wanted: match &question.want {
            Want::All => None,
            Want::One(memory) => Some(memory),
        },
        runs: 0,
        run: Vec::new(),
        memories: BTreeSet::new(),
    };
    let end = walk.visit(&State::start(&question.program));
    let (answer, bytes) = match (end, walk.wanted) {
        (Err(End::OverBudget), _) => return Answer::Over { budget: question.budget },
        (Err(End::Found), _) => (Answer::Reached { place: walk.runs, length: walk.run.len() }, walk.run),
        (Ok(()), Some(_)) => (Answer::Never { runs: walk.runs }, Vec::new()),
        (Ok(()), None) => (
            Answer::All { runs: walk.runs, memories: walk.memories.len() },
            walk.memories.into_iter().flatten().collect(),
        ),
    };
    if bytes.len() > lent.len() {
        return Answer::Refused { number: 9 };
    }
    lent[..bytes.len()].copy_from_slice(&bytes);
    answer
}
