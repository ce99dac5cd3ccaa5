//! A faster way to count: each state is met once, with the number of runs below it and the memories they leave.

use crate::machine::{step, State, LAST_CODE};
use crate::program::Program;
use std::collections::{BTreeSet, HashMap};
use std::rc::Rc;

/// What lies below a state: the run that led to it, and all that extend it.
struct Below {
    runs: u128,
    memories: BTreeSet<Vec<u8>>,
}

pub struct Table<'a> {
    program: &'a Program,
    below: HashMap<State, Rc<Below>>,
}

impl<'a> Table<'a> {
    pub fn new(program: &'a Program) -> Table<'a> {
        Table { program, below: HashMap::new() }
    }

    /// The states met so far.
    pub fn states(&self) -> usize {
        self.below.len()
    }

    fn look(&mut self, state: &State) -> Rc<Below> {
        if let Some(known) = self.below.get(state) {
            return known.clone();
        }
        let mut runs: u128 = 1;
        let mut memories = BTreeSet::from([state.memory.clone()]);
        for code in 0..=LAST_CODE {
            if let Ok(next) = step(self.program, state, code) {
                let more = self.look(&next);
                runs = runs.saturating_add(more.runs);
                memories.extend(more.memories.iter().cloned());
            }
        }
        let below = Rc::new(Below { runs, memories });
        self.below.insert(state.clone(), below.clone());
        below
    }

    /// The total of runs (held at the largest u128) and all memories in dictionary order.
    pub fn all(&mut self) -> (u128, Vec<Vec<u8>>) {
        let below = self.look(&State::start(self.program));
        (below.runs, below.memories.iter().cloned().collect())
    }

    /// The first run that leaves `wanted`, with its place; nothing if no run does.
    pub fn first(&mut self, wanted: &[u8]) -> Option<(u128, Vec<u8>)> {
        let mut state = State::start(self.program);
        if !self.look(&state).memories.contains(wanted) {
            return None;
        }
        let mut place: u128 = 1;
        let mut run = Vec::new();
        while state.memory != wanted {
            place = place.saturating_add(1);
            let mut chosen = None;
            for code in 0..=LAST_CODE {
                let Ok(next) = step(self.program, &state, code) else {
                    continue;
                };
                let below = self.look(&next);
                if below.memories.contains(wanted) {
                    run.push(code);
                    chosen = Some(next);
                    break;
                }
                // All the runs through this code come before the one that is sought.
                place = place.saturating_add(below.runs);
            }
            state = chosen?;
        }
        Some((place, run))
    }
}
