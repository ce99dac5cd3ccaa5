//! Short ways to write questions in tests.
#![allow(dead_code)]

use harness::program::{Program, Question, Want};
use harness::text::read;

/// A question: threads as words with blanks between them, `want` as in the text.
pub fn question(threads: &[&str], locs: usize, budget: u64, want: &str) -> Question {
    read(text(threads, locs, budget, want).as_bytes()).expect("a legal question")
}

pub fn text(threads: &[&str], locs: usize, budget: u64, want: &str) -> String {
    let mut text = format!("threads={}\nlocs={locs}\nbudget={budget}\nwant={want}\n", threads.len());
    for (turn, ops) in threads.iter().enumerate() {
        text.push_str(&format!("thread={turn}\n"));
        for op in ops.split_whitespace() {
            text.push_str(&format!("op={op}\n"));
        }
    }
    text
}

pub fn program(threads: &[&str], locs: usize) -> Program {
    question(threads, locs, 1, "all").program
}

/// A question made in memory, so that it may break limits.
pub fn in_memory(program: Program, budget: u64, want: Want) -> Question {
    Question { program, budget, want }
}
