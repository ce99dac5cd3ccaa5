//! What the program `bench` prints for a question's text.

use crate::ask::{ask, Answer};
use crate::text::{read, with_commas};

/// The length of the buffer that `bench` lends.
pub const BENCH_LENDS: usize = 4096;

/// The whole output for a text, when a buffer of `lent_length` bytes is lent.
pub fn print(text: &[u8], lent_length: usize) -> String {
    let question = match read(text) {
        Ok(question) => question,
        Err(refusal) => return refused(refusal.number, refusal.line),
    };
    let mut lent = vec![0; lent_length];
    match ask(&question, &mut lent) {
        Answer::All { runs, memories } => {
            let mut out = format!("answer=all\nruns={runs}\nmemories={memories}\n");
            for memory in lent.chunks(question.program.locs).take(memories) {
                out.push_str(&format!("memory={}\n", with_commas(memory)));
            }
            out
        }
        Answer::Reached { place, length } => {
            let run = with_commas(&lent[..length]);
            format!("answer=reached\nplace={place}\nrun={run}\n")
        }
        Answer::Never { runs } => format!("answer=never\nruns={runs}\n"),
        Answer::Over { budget } => format!("answer=over\nbudget={budget}\n"),
        Answer::Refused { number } => refused(number, 0),
    }
}

/// The three lines of a refusal.
pub fn refused(number: u8, line: usize) -> String {
    format!("answer=refused\nnumber={number}\nline={line}\n")
}
