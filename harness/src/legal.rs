//! What the program `legal` prints: for one question's text and the run lines behind it, whether each run is legal.

use crate::follow::legality;
use crate::program::Program;
use crate::text::{number, read};

/// A longer line, its line feed not counted, is refused.
pub const MAX_LINE: usize = 1024;

const TOO_LONG: u8 = 1;
const MISSHAPEN: u8 = 2;
const OUT_OF_RANGE: u8 = 3;

/// The whole output for an input: one line if the text is refused, else one for each line from the first run line on.
pub fn print_legal(input: &[u8]) -> String {
    let (text, runs) = split(input);
    let question = match read(&text.concat()) {
        Ok(question) => question,
        Err(refusal) => return refused(refusal.number, refusal.line),
    };
    let numbered = runs.iter().zip(text.len() + 1..);
    numbered.map(|(line, at)| answer(&question.program, line, at)).collect()
}

/// The lines of the text, and those from the first one on that begins with `run=`; each with its line feed, which the last may lack.
pub fn split(input: &[u8]) -> (Vec<&[u8]>, Vec<&[u8]>) {
    let mut lines: Vec<&[u8]> = input.split_inclusive(|&byte| byte == b'\n').collect();
    let first = lines.iter().position(|line| line.starts_with(b"run=")).unwrap_or(lines.len());
    let runs = lines.split_off(first);
    (lines, runs)
}

/// The answer to one line, which is the `at`-th of the input.
fn answer(program: &Program, line: &[u8], at: usize) -> String {
    let judged = read_run(line).and_then(|codes| legality(program, &codes));
    match judged {
        Ok(None) => "answer=legal\n".to_string(),
        Ok(Some(index)) => format!("answer=illegal,{index}\n"),
        Err(number) => refused(number, at),
    }
}

fn refused(number: u8, line: usize) -> String {
    format!("answer=refused,{number},{}\n", line.min(u32::MAX as usize))
}

/// The codes of a run line, or the number by which it is refused: 1 before 2 before 3, wherever on the line they are.
fn read_run(line: &[u8]) -> Result<Vec<u8>, u8> {
    let (line, fed) = match line.strip_suffix(b"\n") {
        Some(line) => (line, true),
        None => (line, false),
    };
    if line.len() > MAX_LINE {
        return Err(TOO_LONG);
    }
    let fields = line.strip_prefix(b"run=").filter(|_| fed).ok_or(MISSHAPEN)?;
    if fields.is_empty() {
        return Ok(Vec::new());
    }
    let numbers: Option<Vec<u64>> = fields.split(|&byte| byte == b',').map(number).collect();
    let codes = numbers.ok_or(MISSHAPEN)?.into_iter().map(u8::try_from);
    codes.collect::<Result<_, _>>().map_err(|_| OUT_OF_RANGE)
}
