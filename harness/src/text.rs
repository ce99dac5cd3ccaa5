//! The text of a question: read and judged line by line, and written.

use crate::program::{
    skip_stays_inside, Op, Program, Question, Want, MAX_BUDGET, MAX_LOCS, MAX_OPS, MAX_SKIP, MAX_THREADS, REGISTERS,
};

pub const MAX_TEXT: usize = 1024;

/// A refused text: the number, and the line from 1, or 0 where there is none.
#[derive(Clone, Copy, Debug, PartialEq, Eq)]
pub struct Refusal {
    pub number: u8,
    pub line: usize,
}

const TOO_LONG: u8 = 1;
const MISSHAPEN: u8 = 2;
const OUT_OF_RANGE: u8 = 3;
const NINTH: u8 = 4;
const SKIP_PAST_END: u8 = 5;

/// The lines still to be read, and the number of the next one.
struct Lines<'a> {
    rest: &'a [u8],
    next: usize,
}

impl<'a> Lines<'a> {
    fn at_end(&self) -> bool {
        self.rest.is_empty()
    }

    /// Takes the next line, without its line feed. A missing line or line feed is refused here.
    fn take(&mut self) -> Result<&'a [u8], Refusal> {
        let end = self.rest.iter().position(|&byte| byte == b'\n');
        let end = end.ok_or(Refusal { number: MISSHAPEN, line: self.next })?;
        let line = &self.rest[..end];
        self.rest = &self.rest[end + 1..];
        self.next += 1;
        Ok(line)
    }

    /// Takes the next line and lets `judge` make something of it, or say what is wrong with it.
    fn judge<T>(&mut self, judge: impl FnOnce(&'a [u8]) -> Result<T, u8>) -> Result<T, Refusal> {
        let number = self.next;
        let line = self.take()?;
        judge(line).map_err(|wrong| Refusal { number: wrong, line: number })
    }
}

/// Reads a text: the question, or the first thing wrong with it.
pub fn read(text: &[u8]) -> Result<Question, Refusal> {
    if text.len() > MAX_TEXT {
        return Err(Refusal { number: TOO_LONG, line: 0 });
    }
    let mut lines = Lines { rest: text, next: 1 };
    let thread_count = lines.judge(|line| bounded(line, b"threads=", 1, MAX_THREADS as u64))?;
    let locs = lines.judge(|line| bounded(line, b"locs=", 1, MAX_LOCS as u64))? as usize;
    let budget = lines.judge(|line| bounded(line, b"budget=", 1, MAX_BUDGET))?;
    let want = lines.judge(|line| read_want(line, locs))?;

    let mut threads: Vec<Vec<Op>> = Vec::new();
    // The line, the thread and the place of each skip.
    let mut skips: Vec<(usize, usize, usize)> = Vec::new();
    while threads.len() < thread_count as usize || !lines.at_end() {
        let line_number = lines.next;
        lines.judge(|line| {
            if line.starts_with(b"thread=") {
                open_thread(line, &mut threads, thread_count as usize)
            } else {
                add_op(line, &mut threads, locs)
            }
        })?;
        if let Some(ops) = threads.last() {
            if let Some(Op::SkipIfZero { .. }) = ops.last() {
                skips.push((line_number, threads.len() - 1, ops.len() - 1));
            }
        }
    }

    // Only now the skips: each may land just behind its thread's last instruction.
    for (line, thread, at) in skips {
        let ops = &threads[thread];
        if let Op::SkipIfZero { count, .. } = ops[at] {
            if !skip_stays_inside(at, count, ops) {
                return Err(Refusal { number: SKIP_PAST_END, line });
            }
        }
    }
    Ok(Question { program: Program { locs, threads }, budget, want })
}

/// A thread line has to name the thread whose turn it is.
fn open_thread(line: &[u8], threads: &mut Vec<Vec<Op>>, count: usize) -> Result<(), u8> {
    let turn = format!("thread={}", threads.len());
    if threads.len() == count || line != turn.as_bytes() {
        return Err(MISSHAPEN);
    }
    threads.push(Vec::new());
    Ok(())
}

/// An op line belongs to the thread opened last: first its shape, then its numbers, then whether there is a place.
fn add_op(line: &[u8], threads: &mut [Vec<Op>], locs: usize) -> Result<(), u8> {
    let text = line.strip_prefix(b"op=").ok_or(MISSHAPEN)?;
    let ops = threads.last_mut().ok_or(MISSHAPEN)?;
    let op = read_op(text, locs)?;
    if ops.len() == MAX_OPS {
        return Err(NINTH);
    }
    ops.push(op);
    Ok(())
}

/// A decimal number without leading zeros. One of many digits is held at the largest u64: above every limit.
pub fn number(digits: &[u8]) -> Option<u64> {
    if digits.is_empty() || (digits.len() > 1 && digits[0] == b'0') {
        return None;
    }
    let mut value: u64 = 0;
    for &digit in digits {
        if !digit.is_ascii_digit() {
            return None;
        }
        value = value.saturating_mul(10).saturating_add(u64::from(digit - b'0'));
    }
    Some(value)
}

/// Numbers with commas between them; nothing if one of them is misshapen.
fn numbers<'a>(fields: impl Iterator<Item = &'a [u8]>) -> Result<Vec<u64>, u8> {
    fields.map(number).collect::<Option<_>>().ok_or(MISSHAPEN)
}

fn within(value: u64, low: u64, high: u64) -> Result<u64, u8> {
    if (low..=high).contains(&value) {
        Ok(value)
    } else {
        Err(OUT_OF_RANGE)
    }
}

/// A line "key=number" with the number's limits.
fn bounded(line: &[u8], key: &[u8], low: u64, high: u64) -> Result<u64, u8> {
    let digits = line.strip_prefix(key).ok_or(MISSHAPEN)?;
    within(number(digits).ok_or(MISSHAPEN)?, low, high)
}

fn read_want(line: &[u8], locs: usize) -> Result<Want, u8> {
    let text = line.strip_prefix(b"want=").ok_or(MISSHAPEN)?;
    if text == b"all" {
        return Ok(Want::All);
    }
    let values = numbers(text.split(|&byte| byte == b','))?;
    if values.len() != locs {
        return Err(MISSHAPEN);
    }
    let memory: Result<Vec<u8>, u8> = values.into_iter().map(byte).collect();
    Ok(Want::One(memory?))
}

fn byte(value: u64) -> Result<u8, u8> {
    within(value, 0, 255).map(|value| value as u8)
}

/// What stands behind "op=": a name and its numbers, with commas.
fn read_op(text: &[u8], locs: usize) -> Result<Op, u8> {
    let loc = |value| within(value, 0, locs as u64 - 1).map(|value| value as u8);
    let reg = |value| within(value, 0, REGISTERS as u64 - 1).map(|value| value as u8);
    let skip = |value| within(value, 1, u64::from(MAX_SKIP)).map(|value| value as u8);

    let mut fields = text.split(|&byte| byte == b',');
    let name = fields.next().unwrap_or_default();
    let operands = numbers(fields)?;
    match (name, operands.as_slice()) {
        (b"st", &[l, v]) => Ok(Op::Store { loc: loc(l)?, value: byte(v)? }),
        (b"sr", &[l, r]) => Ok(Op::StoreRegister { loc: loc(l)?, reg: reg(r)? }),
        (b"ld", &[r, l]) => Ok(Op::Load { reg: reg(r)?, loc: loc(l)? }),
        (b"cas", &[r, l, e, n]) => Ok(Op::Cas { reg: reg(r)?, loc: loc(l)?, expected: byte(e)?, new: byte(n)? }),
        (b"faa", &[r, l, v]) => Ok(Op::Faa { reg: reg(r)?, loc: loc(l)?, add: byte(v)? }),
        (b"mf", &[]) => Ok(Op::FullFence),
        (b"sf", &[]) => Ok(Op::StoreFence),
        (b"fl", &[l]) => Ok(Op::Flush { loc: loc(l)? }),
        (b"fo", &[l]) => Ok(Op::FlushOpt { loc: loc(l)? }),
        (b"bz", &[r, k]) => Ok(Op::SkipIfZero { reg: reg(r)?, count: skip(k)? }),
        _ => Err(MISSHAPEN),
    }
}

/// One instruction as the text has it, without "op=".
pub fn op_text(op: &Op) -> String {
    match *op {
        Op::Store { loc, value } => format!("st,{loc},{value}"),
        Op::StoreRegister { loc, reg } => format!("sr,{loc},{reg}"),
        Op::Load { reg, loc } => format!("ld,{reg},{loc}"),
        Op::Cas { reg, loc, expected, new } => format!("cas,{reg},{loc},{expected},{new}"),
        Op::Faa { reg, loc, add } => format!("faa,{reg},{loc},{add}"),
        Op::FullFence => "mf".to_string(),
        Op::StoreFence => "sf".to_string(),
        Op::Flush { loc } => format!("fl,{loc}"),
        Op::FlushOpt { loc } => format!("fo,{loc}"),
        Op::SkipIfZero { reg, count } => format!("bz,{reg},{count}"),
    }
}

/// Numbers with commas between them.
pub fn with_commas(values: &[u8]) -> String {
    let texts: Vec<String> = values.iter().map(u8::to_string).collect();
    texts.join(",")
}

/// The whole text of a question.
pub fn text_of(question: &Question) -> String {
    let want = match &question.want {
        Want::All => "all".to_string(),
        Want::One(memory) => with_commas(memory),
    };
    let program = &question.program;
    let mut text =
        format!("threads={}\nlocs={}\nbudget={}\nwant={want}\n", program.threads.len(), program.locs, question.budget);
    for (turn, ops) in program.threads.iter().enumerate() {
        text.push_str(&format!("thread={turn}\n"));
        for op in ops {
            text.push_str(&format!("op={}\n", op_text(op)));
        }
    }
    text
}

/// Writes the text to the front of the lent buffer, 0 behind: its length, or 6, 7 or 9 and the buffer unchanged.
pub fn write(question: &Question, lent: &mut [u8]) -> Result<usize, u8> {
    if let Some(number) = question.refusal() {
        return Err(number);
    }
    let text = text_of(question);
    if text.len() > lent.len() {
        return Err(9);
    }
    lent.fill(0);
    lent[..text.len()].copy_from_slice(text.as_bytes());
    Ok(text.len())
}
