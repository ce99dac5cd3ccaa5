//! Makes a request that shows a difference smaller, while the difference stays.

use crate::hand::{self, Counts};
use crate::mend::mended;
use crate::pack::packed;
use crate::print::BENCH_LENDS;
use crate::program::{Op, Program, Question, Want};
use crate::protocol::{Kind, Request};
use crate::text::{read, text_of};
use std::iter::successors;
use std::ops::Range;

/// Requests tried at most for one difference.
const MOST_TRIES: usize = 20_000;
const TRIED_AT_ONCE: usize = 50;
/// A smaller program may have more runs; beyond this many it isn't tried.
const MOST_RUNS: u64 = 20_000;
/// Totals are looked for up to here.
const MOST_TOTAL: u64 = 2000;

/// The smallest request found that still differs; `first_that_differs` gives the index of one in a list.
pub fn shrink(request: &Request, first_that_differs: &mut dyn FnMut(&[Request]) -> Option<usize>) -> Request {
    let mut best = request.clone();
    let mut tries = 0;
    'smaller: loop {
        let from = best.clone();
        let mut smaller = candidates(&from).filter(ends_soon);
        loop {
            let few: Vec<Request> = smaller.by_ref().take(TRIED_AT_ONCE).collect();
            tries += few.len();
            if few.is_empty() || tries > MOST_TRIES {
                return best;
            }
            if let Some(index) = first_that_differs(&few) {
                best = few[index].clone();
                continue 'smaller;
            }
        }
    }
}

fn ends_soon(request: &Request) -> bool {
    if request.kind != Kind::Query {
        return true;
    }
    let Ok(question) = read(&request.text) else {
        return true;
    };
    if question.budget <= MOST_RUNS {
        return true;
    }
    let wanted = match &question.want {
        Want::All => None,
        Want::One(memory) => Some(hand::memory_number(memory)),
    };
    let mut counts = Box::new(Counts::new());
    hand::walk(&packed(&question.program), MOST_RUNS, wanted, &mut counts);
    !counts.over
}

/// The number of all runs, if it is not too large.
fn total(program: &Program) -> Option<u64> {
    if !program.keeps_limits() {
        return None;
    }
    let mut counts = Box::new(Counts::new());
    hand::walk(&packed(program), MOST_TOTAL, None, &mut counts);
    (!counts.over).then_some(counts.runs)
}

/// Requests a little smaller than this one, the boldest first; each is made only when it is tried, as a long text has many.
fn candidates(request: &Request) -> Box<dyn Iterator<Item = Request> + '_> {
    let with_text = |text: Vec<u8>| Request { text, ..request.clone() };
    let lents = smaller_lents(request).into_iter().map(|lent| Request { lent, ..request.clone() });
    let codes = shorter_lists(&request.codes).map(|codes| Request { codes, ..request.clone() });
    let lents_and_codes = lents.chain(codes);
    match (request.kind, read(&request.text)) {
        // Mending looks at bytes, not at a question.
        (Kind::Mend, _) => Box::new(lents_and_codes.chain(smaller_mendings(request))),
        (_, Ok(question)) => {
            let texts = smaller_questions(&question).into_iter().map(|smaller| text_of(&smaller).into_bytes());
            Box::new(lents_and_codes.chain(texts.map(with_text)))
        }
        (_, Err(_)) => Box::new(lents_and_codes.chain(shorter_texts(&request.text).map(with_text))),
    }
}

/// Lent lengths that are smaller, or plainer, than the request's.
fn smaller_lents(request: &Request) -> Vec<u16> {
    match request.kind {
        Kind::Query if usize::from(request.lent) != BENCH_LENDS => vec![BENCH_LENDS as u16],
        Kind::Write if request.lent > 0 => vec![0, request.lent / 2, request.lent - 1],
        Kind::Mend => {
            let needed = needed(&request.text);
            let mut lents = vec![0, 1, needed, needed + 1, request.lent / 2, request.lent.saturating_sub(1)];
            lents.retain(|&lent| lent < request.lent);
            lents
        }
        _ => Vec::new(),
    }
}

/// The length of the text, mended.
fn needed(text: &[u8]) -> u16 {
    mended(text).text.len().min(usize::from(u16::MAX) - 1) as u16
}

/// Requests to mend a shorter or a plainer text. A lent length at most one off what is needed is tried at the same distance too.
fn smaller_mendings(request: &Request) -> impl Iterator<Item = Request> + '_ {
    let distance = i32::from(request.lent) - i32::from(needed(&request.text));
    plainer_texts(&request.text).flat_map(move |text| {
        let lent = i32::from(needed(&text)) + distance;
        let moved = (-1..=1).contains(&distance) && (0..i32::from(request.lent)).contains(&lent);
        let moved = moved.then(|| Request { lent: lent as u16, text: text.clone(), ..request.clone() });
        moved.into_iter().chain([Request { text, ..request.clone() }])
    })
}

/// Each half of so many items, then each quarter .. and each of them.
fn pieces(length: usize) -> impl Iterator<Item = Range<usize>> {
    let sizes = successors(Some(length.div_ceil(2)), |&size| (size > 1).then(|| size.div_ceil(2)));
    sizes
        .take_while(|&size| size > 0)
        .flat_map(move |size| (0..length).step_by(size).map(move |start| start..(start + size).min(length)))
}

/// The list without a half, a quarter .. or one of its items.
fn shorter_lists(items: &[u8]) -> impl Iterator<Item = Vec<u8>> + '_ {
    pieces(items.len()).map(|piece| [&items[..piece.start], &items[piece.end..]].concat())
}

/// The text without a piece of it, or with that piece made plain if it is not.
fn plainer_texts(text: &[u8]) -> impl Iterator<Item = Vec<u8>> + '_ {
    pieces(text.len()).flat_map(move |piece| {
        let without = [&text[..piece.start], &text[piece.end..]].concat();
        let plain = [&text[..piece.start], &vec![b'x'; piece.len()], &text[piece.end..]].concat();
        [Some(without), Some(plain).filter(|plain| plain != text)].into_iter().flatten()
    })
}

/// The text without one of its lines, or without some of its bytes.
fn shorter_texts(text: &[u8]) -> impl Iterator<Item = Vec<u8>> + '_ {
    let lines: Vec<&[u8]> = text.split_inclusive(|&byte| byte == b'\n').collect();
    let fewer_lines =
        (0..lines.len()).map(move |dropped| [lines[..dropped].concat(), lines[dropped + 1..].concat()].concat());
    fewer_lines.chain(shorter_lists(text))
}

/// Questions with a thread, an instruction or a location less, or with a lower number.
fn smaller_questions(question: &Question) -> Vec<Question> {
    let mut found = Vec::new();
    let program = &question.program;
    // How far the budget is from the total: a smaller program is tried at the same distance too.
    let distance = total(program).map(|total| question.budget as i64 - total as i64);
    let mut add = |program: Program| {
        if let (Some(distance @ -1..=1), Some(total)) = (distance, total(&program)) {
            let budget = (total as i64 + distance) as u64;
            if budget < question.budget {
                found.push(Question { program: program.clone(), budget, ..question.clone() });
            }
        }
        found.push(Question { program, ..question.clone() });
    };

    for t in 0..program.threads.len() {
        if program.threads.len() > 1 {
            let mut smaller = program.clone();
            smaller.threads.remove(t);
            add(smaller);
        }
        for at in 0..program.threads[t].len() {
            add(without_op(program, t, at));
        }
        for at in 0..program.threads[t].len() {
            for op in lower_ops(&program.threads[t][at]) {
                let mut smaller = program.clone();
                smaller.threads[t][at] = op;
                add(smaller);
            }
        }
    }
    if program.locs > 1 {
        let mut smaller = question.clone();
        smaller.program.locs -= 1;
        if let Want::One(memory) = &mut smaller.want {
            memory.pop();
        }
        found.push(smaller);
    }
    if let Want::One(memory) = &question.want {
        for loc in 0..memory.len() {
            for value in lower(memory[loc]) {
                let mut smaller = memory.clone();
                smaller[loc] = value;
                found.push(Question { want: Want::One(smaller), ..question.clone() });
            }
        }
    }
    for budget in [1, question.budget / 2, question.budget - 1] {
        if budget > 0 && budget < question.budget {
            found.push(Question { budget, ..question.clone() });
        }
    }
    // A smaller program may break a limit by what is left in it; then it isn't a question.
    found.retain(|smaller| smaller.refusal().is_none());
    found
}

/// The program without one instruction; skips over it become shorter, and vanish with the last one they pass over.
fn without_op(program: &Program, t: usize, gone: usize) -> Program {
    let mut smaller = program.clone();
    let mut ops = Vec::new();
    for (at, op) in program.threads[t].iter().enumerate() {
        match *op {
            _ if at == gone => (),
            Op::SkipIfZero { reg, count } if at < gone && gone <= at + usize::from(count) => {
                if count > 1 {
                    ops.push(Op::SkipIfZero { reg, count: count - 1 });
                }
            }
            op => ops.push(op),
        }
    }
    smaller.threads[t] = ops;
    smaller
}

/// Some smaller values than this one.
fn lower(value: u8) -> Vec<u8> {
    let mut found: Vec<u8> = [0, 1, value / 2, value.saturating_sub(1)].into_iter().filter(|&v| v < value).collect();
    found.dedup();
    found
}

/// The instruction with one of its numbers lowered.
fn lower_ops(op: &Op) -> Vec<Op> {
    let each = |value: u8, make: &dyn Fn(u8) -> Op| -> Vec<Op> { lower(value).into_iter().map(make).collect() };
    match *op {
        Op::Store { loc, value } => {
            [each(loc, &|loc| Op::Store { loc, value }), each(value, &|value| Op::Store { loc, value })].concat()
        }
        Op::StoreRegister { loc, reg } => {
            [each(loc, &|loc| Op::StoreRegister { loc, reg }), each(reg, &|reg| Op::StoreRegister { loc, reg })]
                .concat()
        }
        Op::Load { reg, loc } => {
            [each(reg, &|reg| Op::Load { reg, loc }), each(loc, &|loc| Op::Load { reg, loc })].concat()
        }
        Op::Cas { reg, loc, expected, new } => [
            each(reg, &|reg| Op::Cas { reg, loc, expected, new }),
            each(loc, &|loc| Op::Cas { reg, loc, expected, new }),
            each(expected, &|expected| Op::Cas { reg, loc, expected, new }),
            each(new, &|new| Op::Cas { reg, loc, expected, new }),
        ]
        .concat(),
        Op::Faa { reg, loc, add } => [
            each(reg, &|reg| Op::Faa { reg, loc, add }),
            each(loc, &|loc| Op::Faa { reg, loc, add }),
            each(add, &|add| Op::Faa { reg, loc, add }),
        ]
        .concat(),
        Op::FullFence | Op::StoreFence => Vec::new(),
        Op::Flush { loc } => each(loc, &|loc| Op::Flush { loc }),
        Op::FlushOpt { loc } => each(loc, &|loc| Op::FlushOpt { loc }),
        Op::SkipIfZero { reg, count } => {
            let lower_reg = each(reg, &|reg| Op::SkipIfZero { reg, count });
            let lower_count = each(count, &|count| Op::SkipIfZero { reg, count });
            [lower_reg, lower_count].concat()
        }
    }
}
