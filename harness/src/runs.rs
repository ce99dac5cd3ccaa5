//! The comparison for the program `legal`: runs it on every input and holds its whole output beside the simulator's.

use crate::feed::{feed, feed_whole, Fed, Pieces};
use crate::generate::{fixed_inputs, input, large_input};
use crate::legal::{print_legal, split};
use crate::random::Random;
use crate::text::read;
use std::collections::BTreeMap;
use std::io::{self, Write};
use std::time::Duration;

/// Inputs made from seeds; with --part one of so many.
const SEEDS: u64 = 420;
const PART: usize = 7;
/// The run lines of the large input, whole and in part.
const LARGE: usize = 20_000;
const LARGE_PART: usize = 5_000;
/// Of the inputs up to this length one in so many is fed in pieces, whole and in part.
const MOST_IN_PIECES: usize = 1_100;
const EVERY: usize = 2;
const EVERY_IN_PART: usize = 5;
const PAUSE: Duration = Duration::from_millis(1);
const SILENCE: Duration = Duration::from_millis(50);
/// Differences shown; the others are only counted.
const SHOWN: u64 = 5;
/// Bytes of a line that are shown.
const SHOWN_BYTES: usize = 200;

/// An input with the number or the seed by which it is found again.
#[derive(Clone)]
pub struct Input {
    pub name: String,
    pub bytes: Vec<u8>,
}

/// The inputs, by group: the fixed ones, those of seeds, the large one, and those fed in pieces, which are some of the first two again.
pub struct Inputs {
    pub whole: Vec<(&'static str, Vec<Input>)>,
    pub in_pieces: Vec<Input>,
}

pub fn inputs(part: bool) -> Inputs {
    let numbered = fixed_inputs().into_iter().enumerate();
    let fixed: Vec<Input> = numbered.map(|(at, bytes)| Input { name: format!("number {at}"), bytes }).collect();
    let seeds = (0..SEEDS).step_by(if part { PART } else { 1 });
    let of_seeds: Vec<Input> = seeds.map(|seed| Input { name: format!("seed {seed}"), bytes: input(seed) }).collect();
    let lines = if part { LARGE_PART } else { LARGE };
    let large = Input { name: format!("{lines} runs"), bytes: large_input(lines) };
    let short = fixed.iter().chain(&of_seeds).filter(|input| input.bytes.len() <= MOST_IN_PIECES);
    let in_pieces = short.step_by(if part { EVERY_IN_PART } else { EVERY }).cloned().collect();
    Inputs {
        whole: vec![("fixed inputs", fixed), ("inputs of seeds", of_seeds), ("the large input", vec![large])],
        in_pieces,
    }
}

/// What was seen: for each sort of answer, how often.
#[derive(Default)]
pub struct Tally {
    pub runs: u64,
    pub inputs: u64,
    pub differ: u64,
    pub sorts: BTreeMap<String, u64>,
}

/// Compares all inputs, or a part of them, and says on `out` what was seen.
pub fn compare_runs(command: &[String], part: bool, out: &mut impl Write) -> io::Result<Tally> {
    let inputs = inputs(part);
    let mut tally = Tally::default();
    for (group, inputs) in &inputs.whole {
        writeln!(out, "{group}: {}", inputs.len())?;
        out.flush()?;
        for input in inputs {
            let fed = feed_whole(command, &input.bytes)?;
            hold(group, input, &fed, &mut tally, out)?;
        }
    }
    writeln!(out, "in small pieces: {}", inputs.in_pieces.len())?;
    out.flush()?;
    for (at, input) in inputs.in_pieces.iter().enumerate() {
        let fed = feed(command, &in_pieces(&input.bytes, &mut Random::new(at as u64)))?;
        hold("in small pieces", input, &fed, &mut tally, out)?;
    }
    for (sort, count) in &tally.sorts {
        writeln!(out, "  {sort}: {count}")?;
    }
    writeln!(out, "{} runs in {} inputs compared, {} differ", tally.runs, tally.inputs, tally.differ)?;
    Ok(tally)
}

/// Cuts an input into pieces of a few bytes, more if it is long. Each line feed ends a piece, and some are a piece by themselves.
pub fn in_pieces<'a>(input: &'a [u8], random: &mut Random) -> Pieces<'a> {
    let (text, runs) = split(input);
    // The line feed of the first run line may be answered at once; without it, nothing before the end.
    let told = runs.first().filter(|run| run.ends_with(b"\n")).map(|run| text.concat().len() + run.len());
    let (mut pieces, mut silent_before) = (Vec::new(), None);
    let mut start = 0;
    while start < input.len() {
        let rest = &input[start..];
        let line = rest.iter().position(|&byte| byte == b'\n').map_or(rest.len(), |at| at + 1);
        let many =
            random.within(1, 4 + input.len() / 40).min(if line > 1 && random.once_in(2) { line - 1 } else { line });
        if told.is_some_and(|told| start < told && told <= start + many) {
            silent_before = Some(pieces.len());
        }
        pieces.push(&rest[..many]);
        start += many;
    }
    let silent_before = silent_before.unwrap_or(pieces.len());
    Pieces { pieces, pause: PAUSE, silent_before, silence: SILENCE }
}

/// Counts an input, and holds the output beside the simulator's.
fn hold(group: &str, input: &Input, fed: &Fed, tally: &mut Tally, out: &mut impl Write) -> io::Result<()> {
    let expected = print_legal(&input.bytes);
    let (text, runs) = split(&input.bytes);
    let accepted = read(&text.concat()).is_ok();
    tally.inputs += 1;
    tally.runs += if accepted { runs.len() as u64 } else { 0 };
    for line in expected.lines() {
        *tally.sorts.entry(sort_of(line, accepted)).or_default() += 1;
    }
    if expected.is_empty() {
        *tally.sorts.entry("nothing printed".to_string()).or_default() += 1;
    }
    if fed.output == expected.as_bytes() && !fed.spoke_early && fed.ended {
        return Ok(());
    }
    tally.differ += 1;
    if tally.differ > SHOWN {
        return Ok(());
    }
    writeln!(out, "DIFFERENCE, {group}, {}:", input.name)?;
    if !fed.ended {
        writeln!(out, "the other was ended by a signal")?;
    }
    if fed.spoke_early {
        writeln!(out, "the other printed something, or ended, before the first run line was whole")?;
    }
    show(&input.bytes, expected.as_bytes(), &fed.output, out)
}

/// Shows the first line in which two outputs differ, and what it answers: the text, and a run line if the text is accepted.
fn show(input: &[u8], expected: &[u8], output: &[u8], out: &mut impl Write) -> io::Result<()> {
    let lines = |output| -> Vec<&[u8]> { <[u8]>::split_inclusive(output, |&byte| byte == b'\n').collect() };
    let (simulators, others) = (lines(expected), lines(output));
    let differs = (0..simulators.len().max(others.len())).find(|&at| simulators.get(at) != others.get(at));
    let Some(at) = differs else {
        return Ok(());
    };
    let (text, runs) = split(input);
    for line in &text {
        writeln!(out, "  | {}", shown(line))?;
    }
    if let (Ok(_), Some(run)) = (read(&text.concat()), runs.get(at)) {
        writeln!(out, "line {}:\n  | {}", text.len() + at + 1, shown(run))?;
    }
    let said = |lines: &[&[u8]]| lines.get(at).map_or("nothing".to_string(), |line| shown(line));
    writeln!(out, "line {} of the output:", at + 1)?;
    writeln!(out, "simulator: {}", said(&simulators))?;
    writeln!(out, "other:     {}", said(&others))
}

/// A line with its first bytes only, if it is long.
fn shown(line: &[u8]) -> String {
    let front = &line[..line.len().min(SHOWN_BYTES)];
    let more = if front.len() < line.len() { format!(".. ({} bytes)", line.len()) } else { String::new() };
    format!("{}{more}", front.escape_ascii())
}

/// The sort of an answer, for counting: "legal", "not allowed", "refused 2", "text refused 3".
fn sort_of(answer: &str, accepted: bool) -> String {
    let fields: Vec<&str> = answer.split(',').collect();
    match fields[..] {
        ["answer=legal"] => "legal".to_string(),
        ["answer=illegal", _] => "not allowed".to_string(),
        ["answer=refused", number, _] if accepted => format!("refused {number}"),
        ["answer=refused", number, _] => format!("text refused {number}"),
        _ => "misshapen".to_string(),
    }
}
