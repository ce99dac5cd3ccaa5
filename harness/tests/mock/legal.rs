//! A stand-in for the program `legal`: the simulator itself, with one slip if an argument names it.

use harness::legal::{print_legal, split, MAX_LINE};
use harness::text::MAX_TEXT;
use std::io::{self, Read, Write};

fn main() -> io::Result<()> {
    let slip = std::env::args().nth(1).unwrap_or_default();
    let mut input = Vec::new();
    let mut chunk = vec![0; 1 << 16];
    loop {
        let many = io::stdin().read(&mut chunk)?;
        if many == 0 {
            break;
        }
        // What had come before is taken for whole lines; a long input, which comes in pieces anyway, is left alone.
        if slip == "pieces-are-lines" && (1..4096).contains(&input.len()) && !input.ends_with(b"\n") {
            input.push(b'\n');
        }
        input.extend(&chunk[..many]);
        // A text too long is refused before its end is seen.
        if slip == "refuses-early" && input.len() > MAX_TEXT && split(&input).1.is_empty() {
            return io::stdout().write_all(print_legal(&input).as_bytes());
        }
        // The line feed of the first run line is not waited for.
        if slip == "speaks-early" && split(&input).1.first().is_some_and(|run| !run.ends_with(b"\n")) {
            io::stdout().write_all(b"a")?;
            io::stdout().flush()?;
            io::stdin().read_to_end(&mut input)?;
            return io::stdout().write_all(&print_legal(&input).as_bytes()[1..]);
        }
    }
    io::stdout().write_all(printed(&slip, &input).as_bytes())
}

fn printed(slip: &str, input: &[u8]) -> String {
    let right = print_legal(input);
    let (text, runs) = split(input);
    // The output for the same text with other run lines, or with some of them changed into another.
    let with_runs = |runs: &mut dyn Iterator<Item = Vec<u8>>| {
        print_legal(&[text.concat(), runs.collect::<Vec<_>>().concat()].concat())
    };
    let changed = |which: &dyn Fn(&[u8]) -> bool, into: &[u8]| {
        with_runs(&mut runs.iter().map(|run| if which(run) { [into, b"\n"].concat() } else { run.to_vec() }))
    };
    let judged = |answer: &str| answer == "answer=legal" || answer.starts_with("answer=illegal");
    match slip {
        "index-one-off" => each(&right, |answer| match answer.strip_prefix("answer=illegal,") {
            Some(index) => format!("answer=illegal,{}", one_more(index)),
            None => answer.to_string(),
        }),
        // Legal said of all but the last code.
        "last-code-unseen" => {
            let others = with_runs(&mut runs.iter().map(|run| without_last(run)));
            let mut others = others.lines();
            each(&right, |answer| {
                let other = others.next().unwrap_or(answer);
                if judged(answer) { other } else { answer }.to_string()
            })
        }
        "refusal-ends" => {
            let mut refused = false;
            let before = |line: &&str| !std::mem::replace(&mut refused, line.starts_with("answer=refused"));
            right.split_inclusive('\n').take_while(before).collect()
        }
        "line-one-off" => each(&right, |answer| match answer.rsplit_once(',') {
            Some((front, line)) if front.starts_with("answer=refused") && line != "0" => {
                format!("{front},{}", one_more(line))
            }
            _ => answer.to_string(),
        }),
        // Lines counted from the first run line on.
        "text-not-counted" => each(&right, |answer| match answer.rsplit_once(',') {
            Some((front, line)) if front.starts_with("answer=refused") => {
                let line: usize = line.parse().unwrap_or_default();
                format!("{front},{}", line.saturating_sub(text.len()))
            }
            _ => answer.to_string(),
        }),
        // The longest line taken for one over the limit.
        "longest-line" => changed(&|run| run.len() == MAX_LINE + 1, "x".repeat(MAX_LINE + 1).as_bytes()),
        // A number out of range told of a line that is misshapen behind it.
        "range-first" => changed(&|run| run.starts_with(b"run=256,"), b"run=256"),
        "empty-run-misshapen" => changed(&|run| run == b"run=\n", b"run=,"),
        // A last line without its line feed taken for whole.
        "last-line-fed" => {
            with_runs(&mut runs.iter().map(|run| [run.strip_suffix(b"\n").unwrap_or(run), b"\n"].concat()))
        }
        // An empty line gets no answer.
        "empty-line-passed" => {
            let mut runs = runs.iter();
            right.split_inclusive('\n').filter(|_| runs.next() != Some(&&b"\n"[..])).collect()
        }
        _ => right,
    }
}

/// Changes each line of an output, without its line feed.
fn each(output: &str, mut change: impl FnMut(&str) -> String) -> String {
    output.lines().map(|line| change(line) + "\n").collect()
}

fn one_more(digits: &str) -> u64 {
    digits.parse::<u64>().unwrap_or_default() + 1
}

/// A run line without its last code.
fn without_last(run: &[u8]) -> Vec<u8> {
    let line = run.strip_suffix(b"\n").unwrap_or(run);
    match line.iter().rposition(|&byte| byte == b',' || byte == b'=') {
        Some(at) if line[at] == b',' => [&line[..at], b"\n"].concat(),
        _ => b"run=\n".to_vec(),
    }
}
