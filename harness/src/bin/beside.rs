//! Measures two trees of the repository beside each other: `beside OLD NEW GAUGE LAUNCHER..`, two folders whose programs are built, pace/gauge.c built
//! as a library, and the command that runs a program, which ends in ld.so's own words. Each thing is done by both in turn, fifteen times; the shortest
//! time counts, less that of a question with one run, or of judging nothing. Both must answer the same.

use harness::paced::PACED_TIMES;
use harness::questions::{deepest, many_fo, BASE, ONE_RUN};
use harness::timed::timed;
use std::io::Write;
use std::path::Path;
use std::process::{Command, Stdio};
use std::time::Duration;

const TIMES: usize = 15;

fn main() {
    let words: Vec<String> = std::env::args().skip(1).collect();
    let [old, new, gauge, launcher @ ..] = &words[..] else {
        eprintln!("usage: beside OLD NEW GAUGE LAUNCHER..");
        std::process::exit(2);
    };
    let command = |tree: &str, words: &[&str]| -> Vec<String> {
        let program = Path::new(tree).join("target/bin").join(words[0]).to_string_lossy().into_owned();
        launcher.iter().cloned().chain([program]).chain(words[1..].iter().map(|word| word.to_string())).collect()
    };
    let both = |words: &[&str], input: &str| shortest_of_both(&command(old, words), &command(new, words), input);

    println!("| question | runs | old, runs a second | new, runs a second | new, times as fast |");
    println!("|---|---|---|---|---|");
    let start = both(&["bench"], ONE_RUN);
    let base = BASE.iter().map(|(name, text)| (name.to_string(), text.to_string()));
    for (name, text) in [("many fo".to_string(), many_fo())].into_iter().chain(base) {
        let walked = both(&["bench"], &text);
        println!("{}", row(&name, runs(&walked.said), &walked, &start));
    }

    println!("\n| judging a run | runs | old, runs a second | new, runs a second | new, times as fast |");
    println!("|---|---|---|---|---|");
    let nothing = both(&["pace", "nothing"], "");
    for word in ["legality", "listed", "state"] {
        println!("{}", row(word, PACED_TIMES, &both(&["pace", word], ""), &nothing));
    }

    println!("\n| question | old, bytes of stack | new, bytes of stack | less |");
    println!("|---|---|---|---|");
    let deep = ["st,0,1", "fo,0"].map(|op| (format!("four threads of eight {op}"), deepest(op)));
    for (name, text) in [("one run".to_string(), ONE_RUN.to_string())].into_iter().chain(deep) {
        let [old, new] = [old, new].map(|tree| {
            let plain = command(tree, &["bench"]);
            let (program, launcher) = plain.split_last().expect("a program");
            let gauged = [launcher, &["--preload".to_string(), gauge.clone(), program.clone()]].concat();
            stack(&gauged, &text)
        });
        println!("| {name} | {old} | {new} | {} |", old - new);
    }
}

/// The shortest time of each, and what both said.
struct Both {
    old: Duration,
    new: Duration,
    said: Vec<u8>,
}

fn shortest_of_both(old: &[String], new: &[String], input: &str) -> Both {
    let mut shortest = Both { old: Duration::MAX, new: Duration::MAX, said: vec![] };
    for _ in 0..TIMES {
        let (old_time, old_said) = timed(old, input.as_bytes());
        let (new_time, new_said) = timed(new, input.as_bytes());
        assert!(old_said == new_said && !old_said.is_empty(), "the two answer differently:\n{input}");
        shortest = Both { old: shortest.old.min(old_time), new: shortest.new.min(new_time), said: new_said };
    }
    shortest
}

/// A row of a table: how many runs a second each does, less the time to start, and their ratio.
fn row(name: &str, runs: u32, took: &Both, start: &Both) -> String {
    let old = took.old.saturating_sub(start.old).as_secs_f64();
    let new = took.new.saturating_sub(start.new).as_secs_f64();
    format!("| {name} | {runs} | {:.0} | {:.0} | {:.2} |", f64::from(runs) / old, f64::from(runs) / new, old / new)
}

/// How many runs bench has walked: all that there are, or as many as the budget.
fn runs(said: &[u8]) -> u32 {
    let said = String::from_utf8_lossy(said);
    let number = said.lines().find_map(|line| line.strip_prefix("runs=").or_else(|| line.strip_prefix("budget=")));
    number.expect("a number of runs").parse().expect("a number")
}

/// What the gauge says on standard error: the bytes of stack.
fn stack(command: &[String], text: &str) -> i64 {
    let mut child = Command::new(&command[0])
        .args(&command[1..])
        .stdin(Stdio::piped())
        .stdout(Stdio::null())
        .stderr(Stdio::piped())
        .spawn()
        .expect("the command");
    child.stdin.take().expect("its input").write_all(text.as_bytes()).expect("its input");
    let said = child.wait_with_output().expect("its output").stderr;
    String::from_utf8_lossy(&said).trim().parse().expect("the gauge's number")
}
