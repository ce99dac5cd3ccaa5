//! The comparison for the program `legal`, with a stand-in for it: it agrees, and each injected slip is found; and inputs of every sort come up.

use harness::legal::{print_legal, split};
use harness::random::Random;
use harness::runs::{in_pieces, inputs, Input};
use harness::text::read;
use std::collections::BTreeMap;
use std::process::Command;

/// Runs `runs --part` on the stand-in with a slip: its output, and whether it ended well.
fn compared(slip: Option<&str>) -> (String, bool) {
    let mut command = Command::new(env!("CARGO_BIN_EXE_runs"));
    command.args(["--part", "--", env!("CARGO_BIN_EXE_mock_legal")]).args(slip);
    let output = command.output().expect("runs runs");
    (String::from_utf8(output.stdout).expect("printed text"), output.status.success())
}

#[test]
fn the_simulator_agrees_with_itself() {
    let (output, ended_well) = compared(None);
    assert!(ended_well, "{output}");
    let last = output.lines().last().expect("a last line");
    assert!(last.contains(" runs in ") && last.ends_with(" inputs compared, 0 differ"), "{last}");
    let texts = (1..=5).map(|number| format!("text refused {number}"));
    let lines = ["legal", "not allowed", "refused 1", "refused 2", "refused 3", "nothing printed"].map(str::to_string);
    for sort in texts.chain(lines) {
        assert!(output.contains(&format!("  {sort}: ")), "{sort} was never seen");
    }
}

#[test]
fn each_slip_is_found() {
    let slips = [
        ("index-one-off", "answer=illegal,1"),
        ("last-code-unseen", "other:     answer=legal"),
        ("refusal-ends", "other:     nothing"),
        ("line-one-off", "other:     answer=refused,2,2"),
        ("text-not-counted", "other:     answer=refused,2,0"),
        ("longest-line", "other:     answer=refused,1,"),
        ("range-first", "other:     answer=refused,3,"),
        ("empty-run-misshapen", "other:     answer=refused,2,8"),
        ("last-line-fed", "other:     answer=legal"),
        ("empty-line-passed", "other:     nothing"),
        ("pieces-are-lines", "DIFFERENCE, in small pieces, "),
        ("refuses-early", "or ended, before the first run line was whole"),
        ("speaks-early", "printed something"),
    ];
    // At once, since the pauses between pieces take most of the time.
    std::thread::scope(|scope| {
        for (slip, says) in slips {
            scope.spawn(move || {
                let (output, ended_well) = compared(Some(slip));
                assert!(!ended_well && !output.ends_with(" 0 differ\n"), "{slip}");
                assert!(output.contains("DIFFERENCE, ") && output.contains(says), "{slip}: {output}");
            });
        }
    });
}

#[test]
fn a_command_that_cannot_be_started_is_no_agreement() {
    let runs = |arguments: &[&str]| {
        Command::new(env!("CARGO_BIN_EXE_runs")).args(arguments).output().expect("runs runs").status.code()
    };
    assert_eq!(runs(&["--part", "--", "no/such/program"]), Some(1));
    for wrong in [&[][..], &["--part"], &["--part", "--"], &["--all", "--", "true"], &["seed"]] {
        assert_eq!(runs(wrong), Some(2));
    }
}

#[test]
fn an_input_is_found_again_by_its_name() {
    let written = |name: &str| {
        let runs = Command::new(env!("CARGO_BIN_EXE_runs")).args(name.split(' ')).output().expect("runs runs");
        (runs.status.success(), runs.stdout)
    };
    for (_, inputs) in &inputs(true).whole[..2] {
        for Input { name, bytes } in inputs.iter().step_by(20) {
            assert_eq!(written(name), (true, bytes.clone()), "{name}");
        }
    }
    assert_eq!(written("number 100000"), (false, Vec::new()));
}

/// The answered runs of some inputs.
fn runs_in<'a>(inputs: impl Iterator<Item = &'a Input>) -> usize {
    let answered = inputs.map(|input| split(&input.bytes)).filter(|(text, _)| read(&text.concat()).is_ok());
    answered.map(|(_, runs)| runs.len()).sum()
}

#[test]
fn there_are_enough_runs() {
    for (part, least, large) in [(false, 20_000, 20_000), (true, 3_000, 5_000)] {
        let inputs = inputs(part);
        let of = |wanted: &'static str| inputs.whole.iter().filter(move |(group, _)| *group == wanted);
        let runs = |wanted| runs_in(of(wanted).flat_map(|(_, inputs)| inputs));
        assert!(runs("fixed inputs") + runs("inputs of seeds") >= least, "{}", runs("inputs of seeds"));
        assert_eq!(runs("the large input"), large);
    }
}

#[test]
fn runs_are_refused_at_each_index() {
    for part in [false, true] {
        let inputs = inputs(part);
        let mut refused_at: BTreeMap<usize, u64> = BTreeMap::new();
        for input in inputs.whole.iter().flat_map(|(_, inputs)| inputs) {
            let answers = print_legal(&input.bytes);
            for index in answers.lines().filter_map(|answer| answer.strip_prefix("answer=illegal,")) {
                *refused_at.entry(index.parse().expect("an index")).or_default() += 1;
            }
        }
        let rare: Vec<_> = (0..=40).filter(|index| refused_at.get(index).is_none_or(|&count| count < 5)).collect();
        assert!(rare.is_empty(), "part {part}: {rare:?}");
    }
}

#[test]
fn inputs_and_lines_of_every_sort_come_up() {
    let inputs = inputs(true);
    let mut seen: BTreeMap<&str, u64> = BTreeMap::new();
    for input in inputs.whole.iter().flat_map(|(_, inputs)| inputs) {
        let (text, runs) = split(&input.bytes);
        let whole_text = text.concat();
        let accepted = read(&whole_text).is_ok();
        let mut see = |what, so| *seen.entry(what).or_default() += u64::from(so);
        see("no input", input.bytes.is_empty());
        see("no run line, accepted", runs.is_empty() && accepted);
        see(
            "no run line, the last line feed lacks",
            runs.is_empty() && read(&[&whole_text, &b"\n"[..]].concat()).is_ok(),
        );
        see("no text", text.is_empty() && !runs.is_empty());
        see("a text of 1,024 bytes, a run behind it", whole_text.len() == 1024 && !runs.is_empty());
        see("a text of 1,025 bytes, a run behind it", whole_text.len() == 1025 && !runs.is_empty());
        see("a text far too long, a run behind it", whole_text.len() > 5000 && !runs.is_empty());
        see("a text far too long, no run line", whole_text.len() > 5000 && runs.is_empty());
        let unfed = |line: Option<&&[u8]>| line.is_some_and(|line| !line.ends_with(b"\n"));
        see("the only run line unfed", accepted && runs.len() == 1 && unfed(runs.last()));
        see("the last run line unfed", accepted && runs.len() > 1 && unfed(runs.last()));
        see("a last line unfed and too long", accepted && runs.last().is_some_and(|line| line.len() > 1024));
        if !accepted {
            continue;
        }
        for run in &runs {
            let line = run.strip_suffix(b"\n").unwrap_or(run);
            for (what, length) in [("1,023 bytes", 1023), ("1,024 bytes", 1024), ("1,025 bytes", 1025)] {
                see(what, line.len() == length);
            }
            see("5,000 bytes", line.len() == 5_000);
            see("100,000 bytes", line.len() == 100_000);
            for (what, odd) in [
                ("an empty line", &b""[..]),
                ("the empty run", b"run="),
                ("run", b"run"),
                ("run=,", b"run=,"),
                ("run=1,", b"run=1,"),
                ("run=01", b"run=01"),
                ("run= 1", b"run= 1"),
                ("run=256", b"run=256"),
                ("a number of many digits", b"run=99999999999999999999"),
                ("out of range and misshapen", b"run=1,256,x"),
                ("RUN=", b"RUN="),
                ("an op line", b"op=st,0,1"),
                ("a carriage return", b"run=0\r"),
            ] {
                see(what, line == odd);
            }
            see("byte 0", line.contains(&0));
            see("byte 255", line.contains(&255));
        }
    }
    let never: Vec<_> = seen.iter().filter(|(_, count)| **count == 0).collect();
    assert!(never.is_empty(), "{never:?}");
}

#[test]
fn pieces_end_at_line_feeds_and_keep_silent_long_enough() {
    let mut seen: BTreeMap<&str, u64> = BTreeMap::new();
    for (at, input) in inputs(true).in_pieces.iter().enumerate() {
        let fed = in_pieces(&input.bytes, &mut Random::new(at as u64));
        assert_eq!(fed.pieces.concat(), input.bytes);
        for piece in &fed.pieces {
            assert!(!piece.is_empty() && !piece[..piece.len() - 1].contains(&b'\n'));
        }
        let (text, runs) = split(&input.bytes);
        let silent = fed.pieces[..fed.silent_before].concat();
        let whole = runs.first().filter(|run| run.ends_with(b"\n"));
        match whole {
            Some(first) => {
                let told = [&text.concat(), *first].concat();
                assert!(silent.len() < told.len() && told == [&silent, fed.pieces[fed.silent_before]].concat());
            }
            None => assert_eq!(silent, input.bytes),
        }
        let accepted = read(&text.concat()).is_ok();
        let mut see = |what, so| *seen.entry(what).or_default() += u64::from(so);
        see("several runs", accepted && runs.len() > 2);
        see("the last run line unfed", accepted && runs.last().is_some_and(|run| !run.ends_with(b"\n")));
        see("a refused text, a run behind it", !accepted && !runs.is_empty());
        see("a text too long, a run behind it", text.concat().len() > 1024 && !runs.is_empty());
        see("no run line", runs.is_empty());
        see("a line feed by itself", fed.pieces.contains(&&b"\n"[..]));
    }
    let never: Vec<_> = seen.iter().filter(|(_, count)| **count == 0).collect();
    assert!(never.is_empty(), "{never:?}");
}
