//! The comparison itself, with a stand-in for the other side: it agrees, and each injected slip is found and made small.

use std::process::Command;

/// Runs `compare --part` on the stand-in with a slip: its output, and whether it ended well.
fn compared(slip: Option<&str>) -> (String, bool) {
    let mut command = Command::new(env!("CARGO_BIN_EXE_compare"));
    command.args(["--part", "--", env!("CARGO_BIN_EXE_mock")]).args(slip);
    let output = command.output().expect("compare runs");
    (String::from_utf8(output.stdout).expect("printed text"), output.status.success())
}

/// The op lines of the first difference shown.
fn first_difference(output: &str) -> (Vec<&str>, Vec<&str>) {
    let shown = output.lines().skip_while(|line| !line.starts_with("DIFFERENCE")).skip(1);
    let shown: Vec<&str> = shown.take_while(|line| !line.starts_with("DIFFERENCE")).collect();
    let ops = shown.iter().copied().filter(|line| line.starts_with("  | op=")).collect();
    (shown, ops)
}

#[test]
fn the_simulator_agrees_with_itself() {
    let (output, ended_well) = compared(None);
    assert!(ended_well);
    let last = output.lines().last().expect("a last line");
    assert!(last.ends_with(" compared, 0 differ"), "{last}");
    for number in [1, 2, 3, 4, 5, 9] {
        assert!(output.contains(&format!("q refused {number}:")), "{number} was never seen");
    }
    let bench = ["q all", "q reached", "q never", "q over", "f followed", "f refused 10", "w written", "w refused 9"];
    let mend =
        ["m unchanged", "m cr", "m blank", "m zero", "m lf", "m cr blank zero lf", "m text alone", "m refused 9"];
    let split = ["l legal", "l not allowed", "l text refused 2", "s of the whole list", "s of a beginning"];
    for sort in bench.into_iter().chain(split).chain(mend).chain(["m refused 12", "s text refused 2"]) {
        assert!(output.contains(&format!("  {sort}: ")), "{sort} was never seen");
    }
}

#[test]
fn each_slip_is_found_and_made_small() {
    let slips = [
        ("fo-waits", 1, "fo,0"),
        ("lost-cas-loads", 2, "cas,"),
        ("equal-is-over", 0, "answer=over"),
        ("carriage-return-read", 1, "\\r"),
        ("writer-clears", 0, "R 9 170"),
        ("index-from-one", 0, "R 10 0 0 0 0"),
        ("legality-from-one", 0, "B 0 0 0 0"),
        ("last-code-unseen", 0, "B 0 0 0 0"),
        ("no-sort-passed", 0, "B 0 0 0 0"),
        ("length-with-the-bad-code", 0, "S 0 0 0 0"),
        ("state-from-start", 1, "S 1 0 0 0"),
        ("length-of-the-list", 0, "S 0 0 0 0"),
        ("mender-feeds-nothing", 0, "number=9"),
        ("mender-clears", 0, "lent: 170"),
        ("mender-longest", 0, "number=12"),
        ("ends", 1, "ended without a response"),
    ];
    std::thread::scope(|scope| {
        for (slip, most_ops, says) in slips {
            scope.spawn(move || {
                let (output, ended_well) = compared(Some(slip));
                assert!(!ended_well, "{slip}");
                assert!(!output.lines().last().expect("a last line").ends_with(" 0 differ"), "{slip}");
                let (shown, ops) = first_difference(&output);
                assert!(ops.len() <= most_ops, "{slip}: {shown:#?}");
                assert!(shown.iter().any(|line| line.contains(says)), "{slip}: {shown:#?}");
            });
        }
    });
}

#[test]
fn a_command_that_cannot_be_started_is_no_agreement() {
    let mut command = Command::new(env!("CARGO_BIN_EXE_compare"));
    let output = command.args(["--part", "--", "no/such/program"]).output().expect("compare runs");
    assert!(!output.status.success());
    let without = Command::new(env!("CARGO_BIN_EXE_compare")).output().expect("compare runs");
    assert_eq!(without.status.code(), Some(2));
}
