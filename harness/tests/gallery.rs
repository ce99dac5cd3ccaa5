//! The gallery, answered by the simulator and by a command.

use std::process::Command;

fn gallery(arguments: &[&str]) -> (String, bool) {
    let output = Command::new(env!("CARGO_BIN_EXE_gallery")).args(arguments).output().expect("gallery runs");
    (String::from_utf8(output.stdout).expect("printed text"), output.status.success())
}

#[test]
fn every_text_has_its_answer() {
    let directory = concat!(env!("CARGO_MANIFEST_DIR"), "/../gallery");
    let (output, ended_well) = gallery(&[directory]);
    assert!(ended_well && output.ends_with(" texts, 0 differ\n"), "{output}");
    let simulate = env!("CARGO_BIN_EXE_simulate");
    let (output, ended_well) = gallery(&[directory, "--", simulate]);
    assert!(ended_well && output.ends_with(" texts, 0 differ\n"), "{output}");
    let (output, ended_well) = gallery(&[directory, "--", simulate, "--", simulate, "mend"]);
    assert!(ended_well && output.ends_with(" texts, 0 differ\n"), "{output}");
    let all = [directory, "--", simulate, "--", simulate, "mend", "--", simulate, "legal"];
    let (output, ended_well) = gallery(&all);
    assert!(ended_well && output.ends_with("41 texts, 0 differ\n"), "{output}");
}

#[test]
fn another_output_is_a_difference() {
    let directory = concat!(env!("CARGO_MANIFEST_DIR"), "/../gallery");
    let (output, ended_well) = gallery(&[directory, "--", env!("CARGO_BIN_EXE_mock")]);
    assert!(!ended_well && !output.ends_with(" 0 differ\n"), "{output}");
    // One that does not mend differs on each text from the forum, and on the one too long, and on no question.
    let simulate = env!("CARGO_BIN_EXE_simulate");
    let (output, ended_well) = gallery(&[directory, "--", simulate, "--", simulate]);
    assert!(!ended_well && output.ends_with(" 4 differ\n"), "{output}");
    // One that is not legal differs on each list of runs, and nowhere else.
    let wrong = [directory, "--", simulate, "--", simulate, "mend", "--", simulate];
    let (output, ended_well) = gallery(&wrong);
    assert!(!ended_well && output.ends_with(" 3 differ\n"), "{output}");
    for usage in [&[directory, "--"][..], &[directory, "--", "a", "--", "b", "--", "c", "--", "d"], &[]] {
        assert!(!gallery(usage).1);
    }
    // No texts at all are no agreement.
    assert!(!gallery(&[concat!(env!("CARGO_MANIFEST_DIR"), "/src")]).1);
}
