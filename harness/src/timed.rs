//! How long a command takes.

use std::io::Write;
use std::process::{Command, Stdio};
use std::time::{Duration, Instant};

/// The shortest time of so many runs of a command on this input, and what it wrote.
pub fn shortest(times: usize, command: &[String], input: &[u8]) -> (Duration, Vec<u8>) {
    (0..times).map(|_| timed(command, input)).min_by_key(|(time, _)| *time).expect("at least one run")
}

/// The time of one run, and what it wrote.
pub fn timed(command: &[String], input: &[u8]) -> (Duration, Vec<u8>) {
    let start = Instant::now();
    let mut child = Command::new(&command[0])
        .args(&command[1..])
        .stdin(Stdio::piped())
        .stdout(Stdio::piped())
        .spawn()
        .expect("the command");
    let mut its_input = child.stdin.take().expect("its input");
    // Written while the output is taken, so neither waits for the other with full hands.
    let output = std::thread::scope(|scope| {
        scope.spawn(move || its_input.write_all(input).expect("its input"));
        child.wait_with_output().expect("its output")
    });
    (start.elapsed(), output.stdout)
}
