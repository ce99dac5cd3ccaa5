//! `runs [--part] -- COMMAND..`: holds the simulator beside the program `legal`. `runs number N` and `runs seed N` write one of the inputs.

use harness::generate::{fixed_inputs, input};
use harness::runs::compare_runs;
use std::io::{self, Write};
use std::process::ExitCode;

fn main() -> ExitCode {
    let arguments: Vec<String> = std::env::args().skip(1).collect();
    let (options, command) = match arguments.iter().position(|argument| argument == "--") {
        Some(at) => arguments.split_at(at),
        None => (&arguments[..], &[][..]),
    };
    let options: Vec<&str> = options.iter().map(String::as_str).collect();
    match (&options[..], command) {
        ([], [_, command @ ..]) if !command.is_empty() => compared(command, false),
        (["--part"], [_, command @ ..]) if !command.is_empty() => compared(command, true),
        ([group @ ("number" | "seed"), at], []) => match at.parse().ok().and_then(|at| input_of(group, at)) {
            Some(input) => ended(io::stdout().write_all(&input).map(|()| true)),
            None => ended(Err(io::Error::other("no such input"))),
        },
        _ => {
            eprintln!("usage: runs [--part] -- COMMAND.., or runs number N, or runs seed N");
            ExitCode::from(2)
        }
    }
}

fn compared(command: &[String], part: bool) -> ExitCode {
    ended(compare_runs(command, part, &mut io::stdout()).map(|tally| tally.differ == 0))
}

fn input_of(group: &str, at: u64) -> Option<Vec<u8>> {
    match group {
        "number" => fixed_inputs().into_iter().nth(usize::try_from(at).ok()?),
        _ => Some(input(at)),
    }
}

fn ended(well: io::Result<bool>) -> ExitCode {
    match well {
        Ok(true) => ExitCode::SUCCESS,
        Ok(false) => ExitCode::FAILURE,
        Err(error) => {
            eprintln!("runs: {error}");
            ExitCode::FAILURE
        }
    }
}
