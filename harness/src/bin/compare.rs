//! `compare [--part] -- COMMAND..`: holds the simulator beside a test program of the other side.

use harness::compare::compare;
use harness::protocol::Server;
use std::io;
use std::process::ExitCode;

fn main() -> ExitCode {
    let arguments: Vec<String> = std::env::args().skip(1).collect();
    let split = arguments.iter().position(|argument| argument == "--");
    let (options, command) = match split {
        Some(at) if at + 1 < arguments.len() => (&arguments[..at], &arguments[at + 1..]),
        _ => return usage(),
    };
    let part = match options {
        [] => false,
        [option] if option == "--part" => true,
        _ => return usage(),
    };
    match compare(&Server::new(command), part, &mut io::stdout()) {
        Ok(tally) if tally.differ == 0 => ExitCode::SUCCESS,
        Ok(_) => ExitCode::FAILURE,
        Err(error) => {
            eprintln!("compare: {error}");
            ExitCode::FAILURE
        }
    }
}

fn usage() -> ExitCode {
    eprintln!("usage: compare [--part] -- COMMAND..");
    ExitCode::from(2)
}
