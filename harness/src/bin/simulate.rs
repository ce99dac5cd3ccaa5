//! `simulate [mend [text] | legal]`: a text on standard input; what bench prints for it, or mend, or legal, on standard output.

use harness::legal::print_legal;
use harness::mend::{mend, print_mending, MEND_LENDS};
use harness::print::{print, BENCH_LENDS};
use std::io::{self, Read, Write};

fn main() -> io::Result<()> {
    let words: Vec<String> = std::env::args().skip(1).collect();
    match words.iter().map(String::as_str).collect::<Vec<_>>()[..] {
        [] => io::stdout().write_all(print(&input()?, BENCH_LENDS).as_bytes()),
        ["mend"] => mends(false),
        ["mend", "text"] => mends(true),
        ["legal"] => io::stdout().write_all(print_legal(&input()?).as_bytes()),
        _ => {
            eprintln!("usage: simulate [mend [text] | legal]");
            std::process::exit(2);
        }
    }
}

fn input() -> io::Result<Vec<u8>> {
    let mut input = Vec::new();
    io::stdin().read_to_end(&mut input)?;
    Ok(input)
}

fn mends(alone: bool) -> io::Result<()> {
    let mending = mend(&input()?, &mut [0; MEND_LENDS]);
    let printed = print_mending(&mending, alone);
    // Whoever wants the text alone hands it on, so a refusal must not stand in its place.
    if alone && mending.is_err() {
        return io::stderr().write_all(&printed);
    }
    io::stdout().write_all(&printed)
}
