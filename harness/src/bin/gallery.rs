//! `gallery DIR [-- BENCH.. [-- MEND.. [-- LEGAL..]]]`: each question of the gallery, each text from the forum and each list of runs beside its
//! expected output, by the simulator and by the commands of `bench`, `mend` and `legal`.

use harness::feed::feed_whole;
use harness::legal::{print_legal, split};
use harness::mend::{mend, print_mending, Mended, MAX_FORUM, MEND_LENDS};
use harness::print::{print, BENCH_LENDS};
use std::io::{self, Write};
use std::path::{Path, PathBuf};
use std::process::{Command, ExitCode, Output, Stdio};

fn main() -> ExitCode {
    let words: Vec<String> = std::env::args().skip(1).collect();
    let parts: Vec<&[String]> = words.split(|word| word == "--").collect();
    let (directory, commands) = match parts[..] {
        [[directory], ref commands @ ..] if commands.len() <= 3 && commands.iter().all(|words| !words.is_empty()) => {
            (directory, commands)
        }
        _ => {
            eprintln!("usage: gallery DIR [-- BENCH.. [-- MEND.. [-- LEGAL..]]]");
            return ExitCode::from(2);
        }
    };
    let command = |at: usize| commands.get(at).copied().unwrap_or_default();
    match compare(Path::new(directory), command(0), command(1), command(2)) {
        Ok((texts, 0)) if texts > 0 => ExitCode::SUCCESS,
        Ok(_) => ExitCode::FAILURE,
        Err(error) => {
            eprintln!("gallery: {error}");
            ExitCode::FAILURE
        }
    }
}

/// Compares every text of the directory: how many there are, and how many differ. An empty command is left out.
fn compare(directory: &Path, bench: &[String], mend: &[String], legal: &[String]) -> io::Result<(usize, usize)> {
    let mut texts: Vec<PathBuf> = Vec::new();
    for entry in std::fs::read_dir(directory)? {
        let path = entry?.path();
        if path.extension().is_some_and(|extension| extension == "txt") {
            texts.push(path);
        }
    }
    texts.sort();
    let mut differ = 0;
    for path in &texts {
        let name = path.to_string_lossy();
        let agrees = if name.ends_with(".forum.txt") {
            post_agrees(path, bench, mend)?
        } else if name.ends_with(".runs.txt") {
            runs_agree(path, legal)?
        } else {
            question_agrees(path, bench)?
        };
        differ += usize::from(!agrees);
    }
    if !mend.is_empty() {
        differ += usize::from(!refusal_agrees(mend)?);
    }
    println!("{} texts, {differ} differ", texts.len());
    Ok((texts.len(), differ))
}

fn question_agrees(path: &Path, bench: &[String]) -> io::Result<bool> {
    let text = std::fs::read(path)?;
    let expected = std::fs::read(path.with_extension("out")).unwrap_or_default();
    let mut agrees = same(path, "simulator", &expected, print(&text, BENCH_LENDS).as_bytes());
    if !bench.is_empty() {
        agrees &= same(path, "bench", &expected, &output_of(bench, &text)?);
    }
    Ok(agrees)
}

/// A text from the forum: what mend prints for it, the mended text alone, and what bench answers to that. Where X.txt is there, X.forum.txt is
/// that question with the forum's damage, and mending must give it back.
fn post_agrees(path: &Path, bench: &[String], mender: &[String]) -> io::Result<bool> {
    let post = std::fs::read(path)?;
    let expected = std::fs::read(path.with_extension("out")).unwrap_or_default();
    let mending = mend(&post, &mut [0; MEND_LENDS]);
    let mut agrees = same(path, "simulator", &expected, &print_mending(&mending, false));
    if !mender.is_empty() {
        agrees &= same(path, "mend", &expected, &output_of(mender, &post)?);
    }
    let Ok(Mended { text, .. }) = mending else {
        return Ok(agrees);
    };
    let question = path.with_extension("").with_extension("txt");
    if question.exists() {
        agrees &= same(path, "simulator's mended text", &std::fs::read(question)?, &text);
    }
    let mut mended = text.clone();
    if !mender.is_empty() {
        mended = output_of(&with_text(mender), &post)?;
        agrees &= same(path, "mend's text alone", &text, &mended);
    }
    if !bench.is_empty() {
        let answer = print(&text, BENCH_LENDS);
        agrees &= same(path, "bench's answer to the mended text", answer.as_bytes(), &output_of(bench, &mended)?);
    }
    Ok(agrees)
}

/// A list of runs behind a question: what legal prints for it. Where X.txt is there, X.runs.txt begins with that question.
fn runs_agree(path: &Path, legal: &[String]) -> io::Result<bool> {
    let input = std::fs::read(path)?;
    let expected = std::fs::read(path.with_extension("out")).unwrap_or_default();
    let mut agrees = same(path, "simulator", &expected, print_legal(&input).as_bytes());
    let question = path.with_extension("").with_extension("txt");
    if question.exists() {
        agrees &= same(path, "question", &std::fs::read(question)?, &split(&input).0.concat());
    }
    if !legal.is_empty() {
        agrees &= same(path, "legal", &expected, &feed_whole(legal, &input)?.output);
    }
    Ok(agrees)
}

/// A text too long to be mended: mend says so, but on standard error where the text is wanted alone, and then nothing on standard output.
fn refusal_agrees(mender: &[String]) -> io::Result<bool> {
    let (path, post) = (Path::new("a text too long"), [b' '; MAX_FORUM + 1]);
    let refusal = print_mending(&mend(&post, &mut []), false);
    let alone = run(&with_text(mender), &post)?;
    Ok(same(path, "mend", &refusal, &output_of(mender, &post)?)
        & same(path, "mend's text alone", b"", &alone.stdout)
        & same(path, "mend's standard error", &refusal, &alone.stderr))
}

/// The command with the argument that lets mend print the text alone.
fn with_text(mender: &[String]) -> Vec<String> {
    [mender, &["text".to_string()]].concat()
}

/// Whether an output is the expected one; both are shown if not.
fn same(path: &Path, whose: &str, expected: &[u8], output: &[u8]) -> bool {
    if output == expected {
        return true;
    }
    println!("{}: the {whose} differs", path.display());
    println!("  expected: {}", expected.escape_ascii());
    println!("  printed:  {}", output.escape_ascii());
    false
}

/// What the command prints for a text on its standard input. What it says on standard error is passed on.
fn output_of(command: &[String], text: &[u8]) -> io::Result<Vec<u8>> {
    let output = run(command, text)?;
    io::stderr().write_all(&output.stderr)?;
    Ok(output.stdout)
}

fn run(command: &[String], text: &[u8]) -> io::Result<Output> {
    let mut piped = Command::new(&command[0]);
    piped.args(&command[1..]).stdin(Stdio::piped()).stdout(Stdio::piped()).stderr(Stdio::piped());
    let mut child = piped.spawn()?;
    if let Some(mut input) = child.stdin.take() {
        // A command that does not read its input shows by its output.
        let _ = input.write_all(text);
    }
    child.wait_with_output()
}
