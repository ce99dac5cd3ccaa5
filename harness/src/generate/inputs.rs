//! Inputs for the program `legal`: a question's text and run lines behind it, with everything that may be wrong with either.

use super::codes::{allowed_walk, codes_for, question_for_codes};
use super::damage::{change_byte, change_number, damaged};
use super::programs::any_program;
use crate::legal::MAX_LINE;
use crate::program::{Program, Question, Want, MAX_OPS, MAX_THREADS};
use crate::random::Random;
use crate::text::{text_of, with_commas, MAX_TEXT};

/// The question of most fixed inputs.
const TARE: &[u8] = b"threads=1\nlocs=2\nbudget=50\nwant=all\nthread=0\nop=st,0,42\nop=st,1,1\n";

/// Texts refused with 2, 3, 4 and 5.
const REFUSED: [&[u8]; 6] = [
    b"threads=1\nlocs=2\nbudget=50\nwant=0\nthread=0\n",
    b"threads=1\r\nlocs=2\r\nbudget=50\r\nwant=all\r\nthread=0\r\n",
    b"threads=5\nlocs=2\nbudget=50\nwant=all\nthread=0\n",
    b"threads=1\nlocs=2\nbudget=50\nwant=all\nthread=0\nop=st,2,1\n",
    b"threads=1\nlocs=1\nbudget=50\nwant=all\nthread=0\nop=mf\nop=mf\nop=mf\nop=mf\nop=mf\nop=mf\nop=mf\nop=mf\nop=mf\n",
    b"threads=1\nlocs=1\nbudget=50\nwant=all\nthread=0\nop=bz,0,1\n",
];

/// Lines that are no runs, and a few that only look like none.
const ODD_LINES: [&[u8]; 67] = [
    b"",
    b"r",
    b"run",
    b"run=,",
    b"run=,,",
    b"run=1,",
    b"run=,1",
    b"run=0,0,",
    b"run=0,,0",
    b"run=01",
    b"run=00",
    b"run=0,00",
    b"run=0256",
    b"run= 1",
    b"run=1 ",
    b"run=0, 0",
    b"run= ",
    b" run=0",
    b"run =0",
    b"run=+1",
    b"run=-1",
    b"run=-0",
    b"run=0.0",
    b"run=0;0",
    b"run=0x1",
    b"run=1e1",
    b"run=a",
    b"run=/",
    b"run=:",
    b"run=255",
    b"run=256",
    b"run=257",
    b"run=300",
    b"run=512",
    b"run=1000",
    b"run=65536",
    b"run=4294967296",
    b"run=18446744073709551616",
    b"run=99999999999999999999",
    b"run=0,256",
    b"run=256,0",
    b"run=256,256",
    b"run=1,256,x",
    b"run=x,256",
    b"run=256,",
    b"run=256,01",
    b"run=0,0,16,16,65,256",
    b"RUN=",
    b"Run=0",
    b"run:0",
    b"runs=0",
    b"run==0",
    b"run=run=",
    b"op=st,0,1",
    b"thread=0",
    b"threads=1",
    b"answer=legal",
    b"run=0\r",
    b"run=\r",
    b"\r",
    b"run=0\t",
    b"run=0\0",
    b"run=\0",
    b"\0",
    b"run=0\xFF",
    b"run=\xFF",
    b"\xFF",
];

/// Lengths of lines about the limit and far beyond it.
const LENGTHS: [usize; 5] = [MAX_LINE - 1, MAX_LINE, MAX_LINE + 1, 5_000, 100_000];

/// The inputs that stand by themselves, whatever the seeds give.
pub fn fixed_inputs() -> Vec<Vec<u8>> {
    let mut inputs: Vec<Vec<u8>> = Vec::new();
    let mut add = |parts: &[&[u8]]| inputs.push(parts.concat());
    let unfed = &TARE[..TARE.len() - 1];

    // No text, no run line, or neither; a last line feed that lacks.
    for alone in [&b""[..], b"\n", b"\n\n", b"r", b"run=", b"run=\n", b"run=0", b"run=0\nrun=0\n", b"\0", b"\xFF\n"] {
        add(&[alone]);
    }
    add(&[TARE]);
    add(&[unfed]);
    for behind in [
        &b"run="[..],
        b"run=0",
        b"run=x",
        b"run=\n",
        b"run=0\nrun=0,0",
        b"run=0\nrun=",
        b"run=0\nx",
        b"run=0\n\n",
        b"run=0\n\n\nrun=0\n",
        b"run=0\nrun=0,0\nrun=0,0,16,16,65\nrun=1\n",
        b"r",
        b"ru",
        b"run",
        b"run\n",
        b"run:\nrun=0\n",
        b"x\nrun=0\n",
        b"\nrun=0\n",
        b" run=0\n",
        b"op=mf\nrun=0\nop=mf\nrun=0\n",
        b"thread=1\nrun=0\n",
    ] {
        add(&[TARE, behind]);
    }
    // A run line that comes too soon, or is joined to the text.
    add(&[unfed, b"run=0\n"]);
    add(&[unfed, b"run=0\nrun=0\nrun=0"]);
    add(&[b"run=0\n", TARE, b"run=0\n"]);
    add(&[&TARE[..37], b"run=0\n", &TARE[37..]]);
    add(&[&TARE[..5], b"\nrun=0\n"]);

    // Each odd line by itself, with a run behind it to show that the work goes on; and as the last, without its line feed.
    let odd: Vec<Vec<u8>> = ODD_LINES.iter().map(|line| [line, &b"\nrun=0,0,16\n"[..]].concat()).collect();
    add(&[TARE, b"run=\n", &odd.concat()]);
    for line in [&b"run=,"[..], b"run=256", b"run=0\r", b"\0", b"\r", b"op=mf"] {
        add(&[TARE, b"run=0\n", line]);
    }
    let begun = ODD_LINES.iter().filter(|line| line.starts_with(b"run=")).step_by(5);
    for line in begun {
        add(&[TARE, line, b"\nrun=0\n"]);
    }

    // Lines of each length, of each make; the first of them, and the last without its line feed.
    for length in LENGTHS {
        let lines: Vec<Vec<u8>> =
            long_lines(length).into_iter().map(|line| [&line, &b"\nrun=0\n"[..]].concat()).collect();
        add(&[TARE, b"run=0\n", &lines.concat()]);
        for line in long_lines(length).iter().take(2) {
            add(&[TARE, line, b"\nrun=0\n"]);
            add(&[TARE, line]);
            add(&[TARE, b"run=0\n", line]);
        }
    }

    // Texts about the limit and far beyond it, with and without a run line behind them.
    for length in [MAX_TEXT - 1, MAX_TEXT, MAX_TEXT + 1, 3 * MAX_TEXT, 100_000] {
        for filler in [&b"\n"[..], b"x", b"op=mf\n", b"run:0\n"] {
            let filled: Vec<u8> = TARE.iter().chain(filler.iter().cycle()).copied().take(length).collect();
            add(&[&filled]);
            add(&[&filled[..length - 1], b"\nrun=0\nrun=0,0\n"]);
        }
    }
    for text in REFUSED {
        add(&[text]);
        add(&[text, b"run=0\nrun=x\nrun=0\n"]);
    }

    // The longest text, the longest run, one code more, and a list of as many codes as a line has room for.
    let stores: String = (0..MAX_THREADS).map(|t| format!("thread={t}\n{}", "op=st,0,255\n".repeat(MAX_OPS))).collect();
    let text = format!("threads=4\nlocs=6\nbudget=1000000000\nwant=255,255,255,255,255,255\n{stores}");
    let mut run: Vec<u8> =
        (0..MAX_THREADS as u8).flat_map(|t| [[t; MAX_OPS], [16 + 8 * t; MAX_OPS]].concat()).collect();
    run.extend([64; MAX_THREADS * MAX_OPS]);
    let longest = run_line(&run);
    let one_more = run_line(&[&run[..], &[64]].concat());
    add(&[text.as_bytes(), &longest, &one_more, &run_line(&[0; 510]), &run_line(&[0; 511]), &longest]);
    inputs
}

/// Lines of so many bytes, their line feeds not counted: first two well-shaped ones, the second out of range.
fn long_lines(length: usize) -> Vec<Vec<u8>> {
    let filled = |front: &[u8], filler: &[u8]| -> Vec<u8> {
        front.iter().chain(filler.iter().cycle()).copied().take(length).collect()
    };
    let even = length.is_multiple_of(2);
    vec![
        filled(if even { b"run=16" } else { b"run=0" }, b",0"),
        filled(b"run=", b"9"),
        filled(if even { b"run=256,10" } else { b"run=256" }, b",0"),
        filled(if even { b"run=0" } else { b"run=16" }, b",0"),
        filled(b"run=", b","),
        filled(b"run=", b"0"),
        filled(b"run=0,", b"\0"),
        filled(b"", b"x"),
        filled(b"", b"\xFF"),
        filled(b"", b"run=0,"),
    ]
}

/// A run line as bench prints it.
fn run_line(codes: &[u8]) -> Vec<u8> {
    format!("run={}\n", with_commas(codes)).into_bytes()
}

/// The input that a seed stands for.
pub fn input(seed: u64) -> Vec<u8> {
    let random = &mut Random::new(seed);
    match random.below(12) {
        0 => refused_text(random),
        1 => mixed_lines(random),
        2 => {
            let most = random.below(4);
            runs_of_a_question(random, most)
        }
        _ => {
            let most = random.within(40, 120);
            runs_of_a_question(random, most)
        }
    }
}

/// A question and so many lines behind it, of which the first begins a run.
fn runs_of_a_question(random: &mut Random, lines: usize) -> Vec<u8> {
    let question = question_for_codes(random);
    let mut input = text_of(&question).into_bytes();
    for at in 0..lines {
        let mut line = any_line(random, &question.program);
        while at == 0 && !line.starts_with(b"run=") {
            line = any_line(random, &question.program);
        }
        input.extend(line);
    }
    if random.once_in(6) {
        input.pop();
    }
    input
}

/// A run of any sort, or a line with something wrong, with its line feed.
fn any_line(random: &mut Random, program: &Program) -> Vec<u8> {
    let run = run_line(&codes_for(random, program));
    match random.below(24) {
        0 => b"run=\n".to_vec(),
        1 | 2 => [*random.pick(&ODD_LINES), b"\n"].concat(),
        3 | 4 => change_byte(random, run),
        5 => change_number(random, run),
        6 => {
            let length = match random.below(12) {
                0 => *random.pick(&LENGTHS),
                1..=4 => random.within(MAX_LINE - 1, MAX_LINE + 1),
                _ => random.within(1, 2 * MAX_LINE),
            };
            [&random.pick(&long_lines(length))[..], b"\n"].concat()
        }
        _ => run,
    }
}

/// A damaged text, and runs that get no answer if it is refused.
fn refused_text(random: &mut Random) -> Vec<u8> {
    let mut input = if random.once_in(3) { random.pick(&REFUSED).to_vec() } else { damaged(random).text };
    for _ in 0..random.below(5) {
        input.extend(any_line(random, &Program { locs: 1, threads: vec![Vec::new()] }));
    }
    input
}

/// The lines of an input in another order.
fn mixed_lines(random: &mut Random) -> Vec<u8> {
    let most = random.within(1, 12);
    let input = runs_of_a_question(random, most);
    let mut lines: Vec<&[u8]> = input.split_inclusive(|&byte| byte == b'\n').collect();
    for _ in 0..random.within(1, 3) {
        let (one, other) = (random.below(lines.len()), random.below(lines.len()));
        lines.swap(one, other);
    }
    lines.concat()
}

/// One question with at least 24 instructions and so many run lines: beginnings of a few runs, half of them with some code behind.
pub fn large_input(lines: usize) -> Vec<u8> {
    let random = &mut Random::new(lines as u64);
    let mut program = any_program(random);
    while program.threads.iter().map(Vec::len).sum::<usize>() < 24 {
        program = any_program(random);
    }
    let runs: Vec<Vec<u8>> = (0..100).map(|_| allowed_walk(random, &program, usize::MAX).0).collect();
    let mut input = text_of(&Question { program, budget: 1, want: Want::All }).into_bytes();
    for _ in 0..lines {
        let run = random.pick(&runs);
        let mut codes = run[..random.below(run.len() + 1)].to_vec();
        if random.once_in(2) {
            codes.push(random.byte());
            codes.extend((0..random.below(3)).map(|_| random.below(70) as u8));
        }
        input.extend(run_line(&codes));
    }
    input
}
