//! Measures the program's walk beside the one written by hand, its reader, and its mending beside the simulator's: `pace GALLERY -- BENCH.. --
//! HAND.. -- ANSWERS.. -- SIMULATOR.. [-- PACE..]`, the command lines of `bench`, of pace/hand.rs, of `answers`, and of the simulator answering the
//! same requests. Each runs every question in turn, five times; the shortest time counts, less that of a question with one run. A batch of texts
//! takes milliseconds: it is run a hundred times in turn with one of as many empty texts, whose shortest time is taken off.
//!
//! The last command is that of `pace`, which judges the run of src/paced.rs a hundred thousand times: for legality, for legality with the program
//! listed once, for the state, for both combined, or not at all, as its one word says. `pace -- PACE..` measures this alone.

use harness::follow;
use harness::hand::memory_number;
use harness::mend::MEND_LENDS;
use harness::paced::{PACED_RUN, PACED_TEXT, PACED_TIMES};
use harness::pack::packed;
use harness::program::{Question, Want};
use harness::protocol::{Kind, Request};
use harness::questions::{BASE, ONE_RUN};
use harness::text;
use harness::timed::{shortest, timed};
use std::hint::black_box;
use std::path::Path;
use std::time::Instant;

const TIMES: usize = 5;
const TEXT_TIMES: usize = 100;

/// As many requests as `answers` takes.
const TEXTS: usize = 500;

/// The four lines and the op lines of the longest text there is, 708 bytes.
const LONGEST_HEAD: &str = "threads=4\nlocs=6\nbudget=1000000000\nwant=255,255,255,255,255,255\n";
const LONGEST_OP: &str = "op=cas,3,5,255,255\n";

/// The lengths of the texts to be mended, and the line of which they are made: each kind of damage is on it, and on the last the line feed lacks.
const MENDED: [usize; 4] = [256, 512, 1024, 2048];
const FORUM_LINE: &str = "op=cas,00,01,000,042 \r \r\n";

const GALLERY: [&str; 4] = ["store-buffering-fenced", "two-writers-locked", "tare-replaced", "log-fenced"];

fn main() {
    let words: Vec<String> = std::env::args().skip(1).collect();
    let parts: Vec<&[String]> = words.split(|word| word == "--").collect();
    match parts[..] {
        [[], pace @ [_, ..]] => pace_of_legality(pace),
        [[gallery], bench, hand, answers, simulator] => pace_of_texts(gallery, bench, hand, answers, simulator),
        [[gallery], bench, hand, answers, simulator, pace @ [_, ..]] => {
            pace_of_texts(gallery, bench, hand, answers, simulator);
            println!();
            pace_of_legality(pace);
        }
        _ => {
            eprintln!(
                "usage: pace GALLERY -- BENCH.. -- HAND.. -- ANSWERS.. -- SIMULATOR.. [-- PACE..], or pace -- PACE.."
            );
            std::process::exit(2);
        }
    }
}

/// The tables of the walk, of the reader and of mending.
fn pace_of_texts(gallery: &str, bench: &[String], hand: &[String], answers: &[String], simulator: &[String]) {
    let mut questions: Vec<(String, String)> =
        BASE.iter().map(|(name, text)| (name.to_string(), text.to_string())).collect();
    let of_gallery = |name: &str| {
        std::fs::read_to_string(Path::new(gallery).join(name).with_extension("txt")).expect("a text of the gallery")
    };
    for name in GALLERY {
        questions.push((name.to_string(), of_gallery(name)));
    }
    let bench_start = shortest(TIMES, bench, ONE_RUN.as_bytes()).0;
    let hand_start = shortest(TIMES, hand, &bytes(ONE_RUN)).0;
    println!("| question | runs | bench, runs a second | by hand, runs a second | by hand, times as fast |");
    println!("|---|---|---|---|---|");
    let mut run_of_a = None;
    for (name, text) in questions {
        let (mine, _) = shortest(TIMES, bench, text.as_bytes());
        let (other, said) = shortest(TIMES, hand, &bytes(&text));
        let runs = u64::from_le_bytes(said[..8].try_into().expect("eight bytes"));
        let mine = mine.saturating_sub(bench_start).as_secs_f64();
        let other = other.saturating_sub(hand_start).as_secs_f64();
        println!("| {name} | {runs} | {:.0} | {:.0} | {:.1} |", runs as f64 / mine, runs as f64 / other, mine / other);
        run_of_a.get_or_insert(mine / runs as f64);
    }
    let run_of_a = run_of_a.expect("question a");
    println!("\n| text | bytes | read, texts a second | as long as so many runs of a |");
    println!("|---|---|---|---|");
    for (name, text) in [("document 01's example", of_gallery("tare-flushed")), ("the longest", longest())] {
        let (one, _) = for_each(answers, &read_only(&text), &read_only(""));
        println!("| {name} | {} | {:.0} | {:.0} |", text.len(), 1.0 / one, one / run_of_a);
    }
    pace_of_mending(answers, simulator, run_of_a);
}

/// The table of mending. Both must say the same, or nothing is measured.
fn pace_of_mending(answers: &[String], simulator: &[String], run_of_a: f64) {
    println!("\n| bytes | mended, texts a second | by the simulator, texts a second | by the simulator, times as fast | as long as so many runs of a |");
    println!("|---|---|---|---|---|");
    for length in MENDED {
        let text: Vec<u8> = FORUM_LINE.bytes().cycle().take(length).collect();
        let (mine, said) = for_each(answers, &mend_only(&text), &mend_only(&[]));
        let (other, expected) = for_each(simulator, &mend_only(&text), &mend_only(&[]));
        if said != expected {
            eprintln!("pace: {length} bytes are not mended as the simulator mends them");
            std::process::exit(1);
        }
        println!(
            "| {length} | {:.0} | {:.0} | {:.1} | {:.0} |",
            1.0 / mine,
            1.0 / other,
            mine / other,
            mine / run_of_a
        );
    }
}

/// The table of legality, state and both combined, on the run of src/paced.rs: by the program, less what it takes to do nothing, and by the
/// simulator in this process.
fn pace_of_legality(pace: &[String]) {
    println!("| what | runs a second | times as long as legality alone |");
    println!("|---|---|---|");
    let seconds = |word: &str| {
        let (time, said) = shortest(TIMES, &[pace, &[word.to_string()]].concat(), &[]);
        assert!(!said.is_empty(), "pace: no checksum for {word}");
        time.as_secs_f64()
    };
    let nothing = seconds("nothing");
    let program = text::read(PACED_TEXT.as_bytes()).expect("a question").program;
    let alone = seconds("legality") - nothing;
    let rows = [
        ("legality", alone),
        ("legality, the program listed once", seconds("listed") - nothing),
        ("state", seconds("state") - nothing),
        ("combined", seconds("combined") - nothing),
        ("the simulator's legality", in_process(|| follow::legality(black_box(&program), black_box(&PACED_RUN)))),
        ("the simulator's state", in_process(|| follow::longest(black_box(&program), black_box(&PACED_RUN)))),
        ("the simulator's follow", in_process(|| follow::follow(black_box(&program), black_box(&PACED_RUN)))),
    ];
    for (what, seconds) in rows {
        println!("| {what} | {:.0} | {:.2} |", f64::from(PACED_TIMES) / seconds, seconds / alone);
    }
}

/// The shortest of five times that it takes to do this a hundred thousand times.
fn in_process<T>(does: impl Fn() -> T) -> f64 {
    let once = || {
        let start = Instant::now();
        for _ in 0..PACED_TIMES {
            black_box(does());
        }
        start.elapsed()
    };
    (0..TIMES).map(|_| once()).min().expect("at least one time").as_secs_f64()
}

/// Requests to mend this text, with room enough and with all that is printed.
fn mend_only(text: &[u8]) -> Vec<u8> {
    let request = Request { kind: Kind::Mend, lent: MEND_LENDS as u16, text: text.to_vec(), codes: vec![] };
    request.bytes().repeat(TEXTS)
}

/// Requests that do little more than read this text: to follow no codes.
fn read_only(text: &str) -> Vec<u8> {
    let request = Request { kind: Kind::Follow, lent: 0, text: text.into(), codes: vec![] };
    request.bytes().repeat(TEXTS)
}

fn longest() -> String {
    let threads = (0..4).map(|t| format!("thread={t}\n{}", LONGEST_OP.repeat(8)));
    LONGEST_HEAD.to_string() + &threads.collect::<String>()
}

/// The question as pace/hand.rs reads it.
fn bytes(text: &str) -> Vec<u8> {
    let Question { program, budget, want } = text::read(text.as_bytes()).expect("a question");
    let packed = packed(&program);
    let mut bytes = vec![packed.threads as u8, packed.locs as u8];
    bytes.extend(packed.lengths);
    for op in packed.ops.iter().flatten() {
        bytes.extend(op.to_le_bytes());
    }
    let wanted = match want {
        Want::All => [0, 0],
        Want::One(memory) => [1, memory_number(&memory)],
    };
    for number in [budget, wanted[0], wanted[1]] {
        bytes.extend(number.to_le_bytes());
    }
    bytes
}

/// The seconds that a command takes for one of the texts of a batch, less one of the empty batch; and what it wrote.
fn for_each(command: &[String], batch: &[u8], empty: &[u8]) -> (f64, Vec<u8>) {
    let runs: Vec<_> = (0..TEXT_TIMES).map(|_| (timed(command, empty).0, timed(command, batch))).collect();
    let nothing = runs.iter().map(|(nothing, _)| *nothing).min().expect("at least one run");
    let (time, said) = runs.into_iter().map(|(_, run)| run).min_by_key(|(time, _)| *time).expect("at least one run");
    (time.saturating_sub(nothing).as_secs_f64() / TEXTS as f64, said)
}
