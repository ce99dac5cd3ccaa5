//! What `legal` prints: document 01's cases as run lines, the lines that are refused, and where a text ends.

mod common;
use common::text;
use harness::follow::{follow, legality, longest};
use harness::legal::print_legal;
use harness::machine::{step, State};
use harness::paced::{PACED_RUN, PACED_TEXT};
use harness::text::{read, text_of};

/// Seven lines.
fn tare() -> String {
    text(&["st,0,42 st,1,1"], 2, 50, "all")
}

/// What is printed for the tare's text and these bytes behind it.
fn behind_tare(behind: &[u8]) -> String {
    print_legal(&[tare().as_bytes(), behind].concat())
}

#[test]
fn each_run_gets_its_line() {
    let runs =
        "run=0,0,16,16,65\nrun=\nrun=0,0,17\nrun=1\nrun=0,16,64,0,16,65\nrun=0,16,64,0,16,65,65\nrun=70\nrun=255\n";
    let answers = ["legal", "legal", "illegal,2", "illegal,0", "legal", "illegal,6", "illegal,0", "illegal,0"];
    let expected: String = answers.iter().map(|answer| format!("answer={answer}\n")).collect();
    assert_eq!(behind_tare(runs.as_bytes()), expected);
}

#[test]
fn the_cases_of_document_01() {
    for (threads, locs, run, answer) in [
        (&["st,0,1 ld,0,1", "st,1,1 ld,0,0"][..], 2, "0,0,1,1", "legal"),
        (&["st,0,1 mf"], 1, "0,0", "illegal,1"),
        (&["st,0,1 fo,0 st,1,1"], 2, "0,0,0,16,16,16,65", "legal"),
        (&["st,0,1 fo,1"], 2, "0,0,17", "legal"),
        (&["st,0,1 fo,0"], 1, "0,0,17", "illegal,2"),
        (&["st,0,1 fo,0 cas,0,1,5,9 st,1,1"], 2, "0,0,0,0,16,16,16,65", "illegal,2"),
        (&["st,0,255 faa,0,0,1"], 1, "0,16,0,64,64", "legal"),
    ] {
        let input = format!("{}run={run}\n", text(threads, locs, 50, "all"));
        assert_eq!(print_legal(input.as_bytes()), format!("answer={answer}\n"), "{run}");
    }
}

#[test]
fn a_line_is_refused_with_its_number() {
    for (line, number) in [
        ("", 2),
        ("run", 2),
        ("RUN=", 2),
        (" run=0", 2),
        ("run=,", 2),
        ("run=1,", 2),
        ("run=,1", 2),
        ("run=01", 2),
        ("run=00", 2),
        ("run= 1", 2),
        ("run=0\r", 2),
        ("run=0\0", 2),
        ("op=st,0,1", 2),
        ("run=256", 3),
        ("run=0,0,0,256", 3),
        ("run=99999999999999999999", 3),
        ("run=18446744073709551616", 3),
        // 2 before 3, wherever they are on the line.
        ("run=1,256,x", 2),
        ("run=x,256", 2),
        ("run=256,", 2),
        ("run=256,01", 2),
    ] {
        // The next line is answered, whatever is wrong with this one.
        let printed = behind_tare(format!("run=0\n{line}\nrun=0\n").as_bytes());
        assert_eq!(printed, format!("answer=legal\nanswer=refused,{number},9\nanswer=legal\n"), "{line}");
    }
}

#[test]
fn a_line_of_over_1024_bytes_is_refused_with_1() {
    // Numbers of many digits, then what is misshapen: with 1,024 bytes 3 and 2, with one more 1.
    for (front, filler, number) in [("run=", "9", 3), ("run=", "x", 2), ("", "x", 2), ("run=", ",", 2)] {
        for (length, number) in [(1023, number), (1024, number), (1025, 1), (5000, 1), (100_000, 1)] {
            let line = format!("{front}{}", filler.repeat(length - front.len()));
            let printed = behind_tare(format!("run=\n{line}\nrun=0\n").as_bytes());
            assert_eq!(printed, format!("answer=legal\nanswer=refused,{number},9\nanswer=legal\n"), "{front} {length}");
        }
    }
    // 510 codes fill a line of 1,023 bytes: it is judged.
    let longest = format!("run=0{}\n", ",0".repeat(509));
    assert_eq!((longest.len(), &behind_tare(longest.as_bytes())[..]), (1024, "answer=illegal,2\n"));
}

#[test]
fn a_last_line_feed_that_lacks() {
    assert_eq!(behind_tare(b"run=0\nrun=0"), "answer=legal\nanswer=refused,2,9\n");
    assert_eq!(behind_tare(b"run="), "answer=refused,2,8\n");
    assert_eq!(behind_tare(b"run=256"), "answer=refused,2,8\n");
    assert_eq!(behind_tare(b"run=0\nx"), "answer=legal\nanswer=refused,2,9\n");
    assert_eq!(behind_tare(b"run=0\n"), "answer=legal\n");
    assert_eq!(behind_tare(b"run=0\n\n"), "answer=legal\nanswer=refused,2,9\n");
    let long = format!("run={}", "0".repeat(1021));
    assert_eq!(behind_tare(long.as_bytes()), "answer=refused,1,8\n");
    assert_eq!(behind_tare(&long.as_bytes()[..1024]), "answer=refused,2,8\n");
}

#[test]
fn a_refused_text_gets_one_line_and_no_run_any() {
    let runs = "run=0\nrun=x\nrun=0\n";
    let printed = |text: &str| {
        let with_runs = print_legal(format!("{text}{runs}").as_bytes());
        // Without run lines the same, where the text ends with a line feed.
        assert_eq!(print_legal(text.as_bytes()), with_runs);
        with_runs
    };
    assert_eq!(printed(&text(&["st,2,1"], 2, 50, "all")), "answer=refused,3,6\n");
    assert_eq!(printed(&text(&["mf mf mf mf mf mf mf mf mf"], 2, 50, "all")), "answer=refused,4,14\n");
    assert_eq!(printed(&text(&["bz,0,1"], 2, 50, "all")), "answer=refused,5,6\n");
    assert_eq!(printed(&text(&["mf"], 2, 50, "0")), "answer=refused,2,4\n");
    assert_eq!(printed(&tare().replace('\n', "\r\n")), "answer=refused,2,1\n");
    assert_eq!(printed(&(tare() + &"\n".repeat(1024))), "answer=refused,1,0\n");
    assert_eq!(printed(""), "answer=refused,2,1\n");
    assert_eq!(printed("threads=1\n"), "answer=refused,2,2\n");
    assert_eq!(printed(&(tare() + "run\n")), "answer=refused,2,8\n");
}

#[test]
fn where_the_text_ends() {
    let tare = tare();
    assert_eq!(print_legal(tare.as_bytes()), "");
    // Without a run line the text is read with what stands behind its last line feed.
    assert_eq!(print_legal(tare.trim_end().as_bytes()), "answer=refused,2,7\n");
    assert_eq!(behind_tare(b"ru"), "answer=refused,2,8\n");
    // A run line that is joined to the text is none, and the next one ends the text.
    let joined = format!("{}run=0\nrun=0\n", tare.trim_end());
    assert_eq!(print_legal(joined.as_bytes()), "answer=refused,2,7\n");
    // The longest text that is not refused with 1, and one byte more.
    let filled = tare.clone() + &"\n".repeat(1024 - tare.len());
    assert_eq!(print_legal((filled.clone() + "run=0\n").as_bytes()), "answer=refused,2,8\n");
    assert_eq!(print_legal((filled + "\nrun=0\n").as_bytes()), "answer=refused,1,0\n");
    // Behind the first run line nothing is text any more.
    assert_eq!(behind_tare(b"run=0\nthread=1\nrun=0\n"), "answer=legal\nanswer=refused,2,9\nanswer=legal\n");
}

#[test]
fn the_run_that_is_measured_is_legal_and_of_every_sort() {
    let question = read(PACED_TEXT.as_bytes()).expect("a legal text");
    assert_eq!(text_of(&question), PACED_TEXT);
    let threads = ["st,0,1 fo,0 sf st,1,1 ld,0,1", "ld,0,1 bz,0,2 st,2,1 fl,2 st,2,2"];
    assert_eq!(question.program, common::program(&threads, 3));
    assert_eq!(legality(&question.program, &PACED_RUN), Ok(None));
    let after = follow(&question.program, &PACED_RUN).expect("allowed");
    assert_eq!(longest(&question.program, &PACED_RUN).map(|whole| (whole.length, whole.after)), Ok((20, after)));
    assert_eq!((after.memory, after.places), ([1, 1, 1, 0, 0, 0], [5, 5, 0, 0]));
    assert_eq!(after.registers, [[1, 0, 0, 0], [1, 0, 0, 0], [0; 4], [0; 4]]);
    // Each sort of code, and one code left to be done, so that the last one is no end.
    for sort in [0..=0, 1..=1, 16..=16, 24..=24, 64..=64, 65..=65, 66..=66] {
        assert!(PACED_RUN.iter().any(|code| sort.contains(code)));
    }
    let mut state = State::start(&question.program);
    for code in PACED_RUN {
        state = step(&question.program, &state, code).expect("allowed");
    }
    assert!(step(&question.program, &state, 24).is_ok());
}
