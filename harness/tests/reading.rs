//! Reading and writing the text: each refusal number with its line, in the order document 01 gives.

mod common;
use common::{question, text};
use harness::program::{Op, Want};
use harness::text::{read, text_of, write};

const GOOD: &str = "threads=2\nlocs=2\nbudget=50\nwant=all\nthread=0\nop=st,0,42\nthread=1\nop=mf\n";

fn refused(text: &str) -> (u8, usize) {
    let refusal = read(text.as_bytes()).expect_err("a refused text");
    (refusal.number, refusal.line)
}

/// The good text with the line of that number, from 1, replaced.
fn with_line(number: usize, line: &str) -> String {
    let mut lines: Vec<&str> = GOOD.lines().collect();
    lines[number - 1] = line;
    lines.join("\n") + "\n"
}

#[test]
fn the_good_text_is_read_and_written() {
    let question = read(GOOD.as_bytes()).expect("a legal text");
    assert_eq!(question.program.threads[1], [Op::FullFence]);
    assert_eq!((question.budget, &question.want), (50, &Want::All));
    assert_eq!(text_of(&question), GOOD);
}

#[test]
fn every_instruction_is_read_and_written() {
    let ops = "st,0,255 sr,1,3 ld,3,1 cas,2,0,5,9 faa,1,1,7 fl,0 fo,1 bz,0,1";
    let text = text(&[ops, "mf sf"], 2, 1_000_000_000, "0,255");
    let question = read(text.as_bytes()).expect_err("the skip is past the end");
    assert_eq!((question.number, question.line), (5, 13));
    let text = text.replace("op=bz,0,1\n", "").replace("op=mf", "op=bz,0,1\nop=mf");
    let question = read(text.as_bytes()).expect("a legal text");
    assert_eq!(text_of(&question), text);
}

#[test]
fn refusal_1_over_1024_bytes() {
    assert_eq!(refused(&"x".repeat(1025)), (1, 0));
    assert_eq!(refused(&(GOOD.to_string() + &"\n".repeat(1000))), (1, 0));
    assert_eq!(refused(&"x".repeat(1024)), (2, 1));
    let digits = 1024 - "threads=\n".len();
    assert_eq!(refused(&format!("threads={}\n", "9".repeat(digits))), (3, 1));
    assert_eq!(refused(&format!("threads={}\n", "9".repeat(digits + 1))), (1, 0));
}

#[test]
fn refusal_2_missing_and_extra_lines() {
    assert_eq!(refused(""), (2, 1));
    let lines: Vec<&str> = GOOD.lines().collect();
    for kept in 1..5 {
        assert_eq!(refused(&(lines[..kept].join("\n") + "\n")), (2, kept + 1));
    }
    assert_eq!(refused(&(lines[..6].join("\n") + "\n")), (2, 7));
    assert!(read((lines[..7].join("\n") + "\n").as_bytes()).is_ok());
    assert_eq!(refused(&format!("{GOOD}\n")), (2, 9));
    assert_eq!(refused(&format!("{GOOD}thread=2\n")), (2, 9));
    assert_eq!(refused(&format!("{GOOD}want=all\n")), (2, 9));
    assert_eq!(refused(&format!("{GOOD}x")), (2, 9));
    assert_eq!(refused(&format!("\n{GOOD}")), (2, 1));
    for number in 1..=4 {
        let mut fewer = lines.clone();
        fewer.remove(number - 1);
        assert_eq!(refused(&(fewer.join("\n") + "\n")), (2, number));
        let mut doubled = lines.clone();
        doubled.insert(number, lines[number - 1]);
        assert_eq!(refused(&(doubled.join("\n") + "\n")), (2, number + 1));
    }
}

#[test]
fn refusal_2_last_line_feed_absent() {
    assert_eq!(refused(GOOD.trim_end()), (2, 8));
    assert_eq!(refused("threads=9"), (2, 1));
    assert_eq!(refused("threads=1\nlocs=99"), (2, 2));
    assert_eq!(refused("threads=9\nlocs=99"), (3, 1));
}

#[test]
fn refusal_2_thread_lines_out_of_turn() {
    for line in ["thread=1", "thread=4", "thread=99999999999999999999", "thread="] {
        assert_eq!(refused(&with_line(5, line)), (2, 5));
    }
    for line in ["thread=0", "thread=2", "thread=01", "thread=1 ", "thread=+1"] {
        assert_eq!(refused(&with_line(7, line)), (2, 7));
    }
    assert_eq!(refused(&with_line(5, "op=mf")), (2, 5));
    assert_eq!(refused(&with_line(5, "op=st,9,9")), (2, 5));
}

#[test]
fn refusal_2_misshapen_numbers() {
    for value in ["", "01", "+1", "-1", " 1", "1 ", "1\r", "0x1", "1,", "1.", "00", "a", "\u{661}"] {
        for (line, key) in [(1, "threads="), (2, "locs="), (3, "budget=")] {
            assert_eq!(refused(&with_line(line, &format!("{key}{value}"))), (2, line));
        }
        assert_eq!(refused(&with_line(4, &format!("want=1,{value}"))), (2, 4));
        assert_eq!(refused(&with_line(6, &format!("op=st,0,{value}"))), (2, 6));
        assert_eq!(refused(&with_line(6, &format!("op=st,{value},0"))), (2, 6));
    }
    assert_eq!(refused(&with_line(1, "Threads=1")), (2, 1));
    assert_eq!(refused(&with_line(1, "threads =1")), (2, 1));
    assert_eq!(refused(&with_line(1, "threads=1\0")), (2, 1));
}

#[test]
fn refusal_2_misshapen_ops() {
    let misshapen = [
        "op=",
        "op=mf,",
        "op=mf,0",
        "op=sf,1",
        "op=st",
        "op=st,",
        "op=st,0",
        "op=st,0,1,2",
        "op=fl",
        "op=fl,0,0",
        "op=xx,0",
        "op=ST,0,1",
        "op=cas,0,0,0",
        "op=cas,0,0,0,0,0",
        "op=faa,0,0",
        "op=ld,0",
        "op=bz,0",
        "op=,0,1",
        "op=st,,1",
        "op=st,0,,1",
        "op=st, 0,1",
        "st,0,1",
        "op=st;0;1",
        "op",
        "=",
        "op==mf",
        "op=mfence",
    ];
    for line in misshapen {
        assert_eq!(refused(&with_line(6, line)), (2, 6), "{line}");
    }
    // Misshapen comes before out of range, on the same line.
    assert_eq!(refused(&with_line(6, "op=st,99,x")), (2, 6));
    assert_eq!(refused(&with_line(6, "op=st,99")), (2, 6));
    assert_eq!(refused(&with_line(6, "op=xx,999,999")), (2, 6));
}

#[test]
fn refusal_2_wrong_count_of_wanted_values() {
    for want in ["0", "0,0,0", "", ",", "0,", ",0", "all,all", "All", "all "] {
        assert_eq!(refused(&with_line(4, &format!("want={want}"))), (2, 4));
    }
    assert_eq!(refused(&with_line(4, "want=256")), (2, 4));
    assert_eq!(refused(&with_line(4, "want=256,0,0")), (2, 4));
    assert_eq!(refused(&with_line(4, "want=256,x")), (2, 4));
}

#[test]
fn refusal_3_outside_the_limits() {
    let many = "9".repeat(900);
    for (line, key, values) in [
        (1, "threads=", ["0", "5", "18446744073709551617", many.as_str()]),
        (2, "locs=", ["0", "7", "4294967297", many.as_str()]),
        (3, "budget=", ["0", "1000000001", "18446744073709551617", many.as_str()]),
        (4, "want=0,", ["256", "1000", "4294967296", many.as_str()]),
        (6, "op=st,0,", ["256", "65536", "18446744073709551616", many.as_str()]),
        (6, "op=ld,0,", ["2", "6", "256", "18446744073709551616"]),
        (6, "op=sr,0,", ["4", "256", "65536", "18446744073709551616"]),
        (6, "op=fl,", ["2", "6", "256", "18446744073709551616"]),
        (6, "op=bz,0,", ["0", "9", "256", "257"]),
    ] {
        for value in values {
            assert_eq!(refused(&with_line(line, &format!("{key}{value}"))), (3, line), "{key}");
        }
    }
    for op in ["cas,4,0,0,0", "cas,0,2,0,0", "cas,0,0,256,0", "cas,0,0,0,256", "faa,4,0,0", "faa,0,2,0", "faa,0,0,256"]
    {
        assert_eq!(refused(&with_line(6, &format!("op={op}"))), (3, 6));
    }
    assert!(read(with_line(3, "budget=1000000000").as_bytes()).is_ok());
}

#[test]
fn refusal_4_a_ninth_instruction() {
    let eight = "mf ".repeat(8);
    assert!(read(text(&[&eight], 1, 1, "all").as_bytes()).is_ok());
    let with_ninth = |op: &str| refused(&text(&[&format!("{eight} {op}")], 1, 1, "all"));
    assert_eq!(with_ninth("mf"), (4, 14));
    assert_eq!(with_ninth("mf,1"), (2, 14));
    assert_eq!(with_ninth("st,1,0"), (3, 14));
    assert_eq!(with_ninth("bz,0,8"), (4, 14));
}

#[test]
fn refusal_5_a_skip_past_the_end() {
    let judged = |threads: &[&str]| refused(&text(threads, 1, 1, "all"));
    assert_eq!(judged(&["bz,0,1"]), (5, 6));
    assert_eq!(judged(&["bz,0,2 mf"]), (5, 6));
    assert_eq!(judged(&["bz,0,1 bz,0,1"]), (5, 7));
    assert_eq!(judged(&["mf", "mf bz,3,8"]), (5, 9));
    // Only when nothing else is wrong anywhere.
    assert_eq!(judged(&["bz,0,1", "st,9,9"]), (3, 8));
    assert_eq!(judged(&["bz,0,1", "xx"]), (2, 8));
    assert_eq!(judged(&["bz,0,8", &"mf ".repeat(9)]), (4, 16));
    question(&["bz,0,1 mf", "bz,0,7 mf mf mf mf mf mf mf"], 1, 1, "all");
}

#[test]
fn the_first_line_that_is_wrong_counts() {
    assert_eq!(refused("threads=5\nlocs=x\n"), (3, 1));
    assert_eq!(refused("threads=1\nlocs=x\nbudget=0\n"), (2, 2));
    assert_eq!(refused("threads=1\nlocs=7\n"), (3, 2));
}

#[test]
fn writing_fills_the_lent_buffer_or_leaves_it() {
    let question = read(GOOD.as_bytes()).expect("a legal text");
    let length = GOOD.len();
    let mut exact = vec![0xAA; length];
    assert_eq!(write(&question, &mut exact), Ok(length));
    assert_eq!(exact, GOOD.as_bytes());
    let mut longer = vec![0xAA; length + 3];
    assert_eq!(write(&question, &mut longer), Ok(length));
    assert_eq!(longer[length..], [0, 0, 0]);
    let mut shorter = vec![0xAA; length - 1];
    assert_eq!(write(&question, &mut shorter), Err(9));
    assert_eq!(shorter, vec![0xAA; length - 1]);

    let mut bad = question.clone();
    bad.want = Want::One(vec![0]);
    assert_eq!(write(&bad, &mut longer), Err(7));
    bad.budget = 0;
    assert_eq!(write(&bad, &mut shorter), Err(6));
    assert_eq!(shorter, vec![0xAA; length - 1]);
}

#[test]
fn the_longest_legal_text_fits() {
    let ops = "cas,3,5,255,255 ".repeat(8);
    let text = text(&[ops.as_str(); 4], 6, 1_000_000_000, "255,255,255,255,255,255");
    assert!(text.len() <= 1024);
    let question = read(text.as_bytes()).expect("a legal text");
    assert_eq!(text_of(&question), text);
}
