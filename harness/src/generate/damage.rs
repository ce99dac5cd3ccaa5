//! Texts with something changed: bytes, numbers, lines, line feeds, lengths.

use super::questions::{counted, question};
use super::MOST_RUNS;
use crate::print::BENCH_LENDS;
use crate::protocol::{Kind, Request};
use crate::random::Random;
use crate::text::{read, text_of, MAX_TEXT};

/// A damaged text. One that is still legal and takes long to answer is only read and written again.
pub fn damaged(random: &mut Random) -> Request {
    let mut text = text_of(&question(random)).into_bytes();
    for _ in 0..random.within(1, 2) {
        text = damage(random, text);
    }
    text.truncate(usize::from(u16::MAX));
    let slow = match read(&text) {
        Ok(question) => question.budget > MOST_RUNS && counted(&question.program, MOST_RUNS, &question.want).over,
        Err(_) => false,
    };
    let kind = if slow || random.once_in(6) { Kind::Write } else { Kind::Query };
    Request { kind, lent: BENCH_LENDS as u16, text, codes: Vec::new() }
}

fn damage(random: &mut Random, text: Vec<u8>) -> Vec<u8> {
    match random.below(18) {
        0..=2 => change_byte(random, text),
        3..=5 => change_lines(random, text),
        6..=8 => change_number(random, text),
        9 => change_line_feed(random, text),
        10 => {
            let kept = random.below(text.len() + 1);
            text[..kept].to_vec()
        }
        11 => change_length(random, text),
        12 => add_ops(random, text),
        13 => swap_fields(random, text),
        14 => change_op(random, text),
        15 => add_skip(random, text),
        16 => change_want(random, text),
        _ => noise(random),
    }
}

/// A byte of any class: digits, letters, signs, blanks, control bytes, bytes above 127.
fn any_byte(random: &mut Random) -> u8 {
    match random.below(8) {
        0 => *random.pick(b"0123456789"),
        1 => *random.pick(b"abcdefhlmorstwz"),
        2 => *random.pick(b"=,\n+-."),
        3 => *random.pick(b" \t\r\0\x0B\x0C"),
        4 => random.within(128, 255) as u8,
        5 => *random.pick(b"/:AZ_~\x7F"),
        _ => random.byte(),
    }
}

/// Replaces, puts in or takes out one byte.
pub fn change_byte(random: &mut Random, mut text: Vec<u8>) -> Vec<u8> {
    let at = random.below(text.len() + 1);
    match random.below(4) {
        0 => text.insert(at, any_byte(random)),
        1 if at < text.len() => {
            text.remove(at);
        }
        _ if at < text.len() => text[at] = any_byte(random),
        _ => text.push(any_byte(random)),
    }
    text
}

/// Drops, doubles, swaps, moves or empties lines.
fn change_lines(random: &mut Random, text: Vec<u8>) -> Vec<u8> {
    let mut lines: Vec<Vec<u8>> = text.split_inclusive(|&byte| byte == b'\n').map(<[u8]>::to_vec).collect();
    if lines.is_empty() {
        return text;
    }
    let (one, other) = (random.below(lines.len()), random.below(lines.len()));
    match random.below(7) {
        0 => {
            lines.remove(one);
        }
        1 => lines.insert(one, lines[one].clone()),
        2 => lines.swap(one, other),
        3 => {
            let line = lines.remove(one);
            lines.insert(other, line);
        }
        4 => lines[one] = b"\n".to_vec(),
        // A thread line that is gone or out of its turn.
        5 => {
            let line = format!("thread={}\n", random.below(6)).into_bytes();
            match (0..lines.len()).find(|&at| lines[at].starts_with(b"thread=")) {
                Some(first) if random.once_in(2) => {
                    lines.remove(first);
                }
                Some(first) => lines[first] = line,
                None => lines.push(line),
            }
        }
        _ => lines.push(lines[one].clone()),
    }
    lines.concat()
}

/// Puts another number in the place of one: grown, over a limit, with a leading zero or a sign, of many digits.
pub fn change_number(random: &mut Random, text: Vec<u8>) -> Vec<u8> {
    let starts: Vec<usize> = (0..text.len())
        .filter(|&at| text[at].is_ascii_digit() && (at == 0 || !text[at - 1].is_ascii_digit()))
        .collect();
    if starts.is_empty() {
        return text;
    }
    let start = *random.pick(&starts);
    let end = start + text[start..].iter().take_while(|byte| byte.is_ascii_digit()).count();
    let old = String::from_utf8_lossy(&text[start..end]).into_owned();
    let many = if random.once_in(4) { random.within(100, 950) } else { random.within(3, 40) };
    let new = match random.below(15) {
        0 => format!("0{old}"),
        1 => format!("{old}{}", random.below(10)),
        2 => format!("+{old}"),
        3 => format!("-{old}"),
        4 => String::new(),
        5 => "9".repeat(many),
        6 => format!("1{}", "0".repeat(many)),
        7 => random.pick(&["18446744073709551616", "18446744073709551617", "4294967296", "4294967297"]).to_string(),
        8 => random.pick(&["255", "256", "257", "1000000000", "1000000001", "65536", "65537"]).to_string(),
        9 => "0".to_string(),
        10 => format!("00{old}"),
        _ => random.below(10).to_string(),
    };
    [&text[..start], new.as_bytes(), &text[end..]].concat()
}

/// Loses, doubles or replaces a line feed, or puts a carriage return before it.
fn change_line_feed(random: &mut Random, text: Vec<u8>) -> Vec<u8> {
    let feeds: Vec<usize> = (0..text.len()).filter(|&at| text[at] == b'\n').collect();
    if feeds.is_empty() {
        return text;
    }
    let at = if random.once_in(3) { feeds[feeds.len() - 1] } else { *random.pick(&feeds) };
    let new = random.pick(&["", "\n\n", "\r\n", "\r", "\0", "\n\r", " \n", "\0\n"]).as_bytes();
    [&text[..at], new, &text[at + 1..]].concat()
}

/// Grows the text to about the limit, or far beyond it.
fn change_length(random: &mut Random, mut text: Vec<u8>) -> Vec<u8> {
    let length = match random.below(10) {
        0 => 2000,
        1 => 5000,
        2 if random.once_in(10) => usize::from(u16::MAX),
        _ => random.within(MAX_TEXT - 2, MAX_TEXT + 2),
    };
    match random.below(4) {
        0 => text.resize(length.max(text.len()), b'\n'),
        1 => text.resize(length.max(text.len()), any_byte(random)),
        2 => {
            while text.len() < length {
                text.extend_from_slice(b"op=mf\n");
            }
            text.truncate(length);
        }
        // One number that fills the whole rest.
        _ => {
            text.truncate(random.below(text.len() + 1));
            let digits = length.saturating_sub(text.len() + 8);
            text.extend_from_slice(b"budget=");
            text.resize(text.len() + digits, b'7');
            text.push(b'\n');
        }
    }
    text
}

/// Puts op lines in, so that a thread has up to nine or more of them; or one before the first thread.
fn add_ops(random: &mut Random, text: Vec<u8>) -> Vec<u8> {
    let lines: Vec<&[u8]> = text.split_inclusive(|&byte| byte == b'\n').collect();
    let before_threads = lines.len().min(4);
    let (at, more) = if random.once_in(4) {
        (before_threads, 0)
    } else {
        (random.within(before_threads, lines.len()), random.within(0, 9))
    };
    let fine = random.pick(&["op=mf\n", "op=st,0,1\n", "op=bz,0,1\n", "op=fo,0\n"]).as_bytes();
    let last = random.pick(&["op=mf\n", "op=st,0,256\n", "op=mf,0\n", "op=bz,0,8\n", "op=bz,0,9\n"]).as_bytes();
    [lines[..at].concat(), fine.repeat(more), last.to_vec(), lines[at..].concat()].concat()
}

/// Swaps two neighbours at a comma or an equals sign, or doubles or drops the sign.
fn swap_fields(random: &mut Random, mut text: Vec<u8>) -> Vec<u8> {
    let signs: Vec<usize> = (0..text.len()).filter(|&at| matches!(text[at], b',' | b'=')).collect();
    if signs.is_empty() {
        return text;
    }
    let at = *random.pick(&signs);
    match random.below(4) {
        0 => text.insert(at, text[at]),
        1 => {
            text.remove(at);
        }
        2 if at + 1 < text.len() => text.swap(at, at + 1),
        _ => text[at] = *random.pick(b",=;: \n"),
    }
    text
}

/// Puts in a skip that passes over anything from nothing to too much.
fn add_skip(random: &mut Random, text: Vec<u8>) -> Vec<u8> {
    let lines: Vec<&[u8]> = text.split_inclusive(|&byte| byte == b'\n').collect();
    let at = random.within(lines.len().min(5), lines.len());
    let skip = format!("op=bz,{},{}\n", random.below(4), random.below(10));
    [lines[..at].concat(), skip.into_bytes(), lines[at..].concat()].concat()
}

/// Wants any count of any values.
fn change_want(random: &mut Random, text: Vec<u8>) -> Vec<u8> {
    let mut lines: Vec<Vec<u8>> = text.split_inclusive(|&byte| byte == b'\n').map(<[u8]>::to_vec).collect();
    let values: Vec<&str> =
        (0..random.below(8)).map(|_| *random.pick(&["0", "1", "42", "255", "256", "1000", "", "00", "x"])).collect();
    if let Some(line) = lines.iter_mut().find(|line| line.starts_with(b"want=")) {
        *line = format!("want={}\n", values.join(",")).into_bytes();
    }
    lines.concat()
}

/// Gives an op line another name, or more or fewer operands.
fn change_op(random: &mut Random, text: Vec<u8>) -> Vec<u8> {
    let mut lines: Vec<Vec<u8>> = text.split_inclusive(|&byte| byte == b'\n').map(<[u8]>::to_vec).collect();
    let ops: Vec<usize> = (0..lines.len()).filter(|&at| lines[at].starts_with(b"op=")).collect();
    if ops.is_empty() {
        return text;
    }
    let at = *random.pick(&ops);
    let name = *random.pick(&["st", "sr", "ld", "cas", "faa", "mf", "sf", "fl", "fo", "bz", "xx", "", "clflush", "MF"]);
    let mut line = format!("op={name}");
    for _ in 0..random.below(6) {
        let number = *random.pick(&["0", "0", "1", "1", "2", "3", "4", "6", "8", "9", "255", "256", "", "01", "x"]);
        line.push_str(&format!(",{number}"));
    }
    line.push('\n');
    lines[at] = line.into_bytes();
    lines.concat()
}

/// Bytes of no text.
fn noise(random: &mut Random) -> Vec<u8> {
    let length = if random.once_in(4) { random.below(1100) } else { random.below(40) };
    (0..length).map(|_| any_byte(random)).collect()
}
