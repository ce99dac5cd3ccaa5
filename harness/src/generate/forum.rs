//! Texts as the forum gives them back: with its damage, with faults of their own, with none, about the limit, and any bytes.

use super::damage::damaged;
use super::questions::written;
use crate::mend::{self, MAX_FORUM};
use crate::own::is_neat;
use crate::print::BENCH_LENDS;
use crate::protocol::{Kind, Request};
use crate::random::Random;

/// A text to be mended, and the text that must come of it where that is known.
type Post = (Vec<u8>, Option<Vec<u8>>);

/// A text with a buffer of about the length that it needs, and what must come of it.
pub fn mended(random: &mut Random) -> (Request, Option<Vec<u8>>) {
    let (mut text, mut original) = post(random);
    if text.len() > usize::from(u16::MAX) {
        text.truncate(usize::from(u16::MAX));
        original = None;
    }
    let lent = lent_about(random, mend::mended(&text).text.len());
    let codes = if random.once_in(6) { vec![random.byte()] } else { Vec::new() };
    (Request { kind: Kind::Mend, lent, text, codes }, original)
}

fn lent_about(random: &mut Random, needed: usize) -> u16 {
    let lent = match random.below(16) {
        0 => 0,
        1 | 2 => needed.saturating_sub(1),
        3..=5 => needed,
        6 => needed + 1,
        7 => MAX_FORUM,
        8..=10 => MAX_FORUM + 1,
        11 => random.below(BENCH_LENDS + 1),
        _ => BENCH_LENDS,
    };
    lent.min(BENCH_LENDS) as u16
}

fn post(random: &mut Random) -> Post {
    match random.below(20) {
        0 => (accepted(random), None),
        1..=8 => from_forum(random, accepted),
        9 | 10 => from_forum(random, with_empty_lines),
        11 | 12 => from_forum(random, with_long_line),
        // Whatever else is wrong with it stays.
        13 | 14 => from_forum(random, |random| damaged(random).text),
        15 => (of_blanks(random), None),
        16 | 17 => (any_bytes(random), None),
        _ => (about_limit(random), None),
    }
}

/// The text of a question, as the reader accepts it.
fn accepted(random: &mut Random) -> Vec<u8> {
    written(random).text
}

/// An accepted text with empty lines anywhere, so also several line feeds at its end.
fn with_empty_lines(random: &mut Random) -> Vec<u8> {
    let mut lines = lines_of(&accepted(random));
    for _ in 0..random.within(1, 6) {
        // Behind the last line feed there is no line to be put in.
        let at = if random.once_in(3) { lines.len() - 1 } else { random.below(lines.len()) };
        lines.insert(at, Vec::new());
    }
    lines.join(&b'\n')
}

/// An accepted text with one line made long: a word, a number, or blanks and carriage returns inside it.
fn with_long_line(random: &mut Random) -> Vec<u8> {
    let mut lines = lines_of(&accepted(random));
    let at = random.below(lines.len() - 1);
    let length = random.within(20, 1300);
    let inside: Vec<u8> = match random.below(4) {
        0 => vec![b'x'; length],
        1 => [b"7", &b"0".repeat(length)[..]].concat(),
        2 => (0..length).map(|_| *random.pick(b"\r   ")).collect(),
        _ => b"0,".repeat(length / 2),
    };
    lines[at].extend([&b"x"[..], &inside, b"x"].concat());
    lines.join(&b'\n')
}

/// A text with the forum's damage, which leaves nothing that mending does not undo if there was nothing to mend before.
fn from_forum(random: &mut Random, make: impl Fn(&mut Random) -> Vec<u8>) -> Post {
    let text = make(random);
    let mut lines = lines_of(&text);
    // Some of the five sorts of damage, at least one.
    let sorts = random.within(1, 31);
    // The last line feed goes only from behind a line that is not empty.
    if sorts & 1 != 0 && matches!(&lines[..], [.., before, last] if !before.is_empty() && last.is_empty()) {
        lines.pop();
    }
    for (bit, ends) in [(2, "\r"), (4, " "), (8, "\r ")] {
        if sorts & bit != 0 {
            add_ends(random, &mut lines, ends.as_bytes());
        }
    }
    if sorts & 16 != 0 {
        let often = how_often(random);
        lines = lines.iter().map(|line| with_zeros(random, line, often)).collect();
    }
    (lines.join(&b'\n'), is_neat(&text).then_some(text))
}

/// What stands between line feeds; behind the last one there is one line more.
fn lines_of(text: &[u8]) -> Vec<Vec<u8>> {
    text.split(|&byte| byte == b'\n').map(<[u8]>::to_vec).collect()
}

/// Damage comes at every place, or once in so many.
fn how_often(random: &mut Random) -> usize {
    *random.pick(&[1, 1, 2, 4, 16])
}

/// Puts bytes of these at the ends of lines.
fn add_ends(random: &mut Random, lines: &mut [Vec<u8>], ends: &[u8]) {
    let often = how_often(random);
    for line in lines {
        if random.once_in(often) {
            let most = if random.once_in(60) { 1500 } else { 4 };
            line.extend((0..random.within(1, most)).map(|_| *random.pick(ends)));
        }
    }
}

/// Puts zeros before numbers.
fn with_zeros(random: &mut Random, line: &[u8], often: usize) -> Vec<u8> {
    let mut with_zeros = Vec::new();
    for run in line.chunk_by(|one, next| one.is_ascii_digit() == next.is_ascii_digit()) {
        if run[0].is_ascii_digit() && random.once_in(often) {
            let most = if random.once_in(60) { 1500 } else { 4 };
            with_zeros.resize(with_zeros.len() + random.within(1, most), b'0');
        }
        with_zeros.extend(run);
    }
    with_zeros
}

/// Nothing but blanks and carriage returns, or also line feeds.
fn of_blanks(random: &mut Random) -> Vec<u8> {
    let of = random.pick(&[" ", "\r", "\r ", "\r  \n"]).as_bytes();
    let length = if random.once_in(8) { random.below(MAX_FORUM + 1) } else { random.below(12) };
    (0..length).map(|_| *random.pick(of)).collect()
}

fn any_bytes(random: &mut Random) -> Vec<u8> {
    let length = if random.once_in(8) { random.below(MAX_FORUM + 1) } else { random.below(40) };
    bytes_of(random, length)
}

/// Bytes of a few, so that every neighbourhood comes up; or of all.
fn bytes_of(random: &mut Random, length: usize) -> Vec<u8> {
    let few = ["00015\r \n,a=", "0\r \n", "0019", "01 \n", "\r \nx", "/09:\n", "\t\u{b}\u{c}\0 \r\n"];
    let few = random.pick(&few).as_bytes();
    let all = random.once_in(12);
    (0..length).map(|_| if all { random.byte() } else { *random.pick(few) }).collect()
}

/// A text of about the longest that is mended; a few are far longer.
fn about_limit(random: &mut Random) -> Vec<u8> {
    let length = match random.below(40) {
        0 => usize::from(u16::MAX),
        1 => random.within(MAX_FORUM + 2, 3 * MAX_FORUM),
        _ => random.within(MAX_FORUM - 1, MAX_FORUM + 1),
    };
    let mut text = match random.below(4) {
        0 => bytes_of(random, length),
        1 => vec![*random.pick(b"\n\n\n\r 01x"); length],
        2 => {
            let lines = ["\r\n", " \n", "\r \n", "0\n", "00\n", "00 \r\n", "op=mf\n", "op=st,00,042 \r\n", "01,", "x "];
            random.pick(&lines).bytes().cycle().take(length).collect()
        }
        // A text from the forum, made longer at its end.
        _ => {
            let mut text = from_forum(random, accepted).0;
            let more = *random.pick(b" \r\n0x");
            text.resize(length, more);
            text
        }
    };
    // With a last byte that stays the mended text may have one more than the text; and the last line may be the 2,048th.
    if random.once_in(2) {
        text[length - 1] = *random.pick(b"xxx0,\n\r ");
    }
    text
}
