//! Mending, from the words of request 1: each decided point, the changes by line and kind, the refusals, and what is printed.

use harness::mend::{mend, mended, print_mending, Change, MAX_FORUM};
use harness::own::is_neat;
use harness::protocol::{Kind, Request};
use harness::reply::{reply, FILL};

/// The mended text, and the changes as words: "1cr 1lf".
fn told(text: &str) -> (String, String) {
    let mended = mended(text.as_bytes());
    let changes: Vec<String> = mended.changes.iter().map(|(line, change)| format!("{line}{}", change.name())).collect();
    (String::from_utf8(mended.text).expect("plain text"), changes.join(" "))
}

fn becomes(text: &str, mended: &str, changes: &str) {
    assert_eq!(told(text), (mended.to_string(), changes.to_string()), "{text:?}");
    assert!(is_neat(mended.as_bytes()), "{mended:?}");
    assert_eq!(is_neat(text.as_bytes()), changes.is_empty(), "{text:?}");
}

fn stays(text: &str) {
    becomes(text, text, "");
}

#[test]
fn carriage_returns_and_blanks_go_at_each_end_of_a_line() {
    becomes("a\r\nb\r\n", "a\nb\n", "1cr 2cr");
    becomes("a  \nb \n", "a\nb\n", "1blank 2blank");
    becomes("a \r \r\n", "a\n", "1cr 1blank");
    becomes("a\r \n", "a\n", "1cr 1blank");
    becomes("a\r\r\r\nb\n", "a\nb\n", "1cr");
    becomes("a\nb\nc \n", "a\nb\nc\n", "3blank");
    // Lines of nothing else, also the one behind the last line feed.
    becomes("a\n \r \nb\n", "a\n\nb\n", "2cr 2blank");
    becomes("a\n  ", "a\n", "2blank");
    becomes("a\n\r", "a\n", "2cr");
    becomes(" \n", "\n", "1blank");
    becomes("\r\n\r\n", "\n\n", "1cr 2cr");
}

#[test]
fn elsewhere_they_stay() {
    stays("a b\n");
    stays(" a\n");
    stays("\ra\n");
    stays("a\rb\n");
    stays("a \r b\n");
    becomes("a \r b \r\n", "a \r b\n", "1cr 1blank");
    // Other white space is not a blank, and stops what goes before it.
    stays("a\t\n");
    stays("a \t\n");
    stays("a\r\0\n");
    stays("a \u{b}\n");
}

#[test]
fn leading_zeros_go_and_one_digit_stays() {
    becomes("00\n", "0\n", "1zero");
    becomes("0,00,10\n", "0,0,10\n", "1zero");
    becomes("st007\n", "st7\n", "1zero");
    becomes("007\n", "7\n", "1zero");
    becomes("a00b0c01d\n", "a0b0c1d\n", "1zero");
    becomes("000000000000000000000000000000\n", "0\n", "1zero");
    becomes("0123456789\n", "123456789\n", "1zero");
    becomes("0100\n", "100\n", "1zero");
    stays("0\n");
    stays("100\n");
    stays("1001\n");
    stays("10,20,0\n");
    stays("0a0\n");
    // The neighbours of the digits in the alphabet are none.
    stays("0/0:0\n");
}

#[test]
fn a_run_of_digits_ends_with_its_line() {
    stays("0\n0\n");
    becomes("10\n01\n", "10\n1\n", "2zero");
    becomes("0 \n1\n", "0\n1\n", "1blank");
    // Blanks inside a line end it too.
    stays("0 1\n");
    becomes("00 01\n", "0 1\n", "1zero");
    stays("0\r1\n");
}

#[test]
fn the_last_line_feed_is_added_if_something_is_left() {
    becomes("a", "a\n", "1lf");
    becomes("a\nb", "a\nb\n", "2lf");
    becomes("\n\na", "\n\na\n", "3lf");
    becomes("0", "0\n", "1lf");
    becomes("00", "0\n", "1zero 1lf");
    becomes("a \r", "a\n", "1cr 1blank 1lf");
    stays("a\n");
    stays("a\n\n\n");
    stays("\n");
    stays("");
    becomes(" ", "", "1blank");
    becomes("   ", "", "1blank");
    becomes("\r", "", "1cr");
    becomes(" \r \r", "", "1cr 1blank");
    becomes("a\n\n ", "a\n\n", "3blank");
}

#[test]
fn changes_are_told_line_by_line_and_in_one_order() {
    becomes("b01 \r\na\n00\r", "b1\na\n0\n", "1cr 1blank 1zero 3cr 3zero 3lf");
    // Once for each kind and line.
    becomes("01,02,03  \r\r\n", "1,2,3\n", "1cr 1blank 1zero");
    let lines = "0 \n".repeat(12);
    let expected: Vec<String> = (1..=12).map(|line| format!("{line}blank")).collect();
    becomes(&lines, &"0\n".repeat(12), &expected.join(" "));
    assert!([Change::Cr, Change::Blank, Change::Zero, Change::Lf].is_sorted());
}

/// Mends into a buffer of that length: the number, 0 for none, and what is in the buffer.
fn lent(text: &[u8], length: usize) -> (u8, Vec<u8>) {
    let mut lent = vec![FILL; length];
    let number = mend(text, &mut lent).map_or_else(|number| number, |_| 0);
    (number, lent)
}

#[test]
fn the_mended_text_stands_at_the_front_and_0_behind() {
    assert_eq!(lent(b"a \r\n007", 7), (0, b"a\n7\n\0\0\0".to_vec()));
    assert_eq!(lent(b"a \r\n007", 4), (0, b"a\n7\n".to_vec()));
    assert_eq!(lent(b"a \r\n007", 3), (9, vec![FILL; 3]));
    assert_eq!(lent(b"a", 1), (9, vec![FILL; 1]));
    assert_eq!(lent(b"a", 0), (9, vec![]));
    assert_eq!(lent(b"", 0), (0, vec![]));
    assert_eq!(lent(b" \r", 0), (0, vec![]));
    assert_eq!(lent(b" \r", 3), (0, vec![0; 3]));
}

#[test]
fn a_text_over_the_limit_is_refused_first() {
    assert_eq!(MAX_FORUM, 2048);
    // 12 also where the mended text would have room, and before 9.
    assert_eq!(lent(&[b' '; 2049], 4096), (12, vec![FILL; 4096]));
    assert_eq!(lent(&[b'x'; 2049], 0), (12, vec![]));
    assert_eq!(lent(&[b'0'; 5000], 1), (12, vec![FILL]));
    assert_eq!(lent(&[b' '; 2048], 0), (0, vec![]));
    assert_eq!(lent(&[b'0'; 2048], 2), (0, b"0\n".to_vec()));
    // The longest mended text has one byte more than the longest text.
    assert_eq!(lent(&[b'x'; 2048], 2048), (9, vec![FILL; 2048]));
    assert_eq!(lent(&[b'x'; 2048], 2049), (0, [vec![b'x'; 2048], b"\n".to_vec()].concat()));
    assert_eq!(lent(&[b'\n'; 2048], 2048), (0, vec![b'\n'; 2048]));
    assert_eq!(lent(&[b'\n'; 2048], 2047), (9, vec![FILL; 2047]));
}

#[test]
fn the_output_is_the_text_and_a_pair_of_lines_for_each_change() {
    let printed = |text: &[u8], alone| {
        let printed = print_mending(&mend(text, &mut [0; 2049]), alone);
        String::from_utf8(printed).expect("plain text")
    };
    let changes = "kind=cr\nline=1\nkind=blank\nline=1\nkind=zero\nline=2\nkind=lf\nline=2\n";
    assert_eq!(printed(b"a \r\n007", false), format!("a\n7\n{changes}"));
    assert_eq!(printed(b"a \r\n007", true), "a\n7\n");
    assert_eq!(printed(b"a\n", false), "a\n");
    assert_eq!(printed(b" ", false), "kind=blank\nline=1\n");
    assert_eq!(printed(b"", false), "");
    for alone in [false, true] {
        assert_eq!(printed(&[b'x'; 2049], alone), "answer=refused\nnumber=12\nline=0\n");
    }
}

#[test]
fn a_response_is_the_output_and_the_lent_buffer() {
    let replied = |text: &[u8], lent: u16, codes: &[u8]| {
        reply(&Request { kind: Kind::Mend, lent, text: text.to_vec(), codes: codes.to_vec() })
    };
    assert_eq!(replied(b"07", 3, b""), b"7\nkind=zero\nline=1\nkind=lf\nline=1\n7\n\0");
    assert_eq!(replied(b"07", 3, b"\xff"), b"7\n7\n\0");
    for codes in [&b""[..], b"\0"] {
        assert_eq!(replied(b"07", 1, codes), b"answer=refused\nnumber=9\nline=0\n\xaa");
    }
    // The longest response there is room for has a length of two bytes.
    assert!(replied(&b"\r \n".repeat(682), 4096, b"").len() < 65_536);
}
