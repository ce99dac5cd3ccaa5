//! What mending must keep to by its own words, whoever mends: held against the simulator for each text from the forum.

use crate::mend::{mended, Change, Mended};
use crate::text::read;
use std::collections::BTreeSet;

/// Whether there is nothing to mend, said of neighbouring bytes: no carriage return or blank before a line feed or at the end, no 0 that leads
/// a run of digits, and a line feed at the end.
pub fn is_neat(text: &[u8]) -> bool {
    let digit = |at: Option<&u8>| at.is_some_and(u8::is_ascii_digit);
    let goes = |at: usize| match text[at] {
        b'\r' | b' ' => matches!(text.get(at + 1), None | Some(b'\n')),
        b'0' => digit(text.get(at + 1)) && !digit(at.checked_sub(1).and_then(|before| text.get(before))),
        _ => false,
    };
    matches!(text.last(), None | Some(b'\n')) && !(0..text.len()).any(goes)
}

/// What is held for one text, each with whether it is so; `original` is what must come of it, where that is known.
pub fn held(text: &[u8], original: Option<&[u8]>) -> Vec<(&'static str, bool)> {
    let once = mended(text);
    let again = mended(&once.text);
    let mut held = vec![
        ("mended again, unchanged", again.text == once.text && again.changes.is_empty() && is_neat(&once.text)),
        ("each change told by line and kind", tells_changes(text, &once)),
    ];
    if let Some(original) = original {
        held.push(("the damaged text given back", once.text == original));
    }
    if read(text).is_ok() {
        held.push(("accepted, so unchanged", once.text == text && is_neat(text)));
    }
    held
}

/// Whether a kind is told of a line exactly if the line has lost such a byte, or for lf, if there is a line more behind it.
fn tells_changes(text: &[u8], mended: &Mended) -> bool {
    let lines: Vec<&[u8]> = text.split(|&byte| byte == b'\n').collect();
    let left: Vec<&[u8]> = mended.text.split(|&byte| byte == b'\n').collect();
    let count = |line: &[u8], byte: u8| line.iter().filter(|&&other| other == byte).count();
    let mut changes = BTreeSet::new();
    for (at, (line, left)) in lines.iter().zip(&left).enumerate() {
        for (change, byte) in [(Change::Cr, b'\r'), (Change::Blank, b' '), (Change::Zero, b'0')] {
            if count(left, byte) < count(line, byte) {
                changes.insert((at + 1, change));
            }
        }
    }
    if left.len() == lines.len() + 1 {
        changes.insert((lines.len(), Change::Lf));
    }
    left.len() >= lines.len() && changes == mended.changes
}
