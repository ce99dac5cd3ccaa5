//! Texts from the forum, mended from the last byte to the first: so a line's end is met before the line, and a run of digits is whole when its
//! front is reached.

use crate::print::refused;
use std::collections::BTreeSet;

/// A longer text is refused.
pub const MAX_FORUM: usize = 2048;
/// Room for every mended text: one line feed more.
pub const MEND_LENDS: usize = MAX_FORUM + 1;

const TOO_LONG: u8 = 12;
const NO_ROOM: u8 = 9;

/// What may change on a line, in the order in which it is told.
#[derive(Clone, Copy, Debug, PartialEq, Eq, PartialOrd, Ord)]
pub enum Change {
    Cr,
    Blank,
    Zero,
    Lf,
}

impl Change {
    pub fn name(self) -> &'static str {
        match self {
            Change::Cr => "cr",
            Change::Blank => "blank",
            Change::Zero => "zero",
            Change::Lf => "lf",
        }
    }
}

/// A mended text, and the lines, from 1, on which something changed.
#[derive(Clone, Debug, PartialEq, Eq)]
pub struct Mended {
    pub text: Vec<u8>,
    pub changes: BTreeSet<(usize, Change)>,
}

/// Mends a text of any length.
pub fn mended(text: &[u8]) -> Mended {
    // What stays, its last byte first.
    let mut kept: Vec<u8> = Vec::new();
    let mut changes = BTreeSet::new();
    let mut line = 1 + text.iter().filter(|&&byte| byte == b'\n').count();
    for &byte in text.iter().rev() {
        if !byte.is_ascii_digit() && cut_zeros(&mut kept) {
            changes.insert((line, Change::Zero));
        }
        // Nothing of this line stays behind the byte.
        let at_end = matches!(kept.last(), None | Some(b'\n'));
        match byte {
            b'\r' if at_end => {
                changes.insert((line, Change::Cr));
            }
            b' ' if at_end => {
                changes.insert((line, Change::Blank));
            }
            b'\n' => {
                kept.push(byte);
                line -= 1;
            }
            _ => {
                // The last byte of all that stay has a line feed behind it.
                if kept.is_empty() {
                    kept.push(b'\n');
                    changes.insert((line, Change::Lf));
                }
                kept.push(byte);
            }
        }
    }
    if cut_zeros(&mut kept) {
        changes.insert((line, Change::Zero));
    }
    kept.reverse();
    Mended { text: kept, changes }
}

/// Takes the zeros from the front of the run of digits that was kept last, as long as a digit of it stands behind: whether there was one.
fn cut_zeros(kept: &mut Vec<u8>) -> bool {
    let before = kept.len();
    while matches!(kept[..], [.., b'0'..=b'9', b'0']) {
        kept.pop();
    }
    kept.len() < before
}

/// Mends a text into the front of the lent buffer, 0 behind; or gives 12 or 9 and leaves the buffer unchanged.
pub fn mend(text: &[u8], lent: &mut [u8]) -> Result<Mended, u8> {
    if text.len() > MAX_FORUM {
        return Err(TOO_LONG);
    }
    let mended = mended(text);
    if mended.text.len() > lent.len() {
        return Err(NO_ROOM);
    }
    lent.fill(0);
    lent[..mended.text.len()].copy_from_slice(&mended.text);
    Ok(mended)
}

/// What the program `mend` prints: the mended text, and its changes unless it is wanted alone; or the refusal.
pub fn print_mending(mending: &Result<Mended, u8>, alone: bool) -> Vec<u8> {
    let mended = match mending {
        Ok(mended) => mended,
        Err(number) => return refused(*number, 0).into_bytes(),
    };
    let mut out = mended.text.clone();
    if !alone {
        for (line, change) in &mended.changes {
            out.extend(format!("kind={}\nline={line}\n", change.name()).bytes());
        }
    }
    out
}
