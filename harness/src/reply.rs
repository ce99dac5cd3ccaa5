//! The response that a request must get, by the simulator.

use crate::follow::{follow, legality, longest, Beginning, Followed, NotFollowed};
use crate::mend::{mend, print_mending, Change};
use crate::print::print;
use crate::protocol::{Kind, Request};
use crate::text::{read, write, Refusal};
use std::collections::BTreeSet;

/// What a lent buffer holds before the writer or the mender is called.
pub const FILL: u8 = 0xAA;

pub fn reply(request: &Request) -> Vec<u8> {
    match request.kind {
        Kind::Query => print(&request.text, usize::from(request.lent)).into_bytes(),
        Kind::Write => reply_write(request),
        Kind::Follow => reply_follow(request),
        Kind::Legality => reply_legality(request),
        Kind::State => reply_state(request),
        Kind::Mend => reply_mend(request),
    }
}

fn refused_text(refusal: Refusal) -> Vec<u8> {
    let mut response = vec![b'T', refusal.number];
    response.extend((refusal.line as u16).to_le_bytes());
    response
}

fn reply_write(request: &Request) -> Vec<u8> {
    let question = match read(&request.text) {
        Ok(question) => question,
        Err(refusal) => return refused_text(refusal),
    };
    let mut lent = vec![FILL; usize::from(request.lent)];
    let mut response = match write(&question, &mut lent) {
        Ok(_) => vec![b'W'],
        Err(number) => vec![b'R', number],
    };
    response.extend(&lent);
    response
}

fn reply_follow(request: &Request) -> Vec<u8> {
    let question = match read(&request.text) {
        Ok(question) => question,
        Err(refusal) => return refused_text(refusal),
    };
    let (number, index) = match follow(&question.program, &request.codes) {
        Ok(followed) => return [&b"F"[..], &bytes_of(&followed)].concat(),
        Err(NotFollowed::BreaksLimit) => (6, 0),
        Err(NotFollowed::NotAllowed { index }) => (10, index),
    };
    refused_list(number, index)
}

fn reply_legality(request: &Request) -> Vec<u8> {
    let question = match read(&request.text) {
        Ok(question) => question,
        Err(refusal) => return refused_text(refusal),
    };
    match legality(&question.program, &request.codes) {
        Ok(None) => vec![b'L'],
        Ok(Some(index)) => with_number(b"B", index),
        Err(number) => refused_list(number, 0),
    }
}

fn reply_state(request: &Request) -> Vec<u8> {
    let question = match read(&request.text) {
        Ok(question) => question,
        Err(refusal) => return refused_text(refusal),
    };
    match longest(&question.program, &request.codes) {
        Ok(Beginning { length, after }) => [with_number(b"S", length), bytes_of(&after)].concat(),
        Err(number) => refused_list(number, 0),
    }
}

/// The memory, the registers by thread, the places.
fn bytes_of(followed: &Followed) -> Vec<u8> {
    [&followed.memory[..], followed.registers.as_flattened(), &followed.places].concat()
}

/// Bytes and behind them an index or a length, 4 bytes, lowest first.
fn with_number(bytes: &[u8], number: usize) -> Vec<u8> {
    [bytes, &(number as u32).to_le_bytes()].concat()
}

fn refused_list(number: u8, index: usize) -> Vec<u8> {
    with_number(&[b'R', number], index)
}

fn reply_mend(request: &Request) -> Vec<u8> {
    let mut lent = vec![FILL; usize::from(request.lent)];
    let mending = mend(&request.text, &mut lent);
    let mut response = print_mending(&mending, !request.codes.is_empty());
    response.extend(&lent);
    response
}

/// The sort of a mending: the kinds of its changes where they are printed, or the refusal.
fn sort_of_mending(request: &Request) -> String {
    match mend(&request.text, &mut vec![FILL; usize::from(request.lent)]) {
        Err(number) => format!("refused {number}"),
        Ok(_) if !request.codes.is_empty() => "text alone".to_string(),
        Ok(mended) if mended.changes.is_empty() => "unchanged".to_string(),
        Ok(mended) => {
            let kinds: BTreeSet<Change> = mended.changes.iter().map(|(_, change)| *change).collect();
            kinds.into_iter().map(Change::name).collect::<Vec<_>>().join(" ")
        }
    }
}

/// The sort of the simulator's response, for counting: "all", "never", "refused 2", "written" and so on.
pub fn sort_of(request: &Request, response: &[u8]) -> String {
    match (request.kind, response) {
        (Kind::Mend, _) => sort_of_mending(request),
        (Kind::Query, _) => {
            let text = String::from_utf8_lossy(response);
            let mut lines = text.lines();
            let answer = lines.next().unwrap_or("").replacen("answer=", "", 1);
            match lines.next() {
                Some(line) if answer == "refused" => line.replacen("number=", "refused ", 1),
                _ => answer,
            }
        }
        (_, [b'T', number, ..]) => format!("text refused {number}"),
        (_, [b'R', number, ..]) => format!("refused {number}"),
        (_, [b'W', ..]) => "written".to_string(),
        (_, [b'F', ..]) => "followed".to_string(),
        (_, [b'L']) => "legal".to_string(),
        (_, [b'B', ..]) => "not allowed".to_string(),
        (_, [b'S', length @ ..]) => {
            let whole = length.starts_with(&(request.codes.len() as u32).to_le_bytes());
            if whole { "of the whole list" } else { "of a beginning" }.to_string()
        }
        _ => "misshapen".to_string(),
    }
}
