//! A stand-in for the proved side's test program: the simulator itself, with one slip if an argument names it.

use harness::mend::{mended, MAX_FORUM};
use harness::protocol::{put_response, Kind, Request};
use harness::reply::reply;
use std::io::{self, BufReader, BufWriter, Write};

fn main() -> io::Result<()> {
    let slip = std::env::args().nth(1).unwrap_or_default();
    let mut input = BufReader::new(io::stdin());
    let mut output = BufWriter::new(io::stdout());
    while let Some(request) = Request::take(&mut input)? {
        put_response(&mut output, &answer(&slip, &request))?;
        output.flush()?;
    }
    Ok(())
}

fn answer(slip: &str, request: &Request) -> Vec<u8> {
    let right = reply(request);
    let text = String::from_utf8_lossy(&request.text).into_owned();
    let with_text = |text: String| reply(&Request { text: text.into_bytes(), ..request.clone() });
    match slip {
        "" => right,
        // An fo treated as if it waited.
        "fo-waits" if request.kind == Kind::Query => with_text(text.replace("op=fo,", "op=fl,")),
        // A cas that loses treated as a load, which document 01 says and request 2 takes back.
        "lost-cas-loads" if request.kind == Kind::Query => with_text(lost_cas_loads(&text)),
        // A total equal to the budget taken for one over it.
        "equal-is-over" if request.kind == Kind::Query => {
            let printed = String::from_utf8_lossy(&right).into_owned();
            match text.lines().find_map(|line| line.strip_prefix("budget=")) {
                Some(budget) if printed.contains(&format!("runs={budget}\n")) => {
                    format!("answer=over\nbudget={budget}\n").into_bytes()
                }
                _ => right,
            }
        }
        "carriage-return-read" => with_text(text.replace('\r', "")),
        "writer-clears" if right.first() == Some(&b'R') && request.kind == Kind::Write => {
            right[..2].iter().copied().chain(right[2..].iter().map(|_| 0)).collect()
        }
        "index-from-one" if right.starts_with(&[b'R', 10]) => {
            let mut wrong = right;
            wrong[2] = wrong[2].wrapping_add(1);
            wrong
        }
        "legality-from-one" if request.kind == Kind::Legality && right.starts_with(b"B") => one_more(right),
        // Legal said of all but the last code.
        "last-code-unseen" if request.kind == Kind::Legality => {
            let seen = request.codes.len().saturating_sub(1);
            reply(&Request { codes: request.codes[..seen].to_vec(), ..request.clone() })
        }
        // A code of no sort passed over.
        "no-sort-passed" if request.kind == Kind::Legality => {
            let codes = request.codes.iter().copied().filter(|code| !(48..64).contains(code)).collect();
            reply(&Request { codes, ..request.clone() })
        }
        "length-with-the-bad-code" if request.kind == Kind::State && length_told(&right) < request.codes.len() => {
            one_more(right)
        }
        // No state but the first where a code is not allowed.
        "state-from-start" if request.kind == Kind::State && length_told(&right) < request.codes.len() => {
            let start = reply(&Request { codes: Vec::new(), ..request.clone() });
            [&right[..5], &start[5..]].concat()
        }
        // The length of the list for that of its beginning.
        "length-of-the-list" if request.kind == Kind::State && right.starts_with(b"S") => {
            [b"S", &(request.codes.len() as u32).to_le_bytes()[..], &right[5..]].concat()
        }
        // A line feed for a text of which nothing is left.
        "mender-feeds-nothing" if request.kind == Kind::Mend && mended(&request.text).text.is_empty() => {
            with_text("\n".to_string())
        }
        "mender-clears" if request.kind == Kind::Mend && right.starts_with(b"answer=refused") => {
            let printed = right.len() - usize::from(request.lent);
            right[..printed].iter().copied().chain(right[printed..].iter().map(|_| 0)).collect()
        }
        // The longest text taken for one over the limit.
        "mender-longest" if request.kind == Kind::Mend && request.text.len() == MAX_FORUM => with_text(text + "x"),
        "ends" if request.kind == Kind::Query && text.contains("op=faa") => std::process::exit(3),
        _ => right,
    }
}

/// The response with the index or length behind its letter one more.
fn one_more(mut response: Vec<u8>) -> Vec<u8> {
    response[1] = response[1].wrapping_add(1);
    response
}

/// The length that a response tells with a state.
fn length_told(response: &[u8]) -> usize {
    match *response {
        [b'S', a, b, c, d, ..] => u32::from_le_bytes([a, b, c, d]) as usize,
        _ => usize::MAX,
    }
}

/// The text with a load for each cas that asks for a value which nothing in it stores.
fn lost_cas_loads(text: &str) -> String {
    let stores = |line: &str, value: &str| match line.split(',').collect::<Vec<_>>()[..] {
        ["op=st", _, stored] | ["op=cas", _, _, _, stored] => stored == value,
        [op, ..] => op == "op=sr" || op == "op=faa",
        [] => false,
    };
    let changed = |line: &str| match line.split(',').collect::<Vec<_>>()[..] {
        ["op=cas", reg, loc, asked, _] if asked != "0" && !text.lines().any(|other| stores(other, asked)) => {
            format!("op=ld,{reg},{loc}")
        }
        _ => line.to_string(),
    };
    text.split('\n').map(changed).collect::<Vec<_>>().join("\n")
}
