//! The comparison: sends every request to the other side and holds its response beside the simulator's.

use crate::generate::{self, Family};
use crate::own::held;
use crate::protocol::{Kind, Request, Server};
use crate::reply::{reply, sort_of};
use crate::shrink::shrink;
use std::collections::BTreeMap;
use std::io::{self, Write};

/// With --part, one request of so many.
pub const PART: u64 = 12;
/// Requests sent to one process.
const BATCH: usize = 500;
/// Differences shown; the others are only counted.
const SHOWN: u64 = 5;

/// What was seen: for each family and sort of response, how often.
#[derive(Default)]
pub struct Tally {
    pub compared: u64,
    pub differ: u64,
    pub sorts: BTreeMap<(Family, String), u64>,
}

/// Compares all families, or a part of them, and says on `out` what was seen.
pub fn compare(server: &Server, part: bool, out: &mut impl Write) -> io::Result<Tally> {
    let mut tally = Tally::default();
    for family in Family::ALL {
        let seeds: Vec<u64> =
            (0..family.count()).filter(|index| !part || index % PART == 0).map(|index| family.seed(index)).collect();
        writeln!(out, "{}: {}", family.name(), seeds.len())?;
        out.flush()?;
        for batch in seeds.chunks(BATCH) {
            compare_batch(server, family, batch, &mut tally, out)?;
        }
        for ((_, sort), count) in tally.sorts.iter().filter(|((of, _), _)| *of == family) {
            writeln!(out, "  {sort}: {count}")?;
        }
    }
    writeln!(out, "{} compared, {} differ", tally.compared, tally.differ)?;
    Ok(tally)
}

fn compare_batch(
    server: &Server,
    family: Family,
    seeds: &[u64],
    tally: &mut Tally,
    out: &mut impl Write,
) -> io::Result<()> {
    let requests: Vec<Request> = seeds.iter().map(|&seed| generate::request(family, seed)).collect();
    let mut responses: Vec<Option<Vec<u8>>> = Vec::new();
    // A program that ends has given no response to one request; it is started again for those behind it.
    while responses.len() < requests.len() {
        let more = server.ask(&requests[responses.len()..])?;
        let ended = more.len() < requests.len() - responses.len();
        responses.extend(more.into_iter().map(Some));
        if ended {
            responses.push(None);
        }
    }
    for ((request, response), seed) in requests.iter().zip(&responses).zip(seeds) {
        let expected = reply(request);
        let sort = format!("{} {}", char::from(request.kind.letter()), sort_of(request, &expected));
        *tally.sorts.entry((family, sort)).or_default() += 1;
        tally.compared += 1;
        if request.kind == Kind::Mend {
            hold(family, *seed, request, tally, out)?;
        }
        if response.as_ref() != Some(&expected) {
            tally.differ += 1;
            if tally.differ <= SHOWN {
                let small = shrink(request, &mut |few| first_that_differs(server, few));
                writeln!(out, "DIFFERENCE, {}, seed {seed}, made small:", family.name())?;
                show(server, &small, out)?;
            }
        }
    }
    Ok(())
}

/// Holds the simulator to what mending must keep to by its own words. Where it does not, that counts as a difference.
fn hold(family: Family, seed: u64, request: &Request, tally: &mut Tally, out: &mut impl Write) -> io::Result<()> {
    let original = generate::original(family, seed);
    for (what, so) in held(&request.text, original.as_deref()) {
        if so {
            *tally.sorts.entry((family, format!("simulator: {what}"))).or_default() += 1;
        } else {
            tally.differ += 1;
            if tally.differ > SHOWN {
                continue;
            }
            writeln!(out, "THE SIMULATOR ITSELF, {}, seed {seed}, not so: {what}", family.name())?;
        }
    }
    Ok(())
}

/// The response to one request; nothing if the program ended instead.
fn one_response(server: &Server, request: &Request) -> Option<Vec<u8>> {
    server.ask(std::slice::from_ref(request)).ok()?.pop()
}

/// The index of the first request whose response differs or is missing.
fn first_that_differs(server: &Server, requests: &[Request]) -> Option<usize> {
    let responses = server.ask(requests).unwrap_or_default();
    (0..requests.len()).find(|&at| responses.get(at) != Some(&reply(&requests[at])))
}

/// Shows a request with both responses.
fn show(server: &Server, request: &Request, out: &mut impl Write) -> io::Result<()> {
    writeln!(out, "kind={} lent={}", char::from(request.kind.letter()), request.lent)?;
    for line in request.text.split_inclusive(|&byte| byte == b'\n') {
        writeln!(out, "  | {}", line.escape_ascii())?;
    }
    if !matches!(request.kind, Kind::Query | Kind::Write) {
        writeln!(out, "codes={}", crate::text::with_commas(&request.codes))?;
    }
    writeln!(out, "simulator: {}", shown(request, &reply(request)))?;
    match one_response(server, request) {
        Some(response) => writeln!(out, "other:     {}", shown(request, &response)),
        None => writeln!(out, "other:     ended without a response"),
    }
}

/// A response on one line: text as it is, bytes behind a letter or in a lent buffer as numbers.
fn shown(request: &Request, response: &[u8]) -> String {
    let numbers = |bytes: &[u8]| bytes.iter().map(u8::to_string).collect::<Vec<_>>().join(" ");
    match (request.kind, response.split_first()) {
        (Kind::Mend, _) => {
            let (printed, lent) = response.split_at(response.len().saturating_sub(usize::from(request.lent)));
            format!("{} | lent: {}", printed.escape_ascii(), numbers(lent))
        }
        (Kind::Write | Kind::Follow | Kind::Legality | Kind::State, Some((letter, bytes))) => {
            format!("{} {}", letter.escape_ascii(), numbers(bytes))
        }
        _ => response.escape_ascii().to_string(),
    }
}
