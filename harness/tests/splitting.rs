//! Following, split in two: the index of the first code not allowed, and the state after the longest allowed beginning. Each is held beside
//! the other and beside both at once, on every list of the comparison; and the lists are of every sort.

mod common;
use common::program;
use harness::ask::{ask, Answer};
use harness::compare::PART;
use harness::follow::{follow, legality, longest, Beginning, NotFollowed};
use harness::generate::{request, Family};
use harness::machine::LAST_CODE;
use harness::print::BENCH_LENDS;
use harness::program::{Op, Program, Want};
use harness::protocol::{Kind, Request};
use harness::text::read;
use std::collections::BTreeMap;

/// No run is longer: three steps for each of 32 instructions.
const LONGEST_RUN: usize = 96;

/// The lists of the comparison whose text is read, each with its number and its program.
fn lists() -> impl Iterator<Item = (u64, Program, Vec<u8>)> {
    (0..Family::Legality.count()).filter_map(|number| {
        let Request { text, codes, .. } = request(Family::Legality, Family::Legality.seed(number));
        Some((number, read(&text).ok()?.program, codes))
    })
}

#[test]
fn the_two_are_what_follow_was_built_of() {
    for (number, program, codes) in lists() {
        let index = legality(&program, &codes).expect("no refusal");
        let Beginning { length, after } = longest(&program, &codes).expect("no refusal");
        let combined = match index {
            None => Ok(after),
            Some(index) => Err(NotFollowed::NotAllowed { index }),
        };
        assert_eq!(combined, follow(&program, &codes), "list {number}");
        assert_eq!(length, index.unwrap_or(codes.len()), "list {number}");
    }
}

#[test]
fn the_beginning_is_allowed_and_none_longer_is() {
    for (number, program, codes) in lists() {
        let Beginning { length, after } = longest(&program, &codes).expect("no refusal");
        assert_eq!(follow(&program, &codes[..length]), Ok(after), "list {number}");
        assert_eq!(legality(&program, &codes[..length]), Ok(None), "list {number}");
        if length < codes.len() {
            let one_more = &codes[..=length];
            assert_eq!(legality(&program, one_more), Ok(Some(length)), "list {number}");
            assert_eq!(longest(&program, one_more), Ok(Beginning { length, after }), "list {number}");
        }
    }
}

#[test]
fn a_shorter_beginning_is_no_other() {
    for (number, program, codes) in lists().step_by(40) {
        let index = legality(&program, &codes).expect("no refusal");
        for end in 0..=codes.len().min(LONGEST_RUN + 1) {
            let told = index.filter(|&index| index < end);
            assert_eq!(legality(&program, &codes[..end]), Ok(told), "list {number}, its first {end}");
        }
    }
}

#[test]
fn a_run_that_is_asked_for_is_legal_and_leaves_its_memory() {
    let mut reached = 0;
    for number in 0..2_000 {
        let asked = request(Family::Questions, Family::Questions.seed(number));
        let question = read(&asked.text).expect("a legal text");
        let mut lent = [0; BENCH_LENDS];
        let (Answer::Reached { length, .. }, Want::One(memory)) = (ask(&question, &mut lent), &question.want) else {
            continue;
        };
        let run = &lent[..length];
        assert_eq!(legality(&question.program, run), Ok(None), "question {number}");
        let whole = longest(&question.program, run).expect("no refusal");
        assert_eq!((whole.length, &whole.after.memory[..memory.len()]), (length, &memory[..]), "question {number}");
        reached += 1;
    }
    assert!(reached > 500, "{reached}");
}

#[test]
fn the_three_kinds_have_the_same_lists() {
    for number in 0..500 {
        let of = |family: Family| request(family, family.seed(number));
        let (followed, legality, state) = (of(Family::Codes), of(Family::Legality), of(Family::States));
        assert_eq!((followed.kind, legality.kind, state.kind), (Kind::Follow, Kind::Legality, Kind::State));
        for other in [legality, state] {
            assert_eq!((&followed.text, &followed.codes), (&other.text, &other.codes));
        }
    }
}

#[test]
fn lists_of_every_sort_come_up() {
    assert!(Family::Legality.count() >= 20_000 && Family::States.count() >= 20_000);
    // How often a list is refused at an index: among all, and in the part.
    let mut refused_at: BTreeMap<usize, (u64, u64)> = BTreeMap::new();
    let mut seen: BTreeMap<&str, u64> = BTreeMap::new();
    for (number, program, codes) in lists() {
        let in_part = u64::from(number % PART == 0);
        let index = legality(&program, &codes).expect("no refusal");
        let mut see = |what, so| *seen.entry(what).or_default() += u64::from(so) * in_part;
        if let Some(index) = index {
            let (all, part) = refused_at.entry(index).or_default();
            (*all, *part) = (*all + 1, *part + in_part);
            see("4 to 15, of no sort", (4..=15).contains(&codes[index]));
            see("48 to 63, of no sort", (48..=63).contains(&codes[index]));
            see("over 69, of no sort", codes[index] > LAST_CODE);
            see("0 to 3, not allowed", codes[index] < 4);
            see("16 to 47, not allowed", (16..48).contains(&codes[index]));
            see("64 to 69, not allowed", (64..=LAST_CODE).contains(&codes[index]));
            see("more behind it", index + 1 < codes.len());
        }
        see("allowed", index.is_none() && !codes.is_empty());
        see("allowed, over 40 codes", index.is_none() && codes.len() > 40);
        see("the longest run", index.is_none() && codes.len() == LONGEST_RUN);
        see("empty", codes.is_empty());
        see("longer than any run", codes.len() > LONGEST_RUN);
        see("of thousands", codes.len() > 2000);
    }
    for index in 0..=LONGEST_RUN {
        let (all, part) = refused_at.get(&index).copied().unwrap_or_default();
        let enough = if index <= 40 { all >= 20 && part >= 1 } else { all >= 1 };
        assert!(enough, "index {index}: {all} of all lists, {part} of the part");
    }
    let rare: Vec<_> = seen.iter().filter(|(_, count)| **count < 3).collect();
    assert!(rare.is_empty(), "{rare:?}");
}

#[test]
fn on_lists_worked_out_by_others() {
    // Cases 9 to 13 of document 01, the last as request 2 has it.
    for (threads, locs, codes, index) in [
        ("st,0,1 mf", 1, &[0, 0][..], Some(1)),
        ("st,0,1 fo,0 st,1,1", 2, &[0, 0, 0, 16, 16, 16, 65], None),
        ("st,0,1 fo,1", 2, &[0, 0, 17], None),
        ("st,0,1 fo,0", 1, &[0, 0, 17], Some(2)),
        ("st,0,1 fo,0 cas,0,1,5,9 st,1,1", 2, &[0, 0, 0, 0, 16, 16, 16, 65], Some(2)),
    ] {
        let program = program(&[threads], locs);
        assert_eq!(legality(&program, codes), Ok(index));
        assert_eq!(longest(&program, codes).map(|beginning| beginning.length), Ok(index.unwrap_or(codes.len())));
    }
    // Two codes of case 13's list are done, the third is not.
    let program = program(&["st,0,1 fo,0 cas,0,1,5,9 st,1,1"], 2);
    let after = longest(&program, &[0, 0, 0, 0, 16, 16, 16, 65]).expect("no refusal").after;
    assert_eq!((after.memory, after.places), ([0; 6], [2, 0, 0, 0]));
}

#[test]
fn a_program_that_breaks_a_limit_is_refused_before_any_code() {
    let past = Program { locs: 1, threads: vec![vec![Op::SkipIfZero { reg: 0, count: 1 }]] };
    for codes in [&[][..], &[0], &[255]] {
        assert_eq!(legality(&past, codes), Err(6));
        assert_eq!(longest(&past, codes), Err(6));
    }
}
