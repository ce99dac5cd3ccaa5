//! The easy slips of document 01, and the limits and refusals of asking and following.

mod common;
use common::{in_memory, program, question};
use harness::ask::{ask, Answer};
use harness::follow::{follow, Followed, NotFollowed};
use harness::machine::{step, NotAllowed, State};
use harness::program::{Op, Program, Want};

fn followed(threads: &[&str], locs: usize, codes: &[u8]) -> Followed {
    follow(&program(threads, locs), codes).expect("an allowed list")
}

fn refused_at(threads: &[&str], locs: usize, codes: &[u8]) -> usize {
    match follow(&program(threads, locs), codes) {
        Err(NotFollowed::NotAllowed { index }) => index,
        other => panic!("{other:?}"),
    }
}

#[test]
fn an_fo_only_queues_a_mark_and_the_fence_waits() {
    let threads = ["st,0,1 fo,0 sf st,1,1"];
    // The fo leaves at once; the sf behind it waits for write and mark to go.
    assert_eq!(refused_at(&threads, 2, &[0, 0, 0, 0, 16, 16, 16]), 6);
    assert_eq!(refused_at(&threads, 2, &[0, 0, 0, 0, 16, 16, 64, 16]), 7);
    followed(&threads, 2, &[0, 0, 0, 0, 16, 16, 64, 64, 16, 16, 65]);
}

#[test]
fn an_fo_overtakes_no_fl_of_its_location_and_no_sf() {
    assert_eq!(refused_at(&["fl,0 fo,0"], 1, &[0, 0, 17]), 2);
    assert_eq!(refused_at(&["sf fo,0"], 1, &[0, 0, 17]), 2);
    followed(&["fl,1 fo,0"], 2, &[0, 0, 17]);
    followed(&["fo,0 fo,0"], 1, &[0, 0, 17]);
    // Not only the entry just before it counts.
    assert_eq!(refused_at(&["st,0,1 st,1,1 fo,0"], 2, &[0, 0, 0, 18]), 3);
    followed(&["st,1,1 st,1,2 fo,0"], 2, &[0, 0, 0, 18]);
}

#[test]
fn nothing_but_an_fo_overtakes() {
    assert_eq!(refused_at(&["fo,0 st,1,1"], 2, &[0, 0, 17]), 2);
    assert_eq!(refused_at(&["fo,0 fl,1"], 2, &[0, 0, 17]), 2);
    assert_eq!(refused_at(&["fo,0 sf"], 2, &[0, 0, 17]), 2);
}

#[test]
fn a_load_takes_the_newest_write_wherever_it_is() {
    let threads = ["st,0,1 st,0,2", "ld,0,0 ld,1,0 ld,2,0"];
    // Nothing seen; then the first in the queue; then the second, while the first is in memory.
    let after = followed(&threads, 1, &[0, 0, 1, 16, 1, 64, 16, 1]);
    assert_eq!(after.registers[1], [0, 1, 2, 0]);
    assert_eq!(after.memory[0], 1);
    // One's own buffer comes first, and its newest store.
    let own = followed(&["st,0,1 st,0,2 ld,3,0"], 1, &[0, 0, 0]);
    assert_eq!(own.registers[0], [0, 0, 0, 2]);
    // A mark behind the write does not hide it.
    let marked = followed(&["st,0,9 fo,0", "ld,0,0"], 1, &[0, 0, 16, 16, 1]);
    assert_eq!(marked.registers[1][0], 9);
}

#[test]
fn a_fence_waits_for_its_own_marks_only() {
    let threads = ["st,0,1 fo,0", "mf"];
    followed(&threads, 1, &[0, 0, 16, 16, 1]);
    followed(&["fo,0", "sf"], 1, &[0, 16, 1, 24]);
    assert_eq!(refused_at(&["fo,0 mf"], 1, &[0, 16, 0]), 2);
    followed(&["fo,0 mf"], 1, &[0, 16, 64, 0]);
}

#[test]
fn locked_operations_need_what_a_fence_needs() {
    assert_eq!(refused_at(&["st,1,1 faa,0,0,1"], 2, &[0, 0]), 1);
    assert_eq!(refused_at(&["fo,1 faa,0,0,1"], 2, &[0, 16, 0]), 2);
    assert_eq!(refused_at(&["st,1,1 cas,0,0,0,7"], 2, &[0, 0]), 1);
    assert_eq!(refused_at(&["fo,1 cas,0,0,0,7"], 2, &[0, 16, 0]), 2);
    // Whether it stores or not: a cas that loses needs the same, and stores nothing.
    assert_eq!(refused_at(&["st,1,1 cas,0,0,5,7"], 2, &[0, 0]), 1);
    assert_eq!(refused_at(&["fo,1 cas,0,0,5,7"], 2, &[0, 16, 0]), 2);
    followed(&["fo,1 cas,0,0,5,7"], 2, &[0, 16, 65, 0]);
    followed(&["st,1,1 fo,1", "cas,0,0,5,7"], 2, &[0, 1]);
    followed(&["fo,1", "cas,0,0,5,7"], 2, &[0, 16, 1]);
    assert_eq!(refused_at(&["st,0,5 cas,0,0,5,7"], 1, &[0, 0]), 1);
    assert_eq!(refused_at(&["st,0,5 cas,0,0,0,7"], 1, &[0, 0]), 1);
    let lost = followed(&["st,0,5 cas,0,0,0,7"], 1, &[0, 16, 0, 64]);
    assert_eq!((lost.memory[0], lost.registers[0][0]), (5, 5));
    assert_eq!(refused_at(&["st,0,5 cas,0,0,0,7"], 1, &[0, 16, 0, 64, 64]), 4);
    let stored = followed(&["st,0,5 cas,0,0,5,7"], 1, &[0, 16, 0, 64, 64]);
    assert_eq!((stored.memory[0], stored.registers[0][0]), (7, 5));
}

#[test]
fn an_fl_needs_an_empty_queue_marks_included() {
    assert_eq!(refused_at(&["st,0,1 fl,0"], 1, &[0, 0, 16, 16]), 3);
    followed(&["st,0,1 fl,0"], 1, &[0, 0, 16, 64, 16]);
    assert_eq!(refused_at(&["fo,0", "fl,0"], 1, &[0, 16, 1, 24]), 3);
    followed(&["st,1,1 fl,0"], 2, &[0, 0, 16, 16]);
}

#[test]
fn a_skip_moves_by_one_or_by_one_and_k() {
    let skipped = followed(&["bz,0,2 st,0,1 st,0,2 st,0,3"], 1, &[0]);
    assert_eq!(skipped.places[0], 3);
    let stayed = followed(&["faa,1,0,1 ld,0,0 bz,0,1 st,0,9"], 1, &[0, 0, 0]);
    assert_eq!(stayed.places[0], 3);
    assert_eq!(followed(&["bz,0,1 mf"], 1, &[0]).places[0], 2);
}

#[test]
fn a_register_is_stored_as_it_was() {
    let threads = ["faa,0,0,7 ld,0,0 sr,1,0 ld,0,1"];
    let after = followed(&threads, 2, &[0, 0, 0, 0, 16, 65]);
    assert_eq!(after.memory[..2], [0, 7]);
}

#[test]
fn codes_of_no_sort_are_not_allowed() {
    let program = program(&["st,0,1"], 1);
    let start = State::start(&program);
    for code in 1..=255 {
        assert_eq!(step(&program, &start, code), Err(NotAllowed));
    }
    assert!(step(&program, &start, 0).is_ok());
    assert_eq!(refused_at(&["st,0,1"], 1, &[0, 0]), 1);
    assert_eq!(refused_at(&["st,0,1"], 1, &[0, 17]), 1);
    assert_eq!(refused_at(&["st,0,1"], 1, &[0, 24]), 1);
    assert_eq!(refused_at(&["st,0,1"], 1, &[0, 16, 65]), 2);
}

#[test]
fn a_total_equal_to_the_budget_is_not_over_it() {
    for (budget, over) in [(25, true), (26, false), (27, false)] {
        for want in ["all", "1,1"] {
            let mut lent = [9; 100];
            let answer = ask(&question(&["st,0,42 st,1,1"], 2, budget, want), &mut lent);
            assert_eq!(answer == Answer::Over { budget }, over);
            assert_eq!(lent.iter().all(|&byte| byte == 0), over || want != "all");
        }
    }
}

#[test]
fn refusal_9_clears_the_buffer_and_comes_behind_8() {
    let asked = |budget, want, length: usize| {
        let mut lent = vec![9; length];
        let answer = ask(&question(&["st,0,42 st,1,1"], 2, budget, want), &mut lent);
        (answer, lent)
    };
    let refused = Answer::Refused { number: 9 };
    assert_eq!(asked(26, "all", 7), (refused, vec![0; 7]));
    assert_eq!(asked(26, "all", 8).1, [0, 0, 0, 1, 42, 0, 42, 1]);
    assert_eq!(asked(8, "0,1", 4), (refused, vec![0; 4]));
    assert_eq!(asked(8, "0,1", 5).1, [0, 0, 16, 16, 65]);
    assert_eq!(asked(25, "all", 0).0, Answer::Over { budget: 25 });
    assert_eq!(asked(26, "9,9", 0).0, Answer::Never { runs: 26 });
    let empty = Answer::Reached { place: 1, length: 0 };
    assert_eq!(asked(1, "0,0", 0).0, empty);
}

#[test]
fn refusals_6_and_7_leave_the_buffer() {
    let fine = program(&["st,0,1"], 1);
    let with = |threads: Vec<Vec<Op>>, locs| Program { locs, threads };
    let skip = Op::SkipIfZero { reg: 0, count: 1 };
    let bad = [
        in_memory(fine.clone(), 0, Want::All),
        in_memory(fine.clone(), 1_000_000_001, Want::All),
        in_memory(with(vec![], 1), 5, Want::All),
        in_memory(with(vec![vec![]; 5], 1), 5, Want::All),
        in_memory(with(vec![vec![Op::FullFence; 9]], 1), 5, Want::All),
        in_memory(with(vec![vec![]], 0), 5, Want::All),
        in_memory(with(vec![vec![]], 7), 5, Want::One(vec![])),
        in_memory(with(vec![vec![Op::Flush { loc: 1 }]], 1), 5, Want::All),
        in_memory(with(vec![vec![skip]], 1), 5, Want::All),
        in_memory(with(vec![vec![Op::Load { reg: 4, loc: 0 }]], 1), 5, Want::All),
    ];
    for question in bad {
        let mut lent = [9; 10];
        assert_eq!(ask(&question, &mut lent), Answer::Refused { number: 6 });
        assert_eq!(lent, [9; 10]);
    }
    for length in [0, 2] {
        let mut lent = [9; 10];
        let question = in_memory(fine.clone(), 5, Want::One(vec![0; length]));
        assert_eq!(ask(&question, &mut lent), Answer::Refused { number: 7 });
        assert_eq!(lent, [9; 10]);
    }
    let past = with(vec![vec![skip]], 1);
    assert_eq!(follow(&past, &[]), Err(NotFollowed::BreaksLimit));
}

#[test]
fn the_longest_run_has_three_steps_for_each_instruction() {
    let program = program(&["st,0,1 st,0,2"; 4], 1);
    let mut codes = Vec::new();
    for t in 0..4 {
        codes.extend([t, t, 16 + 8 * t, 16 + 8 * t]);
    }
    codes.extend([64; 8]);
    assert_eq!(follow(&program, &codes).expect("allowed").memory[0], 2);
    codes.push(64);
    let end = Err(NotFollowed::NotAllowed { index: 24 });
    assert_eq!(follow(&program, &codes), end);
}
