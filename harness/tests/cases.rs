//! The bench cases of document 01, 1 to 14, of which request 2 changed the 13th, the two that are only run, and its example text.

mod common;
use common::{program, question, text};
use harness::ask::{ask, Answer};
use harness::follow::{follow, Followed, NotFollowed};
use harness::print::{print, BENCH_LENDS};

/// Asks for all memories: the total and the memories.
fn all(threads: &[&str], locs: usize, budget: u64) -> (u64, Vec<Vec<u8>>) {
    let mut lent = vec![7; BENCH_LENDS];
    match ask(&question(threads, locs, budget, "all"), &mut lent) {
        Answer::All { runs, memories } => {
            let used = memories * locs;
            assert!(lent[used..].iter().all(|&byte| byte == 0));
            (runs, lent[..used].chunks(locs).map(<[u8]>::to_vec).collect())
        }
        other => panic!("{other:?}"),
    }
}

/// Asks for one memory: the answer, and the run that stands in the buffer.
fn one(threads: &[&str], locs: usize, budget: u64, want: &str) -> (Answer, Vec<u8>) {
    let mut lent = vec![7; BENCH_LENDS];
    let answer = ask(&question(threads, locs, budget, want), &mut lent);
    let length = match answer {
        Answer::Reached { length, .. } => length,
        _ => 0,
    };
    assert!(lent[length..].iter().all(|&byte| byte == 0));
    (answer, lent[..length].to_vec())
}

fn followed(threads: &[&str], locs: usize, codes: &[u8]) -> Followed {
    follow(&program(threads, locs), codes).expect("an allowed list")
}

fn refused_at(threads: &[&str], locs: usize, codes: &[u8]) -> usize {
    match follow(&program(threads, locs), codes) {
        Err(NotFollowed::NotAllowed { index }) => index,
        other => panic!("{other:?}"),
    }
}

const OVER_BY: fn(u64) -> (Answer, Vec<u8>) = |budget| (Answer::Over { budget }, vec![]);
const TARE_AND_FLAG: &[&str] = &["st,0,42 st,1,1"];
const FLUSHED: &[&str] = &["st,0,42 fl,0 st,1,1"];

#[test]
fn case_1_no_instructions() {
    assert_eq!(all(&[""], 1, 50), (1, vec![vec![0]]));
}

#[test]
fn case_2_one_store() {
    assert_eq!(all(&["st,0,5"], 1, 50), (4, vec![vec![0], vec![5]]));
}

#[test]
fn case_3_one_store_with_budget_3() {
    assert_eq!(one(&["st,0,5"], 1, 3, "all"), OVER_BY(3));
}

#[test]
fn case_4_two_stores() {
    let memories = vec![vec![0, 0], vec![0, 1], vec![42, 0], vec![42, 1]];
    assert_eq!(all(TARE_AND_FLAG, 2, 50), (26, memories));
}

#[test]
fn case_5_the_flag_alone() {
    let reached = Answer::Reached { place: 8, length: 5 };
    let run = vec![0, 0, 16, 16, 65];
    assert_eq!(one(TARE_AND_FLAG, 2, 8, "0,1"), (reached, run));
    assert_eq!(one(TARE_AND_FLAG, 2, 7, "0,1"), OVER_BY(7));
}

#[test]
fn case_6_never_and_over() {
    let never = (Answer::Never { runs: 50 }, vec![]);
    assert_eq!(one(FLUSHED, 2, 50, "0,1"), never);
    assert_eq!(one(FLUSHED, 2, 49, "0,1"), OVER_BY(49));
}

#[test]
fn case_7_two_stores_to_one_location() {
    let memories = vec![vec![0], vec![1], vec![2]];
    assert_eq!(all(&["st,0,1 st,0,2"], 1, 50), (22, memories));
}

#[test]
fn case_8_store_buffering() {
    let after = followed(&["st,0,1 ld,0,1", "st,1,1 ld,0,0"], 2, &[0, 0, 1, 1]);
    assert_eq!(after.registers, [[0; 4]; 4]);
    assert_eq!(after.places, [2, 2, 0, 0]);
}

#[test]
fn case_9_a_fence_needs_an_empty_buffer() {
    assert_eq!(refused_at(&["st,0,1 mf"], 1, &[0, 0]), 1);
}

#[test]
fn case_10_an_fo_does_not_wait() {
    let codes = [0, 0, 0, 16, 16, 16, 65];
    let after = followed(&["st,0,1 fo,0 st,1,1"], 2, &codes);
    assert_eq!(after.memory, [0, 1, 0, 0, 0, 0]);
}

#[test]
fn case_11_an_fo_overtakes() {
    followed(&["st,0,1 fo,1"], 2, &[0, 0, 17]);
}

#[test]
fn case_12_an_fo_overtakes_no_store_to_its_location() {
    assert_eq!(refused_at(&["st,0,1 fo,0"], 1, &[0, 0, 17]), 2);
}

#[test]
fn case_13_a_cas_that_loses_waits_as_well() {
    let codes = [0, 0, 0, 0, 16, 16, 16, 65];
    let threads = ["st,0,1 fo,0 cas,0,1,5,9 st,1,1"];
    assert_eq!(refused_at(&threads, 2, &codes), 2);
    // So the memory that document 01's list left is left by no run.
    let (answer, _) = one(&threads, 2, 1_000, "0,1");
    assert!(matches!(answer, Answer::Never { .. }), "{answer:?}");
}

#[test]
fn case_14_a_sum_wraps() {
    let after = followed(&["st,0,255 faa,0,0,1"], 1, &[0, 16, 0, 64, 64]);
    assert_eq!(after.memory[0], 0);
    assert_eq!(after.registers[0][0], 255);
}

#[test]
fn run_only_an_sf_behind_the_fo() {
    let (answer, _) = one(&["st,0,1 fo,0 sf st,1,1"], 2, 1_000_000, "0,1");
    assert!(matches!(answer, Answer::Never { .. }), "{answer:?}");
}

#[test]
fn run_only_a_flag_set_by_another_thread() {
    let threads = ["st,0,42", "ld,0,0 bz,0,2 fl,0 st,1,1"];
    let (answer, _) = one(&threads, 2, 1_000_000, "0,1");
    assert!(matches!(answer, Answer::Never { .. }), "{answer:?}");
}

#[test]
fn the_example_text_is_printed_whole() {
    let whole = "answer=all\nruns=50\nmemories=3\nmemory=0,0\nmemory=42,0\nmemory=42,1\n";
    let text = text(FLUSHED, 2, 50, "all");
    assert_eq!(print(text.as_bytes(), BENCH_LENDS), whole);
}

#[test]
fn every_answer_is_printed() {
    let printed = |threads, budget, want| {
        let text = text(threads, 2, budget, want);
        print(text.as_bytes(), BENCH_LENDS)
    };
    let reached = "answer=reached\nplace=8\nrun=0,0,16,16,65\n";
    assert_eq!(printed(TARE_AND_FLAG, 8, "0,1"), reached);
    let empty_run = "answer=reached\nplace=1\nrun=\n";
    assert_eq!(printed(TARE_AND_FLAG, 1, "0,0"), empty_run);
    assert_eq!(printed(FLUSHED, 50, "0,1"), "answer=never\nruns=50\n");
    assert_eq!(printed(FLUSHED, 49, "0,1"), "answer=over\nbudget=49\n");
    let refused = "answer=refused\nnumber=3\nline=6\n";
    assert_eq!(printed(&["st,2,1"], 49, "0,1"), refused);
}
