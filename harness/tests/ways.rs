//! Three ways to answer, held beside each other: the plain walk, the table of states and the walk written by hand.

mod common;
use common::{program, question};
use harness::ask::{ask, Answer};
use harness::fast::Table;
use harness::generate::{any_program, request, small_program, Family, MOST_RUNS};
use harness::hand::{memory_number, walk, Counts};
use harness::pack::packed;
use harness::program::{Program, Question, Want};
use harness::random::Random;
use harness::text::read;

const LONG: usize = 1 << 15;

fn by_hand(question: &Question) -> Box<Counts> {
    let mut counts = Box::new(Counts::new());
    let wanted = match &question.want {
        Want::All => None,
        Want::One(memory) => Some(memory_number(memory)),
    };
    walk(&packed(&question.program), question.budget, wanted, &mut counts);
    counts
}

/// The hand-written walk has to say what the plain one says.
fn hand_agrees(question: &Question) -> Answer {
    let mut lent = vec![0; LONG];
    let answer = ask(question, &mut lent);
    let counts = by_hand(question);
    match answer {
        Answer::All { runs, memories } => {
            assert!(!counts.over && !counts.full);
            assert_eq!((runs, memories), (counts.runs, counts.memory_count));
            let numbers: Vec<u64> = lent.chunks(question.program.locs).take(memories).map(memory_number).collect();
            assert_eq!(numbers, counts.memories[..memories]);
        }
        Answer::Reached { place, length } => {
            assert!(counts.reached);
            assert_eq!((place, length), (counts.runs, counts.run_length));
            assert_eq!(lent[..length], counts.run[..length]);
        }
        Answer::Never { runs } => assert!(!counts.reached && !counts.over && counts.runs == runs),
        Answer::Over { budget } => assert!(counts.over && !counts.reached && counts.runs == budget),
        Answer::Refused { number } => panic!("refused {number}"),
    }
    answer
}

/// The table has to give the same total, memories, first runs and places as a plain walk to the end.
fn table_agrees(program: &Program, answer: Answer) {
    let Answer::All { runs, memories } = answer else {
        return;
    };
    let mut table = Table::new(program);
    let (total, all) = table.all();
    assert_eq!((total, all.len()), (u128::from(runs), memories));
    for memory in all.iter().take(4) {
        let one = Question { program: program.clone(), budget: runs, want: Want::One(memory.clone()) };
        let mut lent = vec![0; LONG];
        let Answer::Reached { place, length } = ask(&one, &mut lent) else {
            panic!("a listed memory is not reached");
        };
        let first = Some((u128::from(place), lent[..length].to_vec()));
        assert_eq!(table.first(memory), first);
    }
    let any = vec![77; program.locs];
    assert_eq!(table.first(&any).is_some(), all.contains(&any));
}

#[test]
fn on_the_questions_of_the_comparison() {
    for index in 0..3000 {
        let asked = request(Family::Questions, Family::Questions.seed(index));
        let question = read(&asked.text).expect("a legal text");
        let answer = hand_agrees(&question);
        table_agrees(&question.program, answer);
    }
}

#[test]
fn on_small_programs_walked_to_their_end() {
    let random = &mut Random::new(2024);
    let mut ended = 0;
    for _ in 0..600 {
        let program = small_program(random);
        let question = Question { program, budget: 20_000, want: Want::All };
        let answer = hand_agrees(&question);
        table_agrees(&question.program, answer);
        ended += usize::from(matches!(answer, Answer::All { .. }));
    }
    assert!(ended > 300, "{ended}");
}

#[test]
fn on_large_programs_cut_short() {
    let random = &mut Random::new(7);
    for _ in 0..300 {
        let program = any_program(random);
        hand_agrees(&Question { program, budget: 4 * MOST_RUNS, want: Want::All });
    }
}

#[test]
fn on_totals_in_the_hundred_thousands() {
    let threads = ["st,0,42 fo,0 st,1,1", "ld,0,1 st,0,7 fl,0"];
    let question = question(&threads, 2, 1_000_000_000, "all");
    let counts = by_hand(&question);
    let (total, memories) = Table::new(&question.program).all();
    assert!(total > 100_000, "{total}");
    assert_eq!((total, memories.len()), (u128::from(counts.runs), counts.memory_count));
}

#[test]
fn a_table_counts_where_no_walk_ends() {
    let stores = "st,0,1 st,1,2 st,0,3 st,1,4";
    let program = program(&[stores, stores], 2);
    let mut table = Table::new(&program);
    let (total, memories) = table.all();
    assert!(total > 1_000_000_000);
    assert_eq!(memories.len(), 9);
}
