//! What store buffers and persist queues hold at most, in every state along random runs and along the runs that fill them.

mod common;
use common::program;
use harness::generate::{allowed_walk_from, any_program, full_program, small_program};
use harness::machine::{step, State};
use harness::program::Program;
use harness::random::Random;

/// The room that document 01 gives a store buffer and a persist queue.
const BUFFER_ROOM: usize = 8;
const QUEUE_ROOM: usize = 32;

/// The states looked at, and the most entries that one of them held.
#[derive(Default)]
struct Most {
    states: u64,
    in_a_buffer: usize,
    in_a_queue: usize,
    in_all_queues: usize,
}

impl Most {
    fn look_at(&mut self, state: &State) {
        let buffers = || state.threads.iter().map(|thread| thread.buffer.len());
        let queues = || state.queues.iter().map(|queue| queue.len());
        let (buffered, queued) = (buffers().sum::<usize>(), queues().sum::<usize>());
        assert!(buffers().all(|length| length <= BUFFER_ROOM), "{state:?}");
        assert!(queues().all(|length| length <= QUEUE_ROOM), "{state:?}");
        // All queues together hold no more than one has room for.
        assert!(queued <= QUEUE_ROOM, "{state:?}");
        // The reason: an instruction brings one entry or none, and at most 8 of a thread are done.
        let done: usize = state.threads.iter().map(|thread| thread.place).sum();
        assert!(state.threads.iter().all(|thread| thread.buffer.len() <= thread.place), "{state:?}");
        assert!(buffered + queued <= done, "{state:?}");
        self.states += 1;
        self.in_a_buffer = buffers().fold(self.in_a_buffer, usize::max);
        self.in_a_queue = queues().fold(self.in_a_queue, usize::max);
        self.in_all_queues = self.in_all_queues.max(queued);
    }

    /// Looks at every state along an allowed run, the first and the last included.
    fn look_along(&mut self, program: &Program, start: State, run: &[u8]) {
        let mut state = start;
        self.look_at(&state);
        for &code in run {
            state = step(program, &state, code).expect("an allowed code");
            self.look_at(&state);
        }
    }

    fn held(&self) -> (usize, usize, usize) {
        (self.in_a_buffer, self.in_a_queue, self.in_all_queues)
    }
}

#[test]
fn no_run_holds_more_than_there_is_room_for() {
    let random = &mut Random::new(832);
    let mut most = Most::default();
    for number in 0..6_000 {
        let program = match number % 3 {
            0 => small_program(random),
            1 => any_program(random),
            _ => full_program(random),
        };
        let zeros = State::start(&program);
        let mut other = zeros.clone();
        other.memory.fill_with(|| if random.once_in(2) { random.byte() } else { random.below(3) as u8 });
        for start in [zeros, other] {
            let (run_to_its_end, _) = allowed_walk_from(random, &program, start.clone(), usize::MAX);
            most.look_along(&program, start, &run_to_its_end);
        }
    }
    println!("{} states looked at", most.states);
    assert_eq!(most.held(), (BUFFER_ROOM, QUEUE_ROOM, QUEUE_ROOM));
}

#[test]
fn eight_stores_fill_a_buffer_and_thirty_two_a_queue() {
    let stores = "st,0,1 st,0,2 st,0,3 st,0,4 st,0,5 st,0,6 st,0,7 st,0,8";
    let program = program(&[stores; 4], 1);
    let mut most = Most::default();
    most.look_along(&program, State::start(&program), &[0; 8]);
    assert_eq!(most.held(), (BUFFER_ROOM, 0, 0));
    // One thread after the other does its stores, and all of them leave its buffer.
    let run: Vec<u8> = (0..4).flat_map(|t| [[t; 8], [16 + 8 * t; 8]].concat()).collect();
    most.look_along(&program, State::start(&program), &run);
    assert_eq!(most.held(), (BUFFER_ROOM, QUEUE_ROOM, QUEUE_ROOM));
}
