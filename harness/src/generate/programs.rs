//! Random programs that keep all limits.

use crate::program::{Op, Program, MAX_LOCS, MAX_OPS, MAX_SKIP, MAX_THREADS};
use crate::random::Random;

/// A program that is mostly small enough to be walked to its end.
pub fn small_program(random: &mut Random) -> Program {
    let threads = *random.pick(&[1, 1, 1, 2, 2, 2, 3, 4]);
    let most = match threads {
        1 => random.within(0, 5),
        2 => random.within(1, 4),
        _ => random.within(2, 4),
    };
    with_sizes(random, threads, most)
}

/// A program of any size within the limits.
pub fn any_program(random: &mut Random) -> Program {
    let threads = random.within(1, MAX_THREADS);
    let most = random.within(0, threads * MAX_OPS);
    with_sizes(random, threads, most)
}

/// A program that fills its store buffers: all of them and one queue to the brim, or with room to overtake.
pub fn full_program(random: &mut Random) -> Program {
    let (locs, threads, taste) = if random.once_in(2) {
        (1, MAX_THREADS, BRIMMING)
    } else {
        (random.within(4, MAX_LOCS), random.within(1, MAX_THREADS), FILLING)
    };
    let threads = (0..threads).map(|_| thread_of(random, MAX_OPS, locs, taste)).collect();
    Program { locs, threads }
}

/// The taste of threads whose instructions all join the buffer.
const FILLING: usize = 4;
/// The taste of threads whose instructions all reach a queue.
const BRIMMING: usize = 5;

/// Deals `ops` instructions to the threads, as far as they have room.
fn with_sizes(random: &mut Random, threads: usize, ops: usize) -> Program {
    let locs = if random.once_in(8) { random.within(1, MAX_LOCS) } else { random.within(1, 3) };
    let mut sizes = vec![0; threads];
    for _ in 0..ops {
        let thread = random.below(threads);
        if sizes[thread] < MAX_OPS {
            sizes[thread] += 1;
        }
    }
    let taste = random.below(4);
    let threads = sizes.iter().map(|&size| thread_of(random, size, locs, taste)).collect();
    Program { locs, threads }
}

fn thread_of(random: &mut Random, size: usize, locs: usize, taste: usize) -> Vec<Op> {
    (0..size)
        .map(|at| {
            let behind = size - 1 - at;
            random_op(random, locs, behind, taste)
        })
        .collect()
}

/// Small values meet each other; large ones try the limits.
fn value(random: &mut Random) -> u8 {
    match random.below(8) {
        0 => random.byte(),
        1 => *random.pick(&[0, 9, 10, 99, 100, 254, 255]),
        _ => random.below(3) as u8,
    }
}

/// One instruction with `behind` others behind it; the taste says which sorts come more often.
pub fn random_op(random: &mut Random, locs: usize, behind: usize, taste: usize) -> Op {
    let loc = random.below(locs) as u8;
    let reg = if random.once_in(3) { random.below(4) as u8 } else { 0 };
    let sort = match taste {
        0 => random.below(10),
        1 => *random.pick(&[0, 0, 0, 6, 7, 7, 8, 8, 8, 5]),
        2 => *random.pick(&[0, 0, 1, 2, 2, 9, 9, 3, 4]),
        BRIMMING => *random.pick(&[0, 0, 1, 8]),
        FILLING => *random.pick(&[0, 0, 0, 0, 0, 0, 8, 8, 8, 8, 8, 1, 7]),
        _ => *random.pick(&[0, 0, 2, 3, 3, 4, 8, 8, 6, 5]),
    };
    match sort {
        0 => Op::Store { loc, value: value(random) },
        1 => Op::StoreRegister { loc, reg },
        2 => Op::Load { reg, loc },
        3 => Op::Cas { reg, loc, expected: value(random), new: value(random) },
        4 => Op::Faa { reg, loc, add: value(random) },
        5 => Op::FullFence,
        6 => Op::StoreFence,
        7 => Op::Flush { loc },
        8 => Op::FlushOpt { loc },
        _ if behind > 0 => {
            let furthest = behind.min(usize::from(MAX_SKIP));
            let count = if random.once_in(3) { furthest } else { random.within(1, furthest) };
            Op::SkipIfZero { reg, count: count as u8 }
        }
        _ => Op::Load { reg, loc },
    }
}
