//! A program in the packed form that the hand-written walk takes.

use crate::hand::{self, Packed};
use crate::program::{Op, Program};

pub fn packed(program: &Program) -> Packed {
    let mut packed = Packed { threads: program.threads.len(), locs: program.locs, lengths: [0; 4], ops: [[0; 8]; 4] };
    for (t, ops) in program.threads.iter().enumerate() {
        packed.lengths[t] = ops.len() as u8;
        for (at, op) in ops.iter().enumerate() {
            packed.ops[t][at] = packed_op(op);
        }
    }
    packed
}

fn packed_op(op: &Op) -> u32 {
    match *op {
        Op::Store { loc, value } => hand::pack(hand::STORE, 0, loc, value, 0),
        Op::StoreRegister { loc, reg } => hand::pack(hand::STORE_REGISTER, reg, loc, 0, 0),
        Op::Load { reg, loc } => hand::pack(hand::LOAD, reg, loc, 0, 0),
        Op::Cas { reg, loc, expected, new } => hand::pack(hand::CAS, reg, loc, expected, new),
        Op::Faa { reg, loc, add } => hand::pack(hand::FAA, reg, loc, add, 0),
        Op::FullFence => hand::pack(hand::FULL_FENCE, 0, 0, 0, 0),
        Op::StoreFence => hand::pack(hand::STORE_FENCE, 0, 0, 0, 0),
        Op::Flush { loc } => hand::pack(hand::FLUSH, 0, loc, 0, 0),
        Op::FlushOpt { loc } => hand::pack(hand::FLUSH_OPT, 0, loc, 0, 0),
        Op::SkipIfZero { reg, count } => hand::pack(hand::SKIP_IF_ZERO, reg, 0, count, 0),
    }
}
