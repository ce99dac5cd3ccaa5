//! A program, a question about it, and the limits that both keep to.

pub const MAX_THREADS: usize = 4;
pub const MAX_OPS: usize = 8;
pub const MAX_LOCS: usize = 6;
pub const REGISTERS: usize = 4;
pub const MAX_SKIP: u8 = 8;
pub const MAX_BUDGET: u64 = 1_000_000_000;

/// One instruction. Locations and registers are numbers from 0.
#[derive(Clone, Copy, Debug, PartialEq, Eq, Hash)]
pub enum Op {
    /// st,L,V
    Store { loc: u8, value: u8 },
    /// sr,L,R
    StoreRegister { loc: u8, reg: u8 },
    /// ld,R,L
    Load { reg: u8, loc: u8 },
    /// cas,R,L,E,N
    Cas { reg: u8, loc: u8, expected: u8, new: u8 },
    /// faa,R,L,V
    Faa { reg: u8, loc: u8, add: u8 },
    /// mf
    FullFence,
    /// sf
    StoreFence,
    /// fl,L
    Flush { loc: u8 },
    /// fo,L
    FlushOpt { loc: u8 },
    /// bz,R,K
    SkipIfZero { reg: u8, count: u8 },
}

/// The number of locations, and the instructions of each thread.
#[derive(Clone, Debug, PartialEq, Eq)]
pub struct Program {
    pub locs: usize,
    pub threads: Vec<Vec<Op>>,
}

#[derive(Clone, Debug, PartialEq, Eq)]
pub enum Want {
    All,
    One(Vec<u8>),
}

#[derive(Clone, Debug, PartialEq, Eq)]
pub struct Question {
    pub program: Program,
    pub budget: u64,
    pub want: Want,
}

impl Op {
    /// The location it names, if it names one.
    pub fn loc(&self) -> Option<u8> {
        match *self {
            Op::Store { loc, .. }
            | Op::StoreRegister { loc, .. }
            | Op::Load { loc, .. }
            | Op::Cas { loc, .. }
            | Op::Faa { loc, .. }
            | Op::Flush { loc }
            | Op::FlushOpt { loc } => Some(loc),
            Op::FullFence | Op::StoreFence | Op::SkipIfZero { .. } => None,
        }
    }

    /// The register it names, if it names one.
    pub fn reg(&self) -> Option<u8> {
        match *self {
            Op::StoreRegister { reg, .. }
            | Op::Load { reg, .. }
            | Op::Cas { reg, .. }
            | Op::Faa { reg, .. }
            | Op::SkipIfZero { reg, .. } => Some(reg),
            _ => None,
        }
    }
}

impl Program {
    /// Whether every limit is kept, a skip past its thread's end included.
    pub fn keeps_limits(&self) -> bool {
        (1..=MAX_LOCS).contains(&self.locs)
            && (1..=MAX_THREADS).contains(&self.threads.len())
            && self.threads.iter().all(|ops| self.thread_keeps_limits(ops))
    }

    fn thread_keeps_limits(&self, ops: &[Op]) -> bool {
        ops.len() <= MAX_OPS
            && ops.iter().enumerate().all(|(at, op)| {
                op.loc().is_none_or(|loc| usize::from(loc) < self.locs)
                    && op.reg().is_none_or(|reg| usize::from(reg) < REGISTERS)
                    && match *op {
                        Op::SkipIfZero { count, .. } => {
                            (1..=MAX_SKIP).contains(&count) && skip_stays_inside(at, count, ops)
                        }
                        _ => true,
                    }
            })
    }
}

/// A skip from place `at` may land just behind the last instruction, no further.
pub fn skip_stays_inside(at: usize, count: u8, ops: &[Op]) -> bool {
    at + 1 + usize::from(count) <= ops.len()
}

impl Question {
    /// The refusal that a question handed over in memory earns before anything is done: 6 before 7.
    pub fn refusal(&self) -> Option<u8> {
        if !self.program.keeps_limits() || !(1..=MAX_BUDGET).contains(&self.budget) {
            return Some(6);
        }
        match &self.want {
            Want::One(memory) if memory.len() != self.program.locs => Some(7),
            _ => None,
        }
    }
}
