//! The storage machine: its state, and what each code does to it. To be read beside "The machine" of document 01, and
//! two requests of document 02. By request 2 a cas waits as faa does, whether it stores or not. By request 5 no step asks
//! how much a buffer or a queue holds: tests/room.rs looks at how much they ever do.

use crate::program::{Op, Program, REGISTERS};
use std::collections::VecDeque;

/// No code above this one is ever allowed.
pub const LAST_CODE: u8 = 69;

/// An entry of a store buffer.
#[derive(Clone, Copy, Debug, PartialEq, Eq, Hash)]
pub enum Buffered {
    Write { loc: u8, value: u8 },
    Flush { loc: u8 },
    FlushOpt { loc: u8 },
    StoreFence,
}

/// An entry of a persist queue: a write, or the mark of a thread's fo.
#[derive(Clone, Copy, Debug, PartialEq, Eq, Hash)]
pub enum Queued {
    Write { value: u8 },
    Mark { thread: usize },
}

#[derive(Clone, Debug, PartialEq, Eq, Hash)]
pub struct ThreadState {
    pub place: usize,
    pub registers: [u8; REGISTERS],
    /// Oldest first.
    pub buffer: VecDeque<Buffered>,
}

#[derive(Clone, Debug, PartialEq, Eq, Hash)]
pub struct State {
    pub threads: Vec<ThreadState>,
    /// One for each location, oldest first.
    pub queues: Vec<VecDeque<Queued>>,
    pub memory: Vec<u8>,
}

/// A code that makes no step.
#[derive(Clone, Copy, Debug, PartialEq, Eq)]
pub struct NotAllowed;

impl State {
    /// Everything at 0, all buffers and queues empty.
    pub fn start(program: &Program) -> State {
        let thread = ThreadState { place: 0, registers: [0; REGISTERS], buffer: VecDeque::new() };
        State {
            threads: vec![thread; program.threads.len()],
            queues: vec![VecDeque::new(); program.locs],
            memory: vec![0; program.locs],
        }
    }

    /// What thread `t` sees at `loc`: its newest buffered store, else the newest queued write, else memory.
    fn load(&self, t: usize, loc: u8) -> u8 {
        let own = self.threads[t].buffer.iter().rev().find_map(|entry| match *entry {
            Buffered::Write { loc: at, value } if at == loc => Some(value),
            _ => None,
        });
        let queued = || {
            self.queues[usize::from(loc)].iter().rev().find_map(|entry| match *entry {
                Queued::Write { value } => Some(value),
                Queued::Mark { .. } => None,
            })
        };
        own.or_else(queued).unwrap_or(self.memory[usize::from(loc)])
    }

    /// Whether no queue holds an fo entry of thread `t`.
    fn no_mark_of(&self, t: usize) -> bool {
        let mark = Queued::Mark { thread: t };
        self.queues.iter().all(|queue| !queue.contains(&mark))
    }

    /// What mf, faa and every cas need: an empty buffer and no fo entry of one's own in any queue.
    fn fenced(&self, t: usize) -> Result<(), NotAllowed> {
        if self.threads[t].buffer.is_empty() && self.no_mark_of(t) {
            Ok(())
        } else {
            Err(NotAllowed)
        }
    }

    fn push_buffer(&mut self, t: usize, entry: Buffered) {
        self.threads[t].buffer.push_back(entry);
    }

    fn push_queue(&mut self, loc: u8, entry: Queued) {
        self.queues[usize::from(loc)].push_back(entry);
    }
}

/// The state after one code, if it is allowed.
pub fn step(program: &Program, state: &State, code: u8) -> Result<State, NotAllowed> {
    let code = usize::from(code);
    match code {
        0..=3 => instruction(program, state, code),
        16..=47 => leave_buffer(state, (code - 16) / 8, (code - 16) % 8),
        64..=69 => leave_queue(state, code - 64),
        _ => Err(NotAllowed),
    }
}

/// Codes 0 to 3: thread t does its next instruction.
fn instruction(program: &Program, state: &State, t: usize) -> Result<State, NotAllowed> {
    let thread = state.threads.get(t).ok_or(NotAllowed)?;
    let op = *program.threads[t].get(thread.place).ok_or(NotAllowed)?;

    let mut next = state.clone();
    next.threads[t].place += 1;
    match op {
        Op::Store { loc, value } => next.push_buffer(t, Buffered::Write { loc, value }),
        Op::StoreRegister { loc, reg } => {
            let value = thread.registers[usize::from(reg)];
            next.push_buffer(t, Buffered::Write { loc, value });
        }
        Op::StoreFence => next.push_buffer(t, Buffered::StoreFence),
        Op::Flush { loc } => next.push_buffer(t, Buffered::Flush { loc }),
        Op::FlushOpt { loc } => next.push_buffer(t, Buffered::FlushOpt { loc }),
        Op::Load { reg, loc } => {
            next.threads[t].registers[usize::from(reg)] = state.load(t, loc);
        }
        Op::SkipIfZero { reg, count } => {
            if thread.registers[usize::from(reg)] == 0 {
                next.threads[t].place += usize::from(count);
            }
        }
        Op::FullFence => state.fenced(t)?,
        Op::Faa { reg, loc, add } => {
            state.fenced(t)?;
            let old = state.load(t, loc);
            let value = old.wrapping_add(add);
            next.push_queue(loc, Queued::Write { value });
            next.threads[t].registers[usize::from(reg)] = old;
        }
        Op::Cas { reg, loc, expected, new } => {
            state.fenced(t)?;
            let old = state.load(t, loc);
            if old == expected {
                next.push_queue(loc, Queued::Write { value: new });
            }
            next.threads[t].registers[usize::from(reg)] = old;
        }
    }
    Ok(next)
}

/// Codes 16+8t+p: the entry at place p leaves the buffer of thread t.
fn leave_buffer(state: &State, t: usize, p: usize) -> Result<State, NotAllowed> {
    let thread = state.threads.get(t).ok_or(NotAllowed)?;
    let entry = *thread.buffer.get(p).ok_or(NotAllowed)?;
    if p > 0 && !may_overtake(&thread.buffer, p) {
        return Err(NotAllowed);
    }

    let mut next = state.clone();
    next.threads[t].buffer.remove(p);
    match entry {
        Buffered::Write { loc, value } => next.push_queue(loc, Queued::Write { value }),
        Buffered::FlushOpt { loc } => next.push_queue(loc, Queued::Mark { thread: t }),
        Buffered::Flush { loc } => {
            if !state.queues[usize::from(loc)].is_empty() {
                return Err(NotAllowed);
            }
        }
        Buffered::StoreFence => {
            if !state.no_mark_of(t) {
                return Err(NotAllowed);
            }
        }
    }
    Ok(next)
}

/// Only an fo overtakes, and no older store to its location, fl of its location or sf.
fn may_overtake(buffer: &VecDeque<Buffered>, p: usize) -> bool {
    let Buffered::FlushOpt { loc } = buffer[p] else {
        return false;
    };
    buffer.iter().take(p).all(|older| match *older {
        Buffered::Write { loc: at, .. } | Buffered::Flush { loc: at } => at != loc,
        Buffered::FlushOpt { .. } => true,
        Buffered::StoreFence => false,
    })
}

/// Codes 64+L: the oldest entry of L's queue goes.
fn leave_queue(state: &State, loc: usize) -> Result<State, NotAllowed> {
    let queue = state.queues.get(loc).ok_or(NotAllowed)?;
    let oldest = *queue.front().ok_or(NotAllowed)?;
    let mut next = state.clone();
    next.queues[loc].pop_front();
    if let Queued::Write { value } = oldest {
        next.memory[loc] = value;
    }
    Ok(next)
}
