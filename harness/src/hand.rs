//! A plain walk written by hand, for the benchmark only: what a good programmer would write in an afternoon.
//!
//! Fixed arrays, no heap, `core` only: each step is done in place and undone behind it. This file stands alone.

/// An instruction packed in 32 bits: kind in bits 0 to 3, register from bit 4, location from bit 8, then two bytes.
pub const STORE: u32 = 0; // location, value
pub const STORE_REGISTER: u32 = 1; // register, location
pub const LOAD: u32 = 2; // register, location
pub const CAS: u32 = 3; // register, location, expected, new
pub const FAA: u32 = 4; // register, location, what is added
pub const FULL_FENCE: u32 = 5;
pub const STORE_FENCE: u32 = 6;
pub const FLUSH: u32 = 7; // location
pub const FLUSH_OPT: u32 = 8; // location
pub const SKIP_IF_ZERO: u32 = 9; // register, how many

pub const fn pack(kind: u32, reg: u8, loc: u8, x: u8, y: u8) -> u32 {
    kind | (reg as u32) << 4 | (loc as u32) << 8 | (x as u32) << 16 | (y as u32) << 24
}

/// A program. A thread that is not there has length 0.
#[derive(Clone, Copy)]
pub struct Packed {
    pub threads: usize,
    pub locs: usize,
    pub lengths: [u8; 4],
    pub ops: [[u32; 8]; 4],
}

/// Both are powers of two, so that a masked index is always inside.
pub const MEMORY_ROOM: usize = 4096;
pub const RUN_ROOM: usize = 128;

/// What a walk found. A memory is one number, location 0 in its highest byte: numbers are ordered as the memories are.
pub struct Counts {
    /// Runs met, at most the budget.
    pub runs: u64,
    /// There is a run behind the budget's last one.
    pub over: bool,
    /// The wanted memory was met, by the run of these codes, at place `runs`.
    pub reached: bool,
    pub run: [u8; RUN_ROOM],
    pub run_length: usize,
    /// The memories in order, if none was wanted. More than there is room for are not kept.
    pub memories: [u64; MEMORY_ROOM],
    pub memory_count: usize,
    pub full: bool,
}

impl Counts {
    pub const fn new() -> Counts {
        Counts {
            runs: 0,
            over: false,
            reached: false,
            run: [0; RUN_ROOM],
            run_length: 0,
            memories: [0; MEMORY_ROOM],
            memory_count: 0,
            full: false,
        }
    }
}

impl Default for Counts {
    fn default() -> Counts {
        Counts::new()
    }
}

/// Walks all runs, at most `budget`; stops early at `wanted`, else collects the memories.
pub fn walk(program: &Packed, budget: u64, wanted: Option<u64>, counts: &mut Counts) {
    counts.runs = 0;
    counts.over = false;
    counts.reached = false;
    counts.run_length = 0;
    counts.memory_count = 0;
    counts.full = false;
    let mut walk = Walk {
        program,
        budget,
        collects: wanted.is_none(),
        // No memory has its two lowest bytes set, so this one is never met.
        wanted: wanted.unwrap_or(u64::MAX),
        depth: 0,
        places: [0; 4],
        registers: [[0; 4]; 4],
        buffers: [0; 4],
        buffered: [0; 4],
        marks: [0; 4],
        seen: [0; 8],
        queues: [[0; 32]; 8],
        heads: [0; 8],
        tails: [0; 8],
        memory: 0,
        counts,
    };
    walk.visit(true);
}

/// The memory of these bytes, one for each location, as a number.
pub fn memory_number(memory: &[u8]) -> u64 {
    let places = memory.iter().take(6).enumerate();
    places.fold(0, |number, (loc, &value)| number | (value as u64) << shift(loc))
}

const fn shift(loc: usize) -> usize {
    56 - 8 * (loc & 7)
}

// A buffer's entry has 16 bits: its sort, its location from bit 2, its value from bit 8.
const WRITE: u16 = 0;
const FLUSHES: u16 = 1;
const MARKS: u16 = 2;
const FENCES: u16 = 3;

// A queue's entry is a value, or this bit and the thread.
const MARK: u16 = 0x100;

struct Walk<'a> {
    program: &'a Packed,
    budget: u64,
    collects: bool,
    wanted: u64,
    depth: usize,
    places: [u8; 4],
    registers: [[u8; 4]; 4],
    /// Eight entries of 16 bits each, the oldest lowest.
    buffers: [u128; 4],
    buffered: [u8; 4],
    /// How many fo entries of each thread the queues hold.
    marks: [u8; 4],
    /// The newest write of each location that has left a buffer.
    seen: [u8; 8],
    /// At most 32 entries ever enter a queue in one run, so it never wraps.
    queues: [[u16; 32]; 8],
    heads: [u8; 8],
    tails: [u8; 8],
    memory: u64,
    counts: &'a mut Counts,
}

impl Walk<'_> {
    /// Meets one run and its extensions; true if the walk is over.
    fn visit(&mut self, memory_is_new: bool) -> bool {
        if self.counts.runs == self.budget {
            self.counts.over = true;
            return true;
        }
        self.counts.runs += 1;
        if memory_is_new {
            if self.collects {
                self.collect();
            } else if self.memory == self.wanted {
                self.counts.reached = true;
                self.counts.run_length = self.depth;
                return true;
            }
        }
        for t in 0..self.program.threads.min(4) {
            if self.places[t] < self.program.lengths[t] && self.instruction(t) {
                return true;
            }
        }
        for t in 0..self.program.threads.min(4) {
            if self.buffered[t] > 0 && self.leave_buffer(t) {
                return true;
            }
        }
        for loc in 0..self.program.locs.min(6) {
            if self.heads[loc] < self.tails[loc] && self.leave_queue(loc) {
                return true;
            }
        }
        false
    }

    /// Notes the code and visits what is behind it.
    #[inline(always)]
    fn enter(&mut self, code: usize, memory_is_new: bool) -> bool {
        self.counts.run[self.depth & (RUN_ROOM - 1)] = code as u8;
        self.depth += 1;
        let over = self.visit(memory_is_new);
        if !over {
            self.depth -= 1;
        }
        over
    }

    /// Keeps the memory in its place among those met.
    fn collect(&mut self) {
        const MASK: usize = MEMORY_ROOM - 1;
        let memories = &mut self.counts.memories;
        let count = self.counts.memory_count;
        let (mut low, mut high) = (0, count);
        while low < high {
            let middle = (low + high) / 2;
            match memories[middle & MASK].cmp(&self.memory) {
                core::cmp::Ordering::Less => low = middle + 1,
                core::cmp::Ordering::Equal => return,
                core::cmp::Ordering::Greater => high = middle,
            }
        }
        if count == MEMORY_ROOM {
            self.counts.full = true;
            return;
        }
        for at in (low..count).rev() {
            memories[(at + 1) & MASK] = memories[at & MASK];
        }
        memories[low & MASK] = self.memory;
        self.counts.memory_count = count + 1;
    }

    #[inline(always)]
    fn instruction(&mut self, t: usize) -> bool {
        let place = self.places[t];
        let op = self.program.ops[t][place as usize & 7];
        let reg = (op >> 4) as usize & 3;
        let loc = (op >> 8) as usize & 7;
        let (x, y) = ((op >> 16) as u8, (op >> 24) as u8);
        let fenced = self.buffered[t] == 0 && self.marks[t] == 0;
        let old = self.registers[t][reg];
        let mut length = 1;
        let mut queued = None;
        let mut entry = None;
        match op & 15 {
            STORE => entry = Some(WRITE | (loc as u16) << 2 | (x as u16) << 8),
            STORE_REGISTER => entry = Some(WRITE | (loc as u16) << 2 | (old as u16) << 8),
            FLUSH => entry = Some(FLUSHES | (loc as u16) << 2),
            FLUSH_OPT => entry = Some(MARKS | (loc as u16) << 2),
            STORE_FENCE => entry = Some(FENCES),
            LOAD => self.registers[t][reg] = self.load(t, loc),
            SKIP_IF_ZERO => {
                if old == 0 {
                    length += x;
                }
            }
            FULL_FENCE => {
                if !fenced {
                    return false;
                }
            }
            FAA => {
                if !fenced {
                    return false;
                }
                queued = Some(self.seen[loc].wrapping_add(x));
                self.registers[t][reg] = self.seen[loc];
            }
            CAS => {
                if !fenced {
                    return false;
                }
                let value = self.seen[loc];
                if value == x {
                    queued = Some(y);
                }
                self.registers[t][reg] = value;
            }
            _ => return false,
        }

        self.places[t] = place + length;
        if let Some(entry) = entry {
            let buffer = self.buffers[t];
            let at = self.buffered[t];
            self.buffers[t] = buffer | (entry as u128) << (16 * (at & 7));
            self.buffered[t] = at + 1;
            if self.enter(t, false) {
                return true;
            }
            self.buffers[t] = buffer;
            self.buffered[t] = at;
        } else if let Some(value) = queued {
            let seen = self.seen[loc];
            self.push_queue(loc, value as u16);
            self.seen[loc] = value;
            if self.enter(t, false) {
                return true;
            }
            self.seen[loc] = seen;
            self.tails[loc] -= 1;
        } else if self.enter(t, false) {
            return true;
        }
        self.places[t] = place;
        self.registers[t][reg] = old;
        false
    }

    fn load(&self, t: usize, loc: usize) -> u8 {
        let buffer = self.buffers[t];
        for p in (0..self.buffered[t]).rev() {
            let entry = (buffer >> (16 * (p & 7))) as u16;
            if entry & 0xFF == WRITE | (loc as u16) << 2 {
                return (entry >> 8) as u8;
            }
        }
        self.seen[loc]
    }

    fn push_queue(&mut self, loc: usize, entry: u16) {
        let tail = self.tails[loc];
        self.queues[loc][tail as usize & 31] = entry;
        self.tails[loc] = tail + 1;
    }

    #[inline(always)]
    fn leave_buffer(&mut self, t: usize) -> bool {
        let buffer = self.buffers[t];
        let count = self.buffered[t];
        // One bit for each location that an fo can no longer overtake.
        let mut closed: u32 = 0;
        for p in 0..count {
            let entry = (buffer >> (16 * (p & 7))) as u16;
            let loc = (entry >> 2) as usize & 7;
            let sort = entry & 3;
            let leaves = match sort {
                MARKS => closed >> loc & 1 == 0,
                WRITE => p == 0,
                FLUSHES => p == 0 && self.heads[loc] == self.tails[loc],
                _ => p == 0 && self.marks[t] == 0,
            };
            match sort {
                MARKS => (),
                FENCES => closed = !0,
                _ => closed |= 1 << loc,
            }
            if !leaves {
                continue;
            }
            let younger = buffer >> (16 * (p & 7)) >> 16 << (16 * (p & 7));
            let older = buffer & ((1 << (16 * (p & 7))) - 1);
            self.buffers[t] = older | younger;
            self.buffered[t] = count - 1;
            let code = 16 + 8 * t + p as usize;
            match sort {
                WRITE => {
                    let seen = self.seen[loc];
                    self.seen[loc] = (entry >> 8) as u8;
                    self.push_queue(loc, entry >> 8);
                    if self.enter(code, false) {
                        return true;
                    }
                    self.tails[loc] -= 1;
                    self.seen[loc] = seen;
                }
                MARKS => {
                    self.marks[t] += 1;
                    self.push_queue(loc, MARK | t as u16);
                    if self.enter(code, false) {
                        return true;
                    }
                    self.tails[loc] -= 1;
                    self.marks[t] -= 1;
                }
                _ => {
                    if self.enter(code, false) {
                        return true;
                    }
                }
            }
            self.buffers[t] = buffer;
            self.buffered[t] = count;
        }
        false
    }

    #[inline(always)]
    fn leave_queue(&mut self, loc: usize) -> bool {
        let head = self.heads[loc];
        let entry = self.queues[loc][head as usize & 31];
        self.heads[loc] = head + 1;
        if entry & MARK != 0 {
            let t = entry as usize & 3;
            self.marks[t] -= 1;
            if self.enter(64 + loc, false) {
                return true;
            }
            self.marks[t] += 1;
        } else {
            let memory = self.memory;
            let cleared = memory & !(0xFF << shift(loc));
            self.memory = cleared | (entry as u64) << shift(loc);
            if self.enter(64 + loc, self.memory != memory) {
                return true;
            }
            self.memory = memory;
        }
        self.heads[loc] = head;
        false
    }
}
