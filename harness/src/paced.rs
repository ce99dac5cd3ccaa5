//! The question and the run on which legality and state are measured, by the program's pace and by the simulator's.

/// Three locations, and two threads: the first flushes by `fo` and fences before it sets a flag, the second flushes by `fl` if it sees the flag.
pub const PACED_TEXT: &str = "threads=2\nlocs=3\nbudget=1\nwant=all\n\
    thread=0\nop=st,0,1\nop=fo,0\nop=sf\nop=st,1,1\nop=ld,0,1\n\
    thread=1\nop=ld,0,1\nop=bz,0,2\nop=st,2,1\nop=fl,2\nop=st,2,2\n";

/// A run of 20 codes, all allowed, with every sort of step: both threads do all their instructions, with a load from the own buffer and one from
/// a queue; a store, an `fo`, an `sf` and an `fl` leave a buffer; writes and a mark leave a queue.
pub const PACED_RUN: [u8; 20] = [0, 0, 16, 0, 16, 0, 0, 64, 64, 16, 16, 1, 1, 1, 1, 24, 66, 24, 65, 1];

/// How often each is done for one measurement.
pub const PACED_TIMES: u32 = 100_000;
