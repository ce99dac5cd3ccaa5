//! The walk written by hand as a program of its own, for the measurement: a packed question on standard input, what was counted on standard
//! output. `core` and the C library's read and write only, so that it can be built for the machine that `bench` is built for.
#![no_std]
#![no_main]

#[path = "../src/hand.rs"]
#[allow(dead_code)]
mod hand;

use hand::{walk, Counts, Packed};

extern "C" {
    fn read(file: i32, to: *mut u8, most: usize) -> isize;
    fn write(file: i32, from: *const u8, many: usize) -> isize;
    fn abort() -> !;
}

#[panic_handler]
fn panicked(_: &core::panic::PanicInfo) -> ! {
    unsafe { abort() }
}

/// Threads, locations, four lengths; 32 instructions of 4 bytes; the budget, whether a memory is wanted, and which: 8 bytes each. Lowest first.
const LENGTH: usize = 6 + 32 * 4 + 3 * 8;

static mut COUNTS: Counts = Counts::new();

fn number(bytes: &[u8]) -> u64 {
    bytes.iter().rev().fold(0, |n, &byte| n << 8 | byte as u64)
}

#[no_mangle]
pub extern "C" fn main() -> i32 {
    let mut bytes = [0u8; LENGTH];
    let mut at = 0;
    while at < LENGTH {
        let got = unsafe { read(0, bytes.as_mut_ptr().add(at), LENGTH - at) };
        if got <= 0 {
            return 1;
        }
        at += got as usize;
    }
    let mut program = Packed { threads: bytes[0] as usize, locs: bytes[1] as usize, lengths: [0; 4], ops: [[0; 8]; 4] };
    program.lengths.copy_from_slice(&bytes[2..6]);
    for t in 0..4 {
        for k in 0..8 {
            let from = 6 + (t * 8 + k) * 4;
            program.ops[t][k] = number(&bytes[from..from + 4]) as u32;
        }
    }
    let rest = &bytes[6 + 32 * 4..];
    let wanted = if number(&rest[8..16]) == 0 { None } else { Some(number(&rest[16..24])) };
    let counts = unsafe { &mut *core::ptr::addr_of_mut!(COUNTS) };
    walk(&program, number(&rest[..8]), wanted, counts);
    let said = [counts.runs, counts.over as u64, counts.memory_count as u64];
    for n in said {
        let bytes = n.to_le_bytes();
        unsafe { write(1, bytes.as_ptr(), 8) };
    }
    0
}
