//! This port, by the functions of clib/outlets.h.

use oracle::measure::Counts;

#[repr(C)]
#[derive(Default)]
struct TapeSize {
    columns: usize,
    events: usize,
}

#[repr(C)]
#[derive(Default)]
struct RowCounts {
    shown: u64,
    refused: u64,
    failures: u64,
}

extern "C" {
    fn outlets_tape_size(tape: *const u8, tape_length: usize, size: *mut TapeSize) -> i32;
    fn outlets_count(tape: *const u8, tape_length: usize, arena: *mut u8, arena_length: usize, counts: *mut RowCounts) -> i32;
    fn outlets_find(
        tape: *const u8,
        tape_length: usize,
        arena: *mut u8,
        arena_length: usize,
        class_number: i32,
        into: *mut u8,
        into_length: usize,
    ) -> i64;
}

const NO_SUCH_CLASS: i64 = -1000;

/// How many events a tape has: it is gone through twice, and nothing is fetched.
pub fn events(tape: &[u8]) -> usize {
    let mut size = TapeSize::default();
    assert_eq!(unsafe { outlets_tape_size(tape.as_ptr(), tape.len(), &mut size) }, 0);
    size.events
}

/// Counts the rows of a tape.
pub fn count(tape: &[u8], arena: &mut [u8]) -> Counts {
    let mut counts = RowCounts::default();
    let refused = unsafe { outlets_count(tape.as_ptr(), tape.len(), arena.as_mut_ptr(), arena.len(), &mut counts) };
    assert_eq!(refused, 0);
    Counts {
        shown: counts.shown,
        refused: counts.refused,
        failures: counts.failures,
    }
}

/// Whether no row has this number in column 0.
pub fn lacks_class(tape: &[u8], arena: &mut [u8], class: i32) -> bool {
    let mut into = [0; 16];
    let found = unsafe {
        outlets_find(tape.as_ptr(), tape.len(), arena.as_mut_ptr(), arena.len(), class, into.as_mut_ptr(), into.len())
    };
    found == NO_SUCH_CLASS
}
