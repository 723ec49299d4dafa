//! The check, what it finds and its sentence allocate nothing; nor do the sums of a recorded day.

mod common;

use common::frames::{rounds, submit};
use common::TICKET;
use std::alloc::{GlobalAlloc, Layout, System};
use std::cell::Cell;
use std::io::Write;
use zilpanud::code::*;

struct Counting;

thread_local! {
    static ALLOCATED: Cell<u64> = const { Cell::new(0) };
}

// SAFETY: it is the system's, and counts. The count is a plain number of the thread, and allocates nothing itself.
unsafe impl GlobalAlloc for Counting {
    unsafe fn alloc(&self, layout: Layout) -> *mut u8 {
        ALLOCATED.with(|count| count.set(count.get() + 1));
        // SAFETY: the caller's.
        unsafe { System.alloc(layout) }
    }

    unsafe fn dealloc(&self, at: *mut u8, layout: Layout) {
        // SAFETY: the caller's.
        unsafe { System.dealloc(at, layout) }
    }
}

#[global_allocator]
static COUNTING: Counting = Counting;

fn allocated() -> u64 {
    ALLOCATED.with(Cell::get)
}

#[test]
fn a_check_allocates_nothing() {
    let sections: [&[u64]; 9] = [
        &TICKET,
        &[],
        &[finish(); 65],
        &[acquire(3), 0, finish()],
        &[acquire(3), instruction(1, 3, 1, 0), finish()],
        &[acquire(3), acquire(5), acquire(9), finish()],
        &[acquire(3), acquire(2), finish()],
        &[acquire(3), add(24, 24, 32), release(3), finish()],
        &[acquire(3), jump_if_zero(24, 3), release(3), finish()],
    ];
    let mut text = [0; 200];
    for section in sections {
        let before = allocated();
        if let Err(fault) = zilpanud::check(section) {
            write!(&mut text[..], "{fault}").unwrap();
        }
        assert_eq!(allocated(), before, "{section:x?}");
    }
    counting_counts();
}

#[test]
fn a_day_allocates_nothing() {
    let ticket = submit(0, 1, &TICKET);
    let days = ["", "01\n03", "09", "01\n0z\n", &format!("08\n{ticket}{}", rounds(u16::MAX))];
    let mut text = [0; 200];
    for day in days {
        let before = allocated();
        let sums = zilpanud::day_sums(day.as_bytes());
        write!(&mut text[..], "{}", sums.end).unwrap();
        assert_eq!(allocated(), before, "{day}");
    }
    counting_counts();
}

/// What counts does count.
fn counting_counts() {
    let before = allocated();
    drop(std::hint::black_box(Box::new(before)));
    assert!(allocated() > before);
}
