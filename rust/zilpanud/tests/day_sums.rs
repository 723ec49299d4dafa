//! The sums of a recorded day: document 02's 7/14, "for each of 64 bays, how many turns answered waiting on it, and for
//! each desk its turns that waited and that didn't".
//!
//! Every expectation is worked out by hand. Document 01's ticket has 6 + 4 + 6 + 3 = 19 turns. Its first stores the
//! intent; the second takes lock 3, or waits; the fifth makes it begun; the fifteenth frees the lock.

mod common;

use common::frames::{rounds, submit, turns, CUT, NO_TURNS};
use common::TICKET;
use zilpanud::code::*;

/// Two workers with the ticket each.
fn two_tickets() -> String {
    format!("02\n{}{}", submit(0, 1, &TICKET), submit(1, 1, &TICKET))
}

/// Acquire, release, finish: 6 + 6 + 3 turns.
fn shortest(lock: u16) -> [u64; 3] {
    [acquire(lock), release(lock), finish()]
}

#[test]
fn a_day_without_turns_has_none() {
    NO_TURNS.of("");
    NO_TURNS.of("01");
    NO_TURNS.of("08\n");
    NO_TURNS.of(&two_tickets());
    NO_TURNS.of(&(two_tickets() + &turns(0, 0) + &rounds(0) + CUT));
}

#[test]
fn a_ticket_moves_nineteen_turns() {
    let day = format!("01\n{}", submit(0, 1, &TICKET));
    for made in [1, 2, 5, 18, 19] {
        NO_TURNS.moved(0, made).of(&(day.clone() + &turns(0, made as u16)));
    }
    // what is behind them is of an idle worker
    NO_TURNS.moved(0, 19).of(&(day.clone() + &turns(0, u16::MAX) + &turns(0, 5) + &rounds(7)));
    NO_TURNS.moved(0, 19).of(&(day.clone() + &turns(0, 1).repeat(25)));
    NO_TURNS.moved(0, 19).of(&(day + &rounds(u16::MAX)));
}

/// Worker 0 has taken the lock. Of worker 1's turns the first stores, and all others wait.
#[test]
fn each_turn_of_a_waiting_worker_is_a_wait() {
    let day = two_tickets() + &turns(0, 2);
    for made in [1, 2, 3, 256, 65_534, 65_535] {
        let expected = NO_TURNS.moved(0, 2).moved(1, 1).waited(1, 3, made - 1);
        expected.of(&(day.clone() + &turns(1, made as u16)));
    }
    let twice = NO_TURNS.moved(0, 2).moved(1, 1).waited(1, 3, 65_534 + 65_535);
    twice.of(&(day.clone() + &turns(1, u16::MAX).repeat(2)));
    // and what was waited for is had once it is free
    let both = NO_TURNS.moved(0, 19).moved(1, 19).waited(1, 3, 65_534 + 65_535);
    both.of(&(day + &turns(1, u16::MAX).repeat(2) + &turns(0, u16::MAX) + &turns(1, u16::MAX)));
}

/// 65,535 turns a line, and all but the first wait: more than 2^32.
#[test]
fn sums_are_whole_words() {
    let (lines, waits) = (70_000, 4_587_449_999);
    let expected = NO_TURNS.moved(0, 2).moved(1, 1).waited(1, 3, waits);
    expected.of(&(two_tickets() + &turns(0, 2) + &turns(1, u16::MAX).repeat(lines)));
}

/// In each round worker 0 is first. It takes the lock in round 2 and frees it in round 15, before worker 1's turn of
/// that round: so worker 1 stores its intent in round 1, waits in rounds 2 to 14, and makes its other 18 turns in rounds
/// 15 to 32. From round 20 on worker 0 is idle.
#[test]
fn rounds_are_those_of_a_run() {
    for made in (0..40).chain([384, 65_535]) {
        let waits = made.clamp(1, 14) - 1;
        let second = made.min(1) + made.clamp(14, 32) - 14;
        let expected = NO_TURNS.moved(0, made.min(19)).moved(1, second).waited(1, 3, waits);
        expected.of(&(two_tickets() + &rounds(made as u16)));
        if made < 40 {
            expected.of(&(two_tickets() + &rounds(1).repeat(made as usize)));
        }
    }
}

/// Eight workers want one lock. Worker d frees it before worker d + 1's turn of the same round, so that they take it by
/// rising number, each thirteen rounds behind the last: worker d waits thirteen times d turns.
#[test]
fn eight_workers_wait_in_a_row() {
    let tickets: String = (0..8).map(|worker| submit(worker, 1, &TICKET)).collect();
    let mut expected = NO_TURNS;
    for worker in 0..8 {
        expected = expected.moved(worker, 19).waited(worker, 3, 13 * worker as u64);
    }
    expected.of(&format!("08\n{tickets}{}", rounds(u16::MAX)));
}

/// Each wait is of its lock and of its worker. Worker 2 wants both locks: it stores its intent and waits three turns
/// for lock 3, which worker 0 has; takes it with five turns, stores its intent for lock 5, and waits four turns for that,
/// which worker 1 has.
#[test]
fn waits_for_two_locks() {
    let both = [acquire(3), acquire(5), release(5), release(3), finish()];
    let tickets = submit(0, 1, &TICKET) + &submit(1, 1, &shortest(5)) + &submit(2, 1, &both);
    let day = format!("03\n{tickets}{}{}{}", turns(0, 2), turns(1, 2), turns(2, 4));
    NO_TURNS.moved(0, 2).moved(1, 2).moved(2, 1).waited(2, 3, 3).of(&day);
    let day = day + &turns(0, u16::MAX) + &turns(2, 10);
    NO_TURNS.moved(0, 19).moved(1, 2).moved(2, 7).waited(2, 3, 3).waited(2, 5, 4).of(&day);
}

#[test]
fn the_first_and_the_last_lock_and_worker() {
    let (low, high) = (shortest(0), shortest(63));
    let tickets = submit(7, 1, &low) + &submit(0, 1, &low) + &submit(1, 1, &high) + &submit(6, 1, &high);
    let day = format!("08\n{tickets}{}{}", turns(7, 2), turns(1, 2));
    let expected = NO_TURNS.moved(7, 2).moved(1, 2).moved(0, 1).moved(6, 1);
    expected.waited(0, 0, 6).waited(6, 63, 8).of(&(day + &turns(0, 7) + &turns(6, 9)));
}

/// A jump's one turn passes: 6 + 1 + 6 + 3, the assignment jumped over.
#[test]
fn a_turn_that_passes_did_not_wait() {
    let jumping = [acquire(3), jump_if_zero(24, 3), set(24, 5), release(3), finish()];
    NO_TURNS.moved(0, 16).of(&format!("01\n{}{}", submit(0, 1, &jumping), turns(0, u16::MAX)));
}

/// Document 01's rows: cut after turn 4 the ticket is withdrawn, after 5 it has 14 more turns, after 15 it has 6, of
/// which the second passes, since the lock is free.
#[test]
fn the_sums_go_on_across_cuts() {
    for (before, after) in [(0, 0), (4, 0), (5, 14), (15, 6), (19, 0)] {
        let day = format!("01\n{}{}{CUT}", submit(0, 1, &TICKET), turns(0, before));
        let expected = NO_TURNS.moved(0, before as u64 + after);
        expected.of(&(day.clone() + &turns(0, u16::MAX)));
        expected.of(&(day + CUT + &rounds(u16::MAX) + CUT));
    }
}

/// Worker 1 is not begun while it waits, so the cut withdraws its section, and it waits anew for the same lock.
#[test]
fn a_withdrawn_worker_waits_again() {
    let waits = turns(0, 2) + &turns(1, 4);
    let again = submit(0, 1, &TICKET) + &submit(1, 1, &TICKET) + &turns(0, 2) + &turns(1, 6);
    let expected = NO_TURNS.moved(0, 4).moved(1, 2).waited(1, 3, 3 + 5);
    expected.of(&(two_tickets() + &waits + CUT + &turns(1, 9) + &again));
}

/// Worker 0 is begun and has lock 5. Worker 1 is begun with lock 3: seven turns; then it waits for lock 5, twice. After
/// the cut it goes on at its last recorded store, the owned set of lock 3, stores its intent again and waits three times.
#[test]
fn a_resumed_worker_waits_again() {
    let both = [acquire(3), acquire(5), release(5), release(3), finish()];
    let tickets = submit(0, 1, &shortest(5)) + &submit(1, 1, &both);
    let day = format!("02\n{tickets}{}{}{CUT}{}", turns(0, 5), turns(1, 9), turns(1, 5));
    NO_TURNS.moved(0, 5).moved(1, 7 + 2).waited(1, 5, 2 + 3).of(&day);
}

#[test]
fn idle_and_refused_turns_are_in_none() {
    let none = [turns(0, 9), turns(1, 9), turns(7, 9), turns(8, 9), turns(255, u16::MAX), rounds(9)].concat();
    NO_TURNS.of(&format!("01\n{none}"));
    // the line is over with the refused turn, and the next one is read
    let ticket = submit(0, 1, &TICKET);
    NO_TURNS.moved(0, 5).of(&format!("01\n{ticket}{}{}{}", turns(1, 9), turns(0, 5), turns(1, 9)));
}

/// A refused submit changes nothing, and the ticket of worker 0 goes on. While that is busy they are refused with 1 and
/// 2; once it is idle, with 3, 4 and 6.
#[test]
fn refused_submits_are_no_turns() {
    let none = submit(1, 1, &TICKET);
    let [done, empty] = [submit(0, 1, &TICKET), submit(0, 9, &[])];
    let refused = none + &done + &empty + &submit(0, 9, &[set(24, 5), release(3), finish()]);
    let day = format!("01\n{}{}{refused}", submit(0, 1, &TICKET), turns(0, 3));
    NO_TURNS.moved(0, 3).of(&day);
    NO_TURNS.moved(0, 19).of(&(day.clone() + &rounds(u16::MAX)));
    NO_TURNS.moved(0, 19).of(&(day + &turns(0, 16) + &refused + &rounds(9) + &turns(0, 9)));
}
