//! What is tried by itself, beside the random lists: drops and their reports, the mask of bays held, cause 7, and `board`'s lines.
use twin::*;

/// A formatted image of eight desks, each behind the logged store of a drop of the bay of its number.
fn dropping() -> (Vec<u64>, Working) {
    let mut w = vec![0; HEAD + REC * 8];
    let (ok, mut p) = format(&mut w, 8, u64::MAX);
    assert!(ok.is_ok());
    for d in 0..8 {
        let [take, drop] = [1, 2].map(|kind| Step::word(kind, d, 0, 0));
        let steps = [take, Step::word(7, 512, 2, 0), drop, Step::word(8, 0, 0, 0)];
        let (a, q) = hand_in(&mut w, p, d as u64, 1, &[0; 8], &steps, u64::MAX);
        assert_eq!(a, Ok(()));
        p = q;
    }
    // a take, a skip, and four turns of the drop
    let mut t = Tally::default();
    let (end, p) = run(&mut w, p, 11, u64::MAX, &mut t);
    // the eight skips count in turns alone
    let sums = Tally { turns: 88, waits: 0, stores: 80, already_free: 0, others: 0 };
    assert_eq!((end, t), (Ok(End::Spent), sums));
    assert_eq!((p.step, p.turn, p.held), ([2; 8], [4; 8], 0xff));
    (w, p)
}

/// Each desk's drop at each sort of lock word, whole and with no stores left; and a run over such.
pub fn reports() {
    let (w, p) = dropping();
    for d in 0..8usize {
        let mine = d as u64 + 1;
        let named = (1..=8).filter(|&lock| lock != mine);
        let others = named.chain([9, mine + 8, mine | 1 << 8, mine | 1 << 63, 1 << 63, u64::MAX]);
        let mut sorts = vec![(mine, Report::Freed), (0, Report::AlreadyFree)];
        sorts.extend(others.map(|lock| (lock, Report::Others)));
        for (lock, said) in sorts {
            assert_eq!(report(lock, d), said);
            for left in [0, 1, u64::MAX] {
                let mut before = w.clone();
                before[LOCKS + d] = lock;
                let mut after = before.clone();
                let (a, q) = turn(&mut after, p, d as u64, left);
                let is = match said {
                    Report::Freed => Answer::Stored(LOCKS + d),
                    Report::AlreadyFree => Answer::Passed(Passing::AlreadyFree),
                    Report::Others => Answer::Passed(Passing::Others),
                };
                assert_eq!(a, Ok(is));
                if said == Report::Freed && left != 0 {
                    before[LOCKS + d] = 0;
                }
                assert!(after == before);
                let mut on = p;
                on.turn[d] = 5;
                if said == Report::Freed {
                    on.held &= !(1 << d);
                }
                assert_eq!(q, on);
            }
        }
    }
    let (mut w, p) = dropping();
    w[LOCKS..LOCKS + 8].copy_from_slice(&[1, 0, 1, 9, 0, u64::MAX, 7, 7]);
    let mut t = Tally { turns: 99, waits: 99, stores: 99, already_free: 99, others: 99 };
    let (end, p) = run(&mut w, p, u16::MAX, u64::MAX, &mut t);
    // of five turns each, those of the desks 0 and 6 all store
    let sums = Tally { turns: 40, waits: 0, stores: 34, already_free: 2, others: 4 };
    assert_eq!((end, t), (Ok(End::Idle), sums));
    assert_eq!(w[LOCKS..LOCKS + 8], [0, 0, 1, 9, 0, u64::MAX, 0, 7]);
    // and those two alone clear their bits
    assert_eq!(p.held, 0xff & !(1 | 1 << 6));
}

/// The mask through document 01's ticket under each of some bays, given any mask and with stores left or none; and as other
/// calls return it.
pub fn masks() {
    let mut w = vec![0; HEAD + REC * 2];
    let idle = Working::ALL_IDLE;
    for bay in [0, 3, 62, 63u16] {
        let [take, drop] = [1, 2].map(|kind| Step::word(kind, bay, 0, 0));
        let steps = [take, Step::word(3, 8 * bay, 0, 5), drop, Step::word(8, 0, 0, 0)];
        for given in [0, 1 << bay, !(1 << bay), u64::MAX] {
            assert_eq!(format(&mut w, 2, u64::MAX), (Ok(()), idle));
            // handed in, refused, and idle: the mask given
            let mut p = Working { held: given, ..idle };
            for answer in [Ok(()), Err(2)] {
                let (a, q) = hand_in(&mut w, p, 0, 1, &[0; 8], &steps, u64::MAX);
                assert_eq!((a.map_err(|no| no.number), q.held), (answer, given));
                p = q;
            }
            assert_eq!(turn(&mut w, p, 1, 1), (Ok(Answer::Idle), p));
            assert_eq!(turn(&mut w, p, 2, 1), (Err(Refusal { number: 1, at: 0 }), p));
            for t in 0..19 {
                // a take of a bay that is not free
                if t == 1 {
                    w[LOCKS + bay as usize] = 2;
                    assert_eq!(turn(&mut w, p, 0, 1), (Ok(Answer::Waiting(bay as u8)), p));
                    w[LOCKS + bay as usize] = 0;
                }
                let is = match t {
                    1 => p.held | 1 << bay,
                    14 => p.held & !(1 << bay),
                    _ => p.held,
                };
                let both = [0, 1].map(|left| turn(&mut w, p, 0, left));
                for (a, q) in both {
                    assert!(matches!(a, Ok(Answer::Stored(_))));
                    assert_eq!(q.held, is, "turn {t} of bay {bay}");
                }
                p = both[1].1;
            }
            assert_eq!(p, Working { held: given & !(1 << bay), ..idle });
        }
    }
    // desk 0 takes and desk 1 is refused, in one round: desk 0's bit stays
    let (mut w, mut p) = dropping();
    let at = |p: &mut Working, d: usize, step, turn| (p.step[d], p.turn[d]) = (step, turn);
    w[LOCKS] = 0;
    at(&mut p, 0, 0, 1);
    at(&mut p, 1, 3, 3);
    p.held = 0xf0;
    let mut t = Tally::default();
    let (end, q) = run(&mut w, p, 9, u64::MAX, &mut t);
    assert_eq!((end, t.turns, q.held), (Err(Refusal { number: 11, at: 1 }), 1, 0xf1));
    // refused with 10, and by single turns: as given
    assert_eq!(turn(&mut w, p, 1, 1), (Err(Refusal { number: 11, at: 1 }), p));
    assert_eq!(run(&mut w[1..], p, 9, 9, &mut t), (Err(Refusal { number: 10, at: 0 }), p));
    // recovery, cut or not, builds it from the owed sets: of these drops only desk 7's has made its ownership store
    let (mut w, _) = dropping();
    for d in 0..8 {
        w[HEAD + REC * d + OWNER] = 1 << d;
    }
    w[HEAD + REC * 7 + OWNER] = 0;
    for left in [0, 1, 20, u64::MAX] {
        let (a, p) = recover(&mut w.clone(), left);
        assert_eq!((a, p.held, p.bays_held()), (Ok(()), 0x7f, 7));
    }
    // and gives 0 refused, as formatting does
    w[LOCKS + 9] = 1;
    assert_eq!(recover(&mut w, 9), (Err(Refusal { number: 13, at: 9 }), idle));
    w[HEAD + REC * 3 + OWNER] = 0xff;
    assert_eq!(recover(&mut w, 9), (Err(Refusal { number: 12, at: 3 }), idle));
    assert_eq!(recover(&mut w[1..], 9), (Err(Refusal { number: 10, at: 0 }), idle));
    assert_eq!(format(&mut w, 7, 9), (Err(Refusal { number: 10, at: 0 }), idle));
    assert_eq!(idle.bays_held(), 0);
}

/// A take under each held set of one or two bays, against its bays one by one.
pub fn above() {
    for (low, high) in (0..64u16).flat_map(|b| (b..64).map(move |h| (b, h))) {
        for bay in 0..64 {
            let bays = if low == high { vec![low, bay] } else { vec![low, high, bay] };
            let at = bays.len() as u8 - 1;
            let mut steps: Vec<u64> = bays.iter().map(|&b| Step::word(1, b, 0, 0)).collect();
            steps.push(Step::word(8, 0, 0, 0));
            // one that is above fails at the end, still holding
            let (number, at) = if bay > low && bay > high { (6, at + 1) } else { (7, at) };
            assert_eq!(check(&steps), Err(Refusal { number, at }));
        }
    }
}

/// The lines that `board` prints for a drop resumed behind its lock store, the bay free or taken by desk 1 meanwhile.
pub fn printed() {
    let hand_in = |desk: u8| {
        let steps = "0001000300000000000300180000000500020003000000000008000000000000";
        format!("01{desk:02x}{:016x}{}{steps}\n", 1, "0".repeat(128))
    };
    let last = |text: String| {
        let mut out = vec![];
        frames::board(text.as_bytes(), &mut out).unwrap();
        // behind the lines of fifteen turns and three of the recovery
        String::from_utf8(out).unwrap().split_off(22 * (15 + 3))
    };
    let cut = format!("02\n{}0200000f\n03\n", hand_in(0));
    let passed = |report| format!("024f 0000000000000000\nfffe {report:016x}\n024e 0000000000000000\n");
    assert_eq!(last(format!("{cut}02000003\n")), passed(0));
    let taken = "02a0 0000000000000008\n020b 0000000000000002\n";
    assert_eq!(last(format!("{cut}{}02010002\n02000003\n", hand_in(1))), taken.to_string() + &passed(1));
}
