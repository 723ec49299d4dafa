//! No function panics, whatever it is given.

mod common;

use common::{World, ODD, TICKET};
use zilpanud::code::*;
use zilpanud::cut::{self, ENOUGH};
use zilpanud::{Cause, Cursors, Refusal, Why};

const WORKERS: [usize; 7] = [0, 1, 2, 7, 8, 1 << 32, usize::MAX];
const NUMBERS: [u64; 4] = [0, 1, 1 << 63, u64::MAX];
const CURSORS: [Cursors; 3] = [
    Cursors::IDLE,
    Cursors { step: [0; 8], turn: [0; 8], held: 1 << 63 },
    Cursors { step: [255; 8], turn: [254; 8], held: u64::MAX },
];

/// Images of every length up to one more than the longest has, all words the same.
fn images() -> impl Iterator<Item = Vec<u64>> {
    let words = [0, 1, 8, u64::MAX];
    words.into_iter().flat_map(|word| (0..=1241).map(move |len| vec![word; len]))
}

/// Every call on an image with a worker; a call that is not refused may have changed it.
fn all_calls(image: &mut [u64], worker: usize) {
    for mut at in CURSORS {
        for number in NUMBERS {
            let _ = zilpanud::submit(image, &mut at, worker, number, &[number; 8], &TICKET);
            let _ = zilpanud::standing(image, worker, number);
        }
        let _ = zilpanud::turn(image, &mut at, worker);
        let _ = zilpanud::run(image, &mut at, u16::MAX);
        assert!(at.locks_held() <= 64);
        let _ = at.holds(worker);
        let _ = zilpanud::is_idle(image, &at, worker);
        let _ = zilpanud::finished(image, worker);
    }
    let _ = zilpanud::turns_left(image, worker);
    let _ = zilpanud::recover(image);
    let _ = zilpanud::format(image, worker);
}

#[test]
fn calls() {
    for mut image in images() {
        for worker in WORKERS {
            all_calls(&mut image, worker);
        }
    }
}

#[test]
fn an_empty_image_is_refused() {
    let no = Refusal(Cause::Image);
    let (image, at) = (&mut [][..], &mut { ODD });
    assert_eq!(zilpanud::format(image, 1), Err(no));
    assert_eq!(zilpanud::submit(image, at, 0, 1, &[0; 8], &TICKET), Err(no));
    assert_eq!(zilpanud::turn(image, at, 0), Err(no));
    assert_eq!(zilpanud::run(image, at, 1).map_err(Refusal::from), Err(no));
    assert_eq!(*at, ODD);
    assert_eq!(zilpanud::recover(image), Err(no));
    assert_eq!(zilpanud::is_idle(image, at, 0), Err(no));
    assert_eq!(zilpanud::finished(image, 0), Err(no));
    assert_eq!(zilpanud::standing(image, 0, 1), Err(no));
    assert_eq!(zilpanud::turns_left(image, 0), Err(no));
    assert_eq!(cut::recover(image, at, &mut { ENOUGH }), Err(no));
    assert_eq!(*at, Cursors::IDLE);
}

#[test]
fn sections() {
    for word in [0, 1 << 48, 8 << 48, u64::MAX, finish()] {
        for len in 0..=66 {
            let section = vec![word; len];
            let fault = zilpanud::check(&section).unwrap_err();
            assert!(!fault.to_string().is_empty() && fault.why() != Why::Unexplained, "{fault:?}");
            assert!(zilpanud::held_sets(&section).is_err());
            for number in NUMBERS {
                assert!(zilpanud::turns_from(&section, number).is_err());
                let _ = zilpanud::turns_of_path(&section, &[number; 3]);
            }
            let _ = zilpanud::turns_of_path(&section, &section);
            assert!(World::formatted(1).submit(0, 1, &section).is_err());
        }
    }
}

#[test]
fn sizes_end_at_the_largest() {
    for sum in [zilpanud::image_len, zilpanud::cell_index, zilpanud::owner_index] {
        assert_eq!(sum(usize::MAX), usize::MAX);
    }
}

/// Fields that no kind has make words that the check refuses, also where a sum of them would come round.
#[test]
fn fields_out_of_range_are_refused() {
    let max = u16::MAX;
    assert_eq!((own(8), own(max)), (520, max));
    let wrong = [
        set(own(8), 0),
        set(own(max), u32::MAX),
        set(own(max - 511), 0),
        add(own(0), own(max), 0),
        sub(max, max, max),
        less(own(8), own(0), own(0)),
        jump_if_zero(own(0), max),
        acquire(lock_of(max)),
        release(max),
        instruction(max, max, max, max),
    ];
    for word in wrong {
        let section = [acquire(3), word, release(3), finish()];
        let no = Refusal(Cause::Malformed { step: 1 });
        assert_eq!(zilpanud::check(&section).map_err(Refusal::from), Err(no));
        assert_eq!(zilpanud::held_sets(&section), Err(no));
        assert_eq!(zilpanud::turns_from(&section, 0), Err(no));
        assert_eq!(zilpanud::turns_of_path(&section, &[0, 1]), Err(no));
    }
}
