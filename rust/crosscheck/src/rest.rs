//! Boards that change over: images at rest, with any words that the lists of an earlier version may have left there.

use crate::call::Given;
use crate::rng::Rng;
use twin::{BOARD, COUNT, HEAD, INTENT, LAST, LOCKS, OWNER, PLACE, REC};

/// The words of a record that are 0 where it is at rest.
const AT_REST: [usize; 4] = [COUNT, PLACE, INTENT, OWNER];

/// A finished number: none yet, a small one, one near the last that there is, or any.
fn finished(r: &mut Rng) -> u64 {
    match r.below(10) {
        0..=2 => 0,
        3..=5 => 1 + r.below(9),
        6..=7 => u64::MAX - r.below(4),
        _ => r.total(),
    }
}

/// Changes a formatted image into one that changes over. Owner words, counts, pcs, intents and owned sets stay 0; all
/// other words behind the header may be anything.
pub fn put(r: &mut Rng, image: &mut [u64]) {
    let anything = |r: &mut Rng| if r.chance(50) { r.total() } else { 0 };
    image[BOARD..LOCKS].fill_with(|| r.total());
    for record in image[HEAD..].chunks_exact_mut(REC) {
        for (offset, word) in record.iter_mut().enumerate() {
            match offset {
                LAST => *word = finished(r),
                _ if AT_REST.contains(&offset) => {}
                _ => *word = anything(r),
            }
        }
    }
}

/// An image at rest that a recovery was made of: it is accepted, changes no word, and finds all workers idle.
pub fn stays(before: &[u64], given: &Given, after: &[u64]) -> Result<(), String> {
    let owners = before[LOCKS..HEAD].iter();
    let records = before[HEAD..].chunks_exact(REC).flat_map(|record| AT_REST.map(|offset| &record[offset]));
    if owners.chain(records).any(|word| *word != 0) {
        return Err("all workers are idle, and the image is not at rest".to_string());
    }
    let idle = given.lent.turn == [255; 8] && given.lent.held == 0;
    match given.answer == 0 && idle && before == after {
        true => Ok(()),
        false => Err(format!("a board at rest is not left as it is by a recovery: {given:?}")),
    }
}

/// The finished numbers of the workers of an image.
pub fn finished_numbers(image: &[u64]) -> Vec<u64> {
    image[HEAD..].chunks_exact(REC).map(|record| record[LAST]).collect()
}
