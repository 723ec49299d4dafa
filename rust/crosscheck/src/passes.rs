//! The held sets of a section: as the library's call leaves them in words that it is lent, as the wrapper gives them,
//! and as the twin does.

use zilpanud::STEPS;

unsafe extern "C" {
    /// As `include/zilpanud.h` declares it. The wrapper lends words of its own that are 0, in which one does not see
    /// whether all of them are written.
    fn zilpanud_held_sets(words: *const u64, words_len: usize, sets: *mut u64, detail: *mut u64) -> u64;
}

/// An answer's number and what goes with it.
type Told = (u64, u64);

/// A pass over a section.
#[derive(Clone, PartialEq, Eq, Debug)]
pub struct Pass {
    /// What the check says of the section.
    pub checked: Told,
    pub told: Told,
    /// The 64 words that it was lent, as they are then: the sets, or where it is refused all 0.
    pub words: [u64; STEPS],
}

/// A pass that differs from the twin's.
pub struct Difference {
    pub section: Vec<u64>,
    pub who: &'static str,
    pub ours: Pass,
    pub twins: Pass,
}

fn of_ours<T>(result: &Result<T, zilpanud::Refusal>) -> Told {
    result.as_ref().map_or_else(|no| (no.0.number(), no.0.detail().unwrap_or(0)), |_| (0, 0))
}

fn checked(section: &[u64]) -> Told {
    of_ours(&zilpanud::check(section).map_err(Into::into))
}

fn of_twins<T>(result: &Result<T, twin::Refusal>) -> Told {
    result.as_ref().map_or_else(|no| (no.number as u64, no.at as u64), |_| (0, 0))
}

fn library(section: &[u64], lent: [u64; STEPS]) -> Pass {
    let (mut words, mut detail) = (lent, lent[0]);
    let (steps, count) = (section.as_ptr(), section.len());
    // SAFETY: every pointer comes from a live reference of its own, to as many words as the call asks for.
    let answer = unsafe { zilpanud_held_sets(steps, count, words.as_mut_ptr(), &mut detail) };
    Pass { checked: checked(section), told: (answer, detail), words }
}

fn wrapper(section: &[u64]) -> Pass {
    let sets = zilpanud::held_sets(section);
    Pass { checked: checked(section), told: of_ours(&sets), words: sets.unwrap_or([0; STEPS]) }
}

fn twins(section: &[u64]) -> Pass {
    let sets = twin::held_sets(section);
    Pass {
        checked: of_twins(&twin::check(section)),
        told: of_twins(&sets),
        words: sets.unwrap_or([0; STEPS]),
    }
}

/// Compares the passes over a section.
pub fn compared(section: &[u64]) -> Result<Pass, Box<Difference>> {
    // no two of the words are the same, and none is a set that a section is likely to have
    let lent = std::array::from_fn(|i| 0x96a5_c3f0_5a69_0f3d_u64.rotate_left(i as u32));
    let twins = twins(section);
    for (who, ours) in [("library", library(section, lent)), ("wrapper", wrapper(section))] {
        if ours != twins {
            return Err(Box::new(Difference { section: section.to_vec(), who, ours, twins }));
        }
    }
    Ok(twins)
}

pub fn tell(d: &Difference) {
    println!("held sets of: {:x?}", d.section);
    println!("check, answer with detail, of the {}: {:?}, {:?}", d.who, d.ours.checked, d.ours.told);
    println!("the same of the twin: {:?}, {:?}", d.twins.checked, d.twins.told);
    for (i, (ours, twins)) in d.ours.words.iter().zip(d.twins.words).enumerate() {
        if *ours != twins {
            println!("word {i}: {} {ours:#x}, twin {twins:#x}", d.who);
        }
    }
}
