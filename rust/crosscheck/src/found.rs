//! A difference, and how it is told.

use crate::call::{Call, Given, Lent};
use crate::passes;

/// A difference: where it is and all that repeats it.
pub struct Difference {
    pub call: Call,
    pub lent: Lent,
    pub ours: Given,
    pub twins: Given,
    /// The first word of the image that differs: its index, ours and the twin's.
    pub word: Option<(usize, u64, u64)>,
    /// The owner words' mask, where both left another one and must not.
    pub owned: Option<u64>,
}

/// What differs: what a call gives, what a section's held sets are, or something that is told in words: what the check
/// says of a section, how many turns it needs or took, what it logged, what became of a board that changed over, or what
/// a recorded day comes to.
pub enum Found {
    Call(Box<Difference>),
    Pass(Box<passes::Difference>),
    Told(String),
}

impl From<Box<Difference>> for Found {
    fn from(call: Box<Difference>) -> Found {
        Found::Call(call)
    }
}

impl From<Box<passes::Difference>> for Found {
    fn from(pass: Box<passes::Difference>) -> Found {
        Found::Pass(pass)
    }
}

impl From<String> for Found {
    fn from(told: String) -> Found {
        Found::Told(told)
    }
}

pub fn tell(seed: u64, list: u64, call: u64, found: &Found) {
    println!("DIFFERENCE in list {list}, call {call}, seed {seed}");
    println!("to repeat: crosscheck 1 {seed} {list}");
    match found {
        Found::Call(difference) => tell_call(difference),
        Found::Pass(difference) => passes::tell(difference),
        Found::Told(difference) => println!("{difference}"),
    }
}

fn tell_call(d: &Difference) {
    println!("call:  {:x?}", d.call);
    println!("lent:  {:?}", d.lent);
    println!("ours:  {:?}", d.ours);
    println!("twin:  {:?}", d.twins);
    match d.word {
        Some((index, ours, twins)) => {
            println!("image word {index}: ours {ours:#x}, twin {twins:#x}")
        }
        None => println!("the images are the same"),
    }
    if let Some(owned) = d.owned {
        println!("the owner words' mask is {owned:#x}, and the one left {:#x}", d.ours.lent.held);
    }
}
