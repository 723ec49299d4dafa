//! The sums of a recorded day (7/14): who waited, how often, and for which bay.
use crate::player::{play, Watch};
use crate::Answer;
use std::io;

/// Sums over the turns of a whole day's lines, those of 02 and of 04 alike, across cuts. Turns of idle desks and refused turns are
/// in none. Each number stops at 2^64 - 1 by itself.
#[derive(Clone, Copy, PartialEq, Eq, Debug)]
pub struct DaySums {
    /// For each bay the turns that answered waiting on it.
    pub bays: [u64; 64],
    /// For each desk its turns that waited; 0 from D up.
    pub waited: [u64; 8],
    /// And those that did not: they stored or passed.
    pub moved: [u64; 8],
    /// 0 where all lines were read, 14 where a line is malformed, 10 where formatting refuses the first line's D.
    pub cause: u64,
    /// The lines read, the one that stopped it too.
    pub read: u64,
}

impl DaySums {
    /// Of no lines.
    pub const NONE: DaySums = DaySums { bays: [0; 64], waited: [0; 8], moved: [0; 8], cause: 0, read: 0 };
}

impl Watch for DaySums {
    fn line(&mut self, _: usize, _: u64) -> io::Result<()> {
        Ok(())
    }
    fn turned(&mut self, desk: usize, answer: Answer) {
        match answer {
            Answer::Waiting(bay) => {
                one_more(&mut self.bays[bay as usize]);
                one_more(&mut self.waited[desk]);
            }
            Answer::Stored(_) | Answer::Passed(_) => one_more(&mut self.moved[desk]),
            Answer::Idle => (),
        }
    }
}

fn one_more(sum: &mut u64) {
    *sum = sum.saturating_add(1);
}

/// The sums of a day's bytes; where reading stops early, those up to there.
pub fn day_sums(bytes: &[u8]) -> DaySums {
    let mut sums = DaySums::NONE;
    let ended = play(bytes, &mut sums).expect("bytes are read and nothing is written");
    DaySums { cause: ended.cause, read: ended.lines, ..sums }
}
