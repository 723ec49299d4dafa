//! Totals, by their two words alone: what a sum or a difference must be, and whether it meets an end of the words. It is
//! worked out in wider numbers, and neither engine is asked.

/// The ends that a total can meet, for the report.
pub const ENDS: [&str; 4] =
    ["sums just at the top", "sums that stopped", "differences of just 0", "differences that stopped"];

/// Where `ENDS` has what stopped.
const STOPPED: [usize; 2] = [1, 3];

pub struct Total {
    pub value: u64,
    /// Which of `ENDS` it meets.
    pub meets: Option<usize>,
}

impl Total {
    pub fn stopped(&self) -> bool {
        self.meets.is_some_and(|end| STOPPED.contains(&end))
    }
}

/// The total that an instruction gives, by what its word numbers hold; none where it is of another kind than 4 and 5.
pub fn of(instruction: u64, load: impl Fn(usize) -> u64) -> Option<Total> {
    let field = |shift: u32| (instruction >> shift & 0xffff) as usize;
    let (first, second) = (|| load(field(16)) as i128, || load(field(0)) as i128);
    let top = u64::MAX as i128;
    let (exact, end, just) = match field(48) {
        4 => (first() + second(), top, 0),
        5 => (first() - second(), 0, 2),
        _ => return None,
    };
    let meets = match (0..=top).contains(&exact) {
        true => (exact == end).then_some(just),
        false => Some(just + 1),
    };
    Some(Total { value: exact.clamp(0, top) as u64, meets })
}
