//! Looking into an image: what its words are for. Nothing is changed, and nothing is asked of the library but whether
//! the image is one, and has the worker.
//!
//! For programs that show a board to people. What an image *means* (whether a section is begun, how many turns are left)
//! is asked of the library: [`standing`](crate::standing), [`turns_left`](crate::turns_left).

use crate::{cell_index, finished, image_len, owner_index, Refusal, CELLS, LOCKS, STEPS, WORKERS};

/// What an image has at an index: document 01's layout, the other way round.
#[derive(Clone, Copy, PartialEq, Eq, Hash, Debug)]
pub enum Place {
    /// Words 0 to 7: the mark of a finished formatting, the number of workers, and zeros.
    Header(usize),
    /// A cell (document 01's board word), 0 to 511.
    Cell(usize),
    /// The owner word of a lock (its lock word), 0 to 63: 0 if it is free, w + 1 if worker w has it.
    Owner(usize),
    /// A word of a worker's record.
    Record {
        /// Whose.
        worker: usize,
        /// Which.
        word: RecordWord,
    },
}

/// A word of a worker's record, with document 01's name where that is another.
#[derive(Clone, Copy, PartialEq, Eq, Hash, Debug)]
pub enum RecordWord {
    /// The number of steps; 0 if there is no section.
    Count,
    /// The step recorded last (document 01's place).
    Pc,
    /// The image index that a log entry, 0 or 1, is to store at.
    Address(usize),
    /// What that entry is to store.
    Value(usize),
    /// The locks that the worker has or is about to have, a bit each (document 01's intention mask).
    Intent,
    /// The locks that its steps have acquired and not released (its ownership mask).
    Owned,
    /// The section's number.
    Number,
    /// The last finished number.
    Finished,
    /// An own word, 0 to 7.
    Own(usize),
    /// An instruction, 0 to 63.
    Step(usize),
}

/// The first record, and the words of one.
const RECORDS: usize = image_len(0);
const RECORD: usize = image_len(1) - RECORDS;

// Where a record has what.
const OWN: usize = 10;
const OWN_WORDS: usize = 8;
const STEP: usize = OWN + OWN_WORDS;

impl RecordWord {
    const fn of(offset: usize) -> RecordWord {
        match offset {
            0 => RecordWord::Count,
            1 => RecordWord::Pc,
            2 | 4 => RecordWord::Address(offset / 2 - 1),
            3 | 5 => RecordWord::Value(offset / 2 - 1),
            6 => RecordWord::Intent,
            7 => RecordWord::Owned,
            8 => RecordWord::Number,
            9 => RecordWord::Finished,
            OWN..STEP => RecordWord::Own(offset - OWN),
            _ => RecordWord::Step(offset - STEP),
        }
    }

    const fn offset(self) -> usize {
        match self {
            RecordWord::Count => 0,
            RecordWord::Pc => 1,
            RecordWord::Address(entry) => 2 + 2 * entry,
            RecordWord::Value(entry) => 3 + 2 * entry,
            RecordWord::Intent => 6,
            RecordWord::Owned => 7,
            RecordWord::Number => 8,
            RecordWord::Finished => 9,
            RecordWord::Own(word) => OWN + word,
            RecordWord::Step(step) => STEP + step,
        }
    }
}

impl Place {
    /// What stands at an index of an image of eight workers; one with fewer is shorter. None behind its end.
    pub const fn of(index: usize) -> Option<Place> {
        if index < cell_index(0) {
            return Some(Place::Header(index));
        }
        if index < cell_index(CELLS) {
            return Some(Place::Cell(index - cell_index(0)));
        }
        if index < owner_index(LOCKS) {
            return Some(Place::Owner(index - owner_index(0)));
        }
        if index >= image_len(WORKERS) {
            return None;
        }
        let (worker, offset) = ((index - RECORDS) / RECORD, (index - RECORDS) % RECORD);
        Some(Place::Record { worker, word: RecordWord::of(offset) })
    }

    /// The index at which it stands. (A number that there is not, a cell 512 say, has no index of its own.)
    pub const fn index(self) -> usize {
        match self {
            Place::Header(word) => word,
            Place::Cell(cell) => cell_index(cell),
            Place::Owner(lock) => owner_index(lock),
            Place::Record { worker, word } => RECORDS + RECORD * worker + word.offset(),
        }
    }
}

/// A log entry: a store that is noted.
#[derive(Clone, Copy, PartialEq, Eq, Hash, Debug)]
pub struct Entry {
    /// The image index, as a whole word.
    pub address: u64,
    /// What is to be stored there.
    pub value: u64,
}

/// A worker's record, as the image has it: any words may stand in it.
#[derive(Clone, Copy, PartialEq, Eq, Hash, Debug)]
pub struct Record {
    /// The number of steps; 0 if there is no section.
    pub count: u64,
    /// The step recorded last, plus 1, plus 2^63 where entry 1 is active; 0 if no section is begun.
    pub pc: u64,
    /// The two log entries.
    pub entries: [Entry; 2],
    /// The locks that the worker has or is about to have.
    pub intent: u64,
    /// The locks that its steps have acquired and not released.
    pub owned: u64,
    /// The section's number, or that of the last one.
    pub number: u64,
    /// The last finished number.
    pub finished: u64,
    /// The own words.
    pub own: [u64; OWN_WORDS],
    /// The instructions; those from the count up are what earlier sections left.
    pub steps: [u64; STEPS],
}

impl Record {
    /// A worker's record. Refuses with causes 10 and 1, as the library's questions do.
    ///
    /// ```
    /// use zilpanud::code::{acquire, finish, release, set};
    /// use zilpanud::Record;
    ///
    /// let section = [acquire(3), set(24, 5), release(3), finish()];
    /// let mut image = vec![0; zilpanud::image_len(1)];
    /// let mut cursors = zilpanud::format(&mut image, 1)?;
    /// zilpanud::submit(&mut image, &mut cursors, 0, 7, &[40, 0, 0, 0, 0, 0, 0, 0], &section)?;
    /// for _ in 0..5 {
    ///     zilpanud::turn(&mut image, &mut cursors, 0)?;
    /// }
    ///
    /// let record = Record::of(&image, 0)?;
    /// assert_eq!((record.number, record.finished, record.own[0]), (7, 0, 40));
    /// assert_eq!(record.section(), Some(&section[..]));
    /// assert_eq!((record.recorded(), record.intent, record.owned), (Some(0), 1 << 3, 0));
    /// # Ok::<(), zilpanud::Refusal>(())
    /// ```
    pub fn of(image: &[u64], worker: usize) -> Result<Record, Refusal> {
        finished(image, worker)?; // asks 10 and 1, so that the record is inside
        let word = |word: RecordWord| image[Place::Record { worker, word }.index()];
        let entry = |at| Entry { address: word(RecordWord::Address(at)), value: word(RecordWord::Value(at)) };
        Ok(Record {
            count: word(RecordWord::Count),
            pc: word(RecordWord::Pc),
            entries: [entry(0), entry(1)],
            intent: word(RecordWord::Intent),
            owned: word(RecordWord::Owned),
            number: word(RecordWord::Number),
            finished: word(RecordWord::Finished),
            own: std::array::from_fn(|at| word(RecordWord::Own(at))),
            steps: std::array::from_fn(|at| word(RecordWord::Step(at))),
        })
    }

    /// The section, begun or not; none if the count is 0, or above 64, as no library leaves it.
    pub fn section(&self) -> Option<&[u64]> {
        let count = usize::try_from(self.count).ok()?;
        self.steps.get(..count).filter(|section| !section.is_empty())
    }

    /// The number of the step that the pc names; none if it is 0. (A damaged image may name a step that the section has
    /// not.)
    pub const fn recorded(&self) -> Option<u64> {
        (self.pc << 1 >> 1).checked_sub(1)
    }

    /// The active log entry: the store of the step that the pc names.
    pub const fn active(&self) -> Entry {
        self.entries[(self.pc >> 63) as usize]
    }
}

#[cfg(test)]
mod tests {
    use super::*;
    use crate::Cause;

    #[test]
    fn every_index_has_its_place() {
        for index in 0..image_len(WORKERS) {
            assert_eq!(Place::of(index).map(Place::index), Some(index));
        }
        for index in [image_len(WORKERS), usize::MAX] {
            assert_eq!(Place::of(index), None);
        }
    }

    /// The indices of document 01's listing, and the ends of its parts.
    #[test]
    fn places_of_document_01() {
        let of_0 = |word| Some(Place::Record { worker: 0, word });
        assert_eq!(Place::of(0x24e), of_0(RecordWord::Intent));
        assert_eq!(Place::of(0x20b), Some(Place::Owner(3)));
        assert_eq!(Place::of(0x24c), of_0(RecordWord::Address(1)));
        assert_eq!(Place::of(0x24d), of_0(RecordWord::Value(1)));
        assert_eq!(Place::of(0x24f), of_0(RecordWord::Owned));
        assert_eq!(Place::of(0x249), of_0(RecordWord::Pc));
        assert_eq!((Place::of(7), Place::of(8)), (Some(Place::Header(7)), Some(Place::Cell(0))));
        assert_eq!((Place::of(519), Place::of(583)), (Some(Place::Cell(511)), Some(Place::Owner(63))));
        assert_eq!((Place::of(584), Place::of(665)), (of_0(RecordWord::Count), of_0(RecordWord::Step(63))));
        assert_eq!(Place::of(666), Some(Place::Record { worker: 1, word: RecordWord::Count }));
    }

    #[test]
    fn what_is_no_record_is_refused() {
        let mut image = vec![0; image_len(2)];
        assert_eq!(Record::of(&image, 0), Err(Refusal(Cause::Image)));
        crate::format(&mut image, 2).unwrap();
        assert_eq!(Record::of(&image, 2), Err(Refusal(Cause::Worker)));
        assert_eq!(Record::of(&image, usize::MAX), Err(Refusal(Cause::Worker)));
        assert_eq!(Record::of(&image[..700], 0), Err(Refusal(Cause::Image)));
        assert_eq!(Record::of(&[], 0), Err(Refusal(Cause::Image)));
    }

    #[test]
    fn odd_words_are_no_section_and_no_step() {
        let mut image = vec![0; image_len(1)];
        crate::format(&mut image, 1).unwrap();
        let at = |word| Place::Record { worker: 0, word }.index();
        for count in [65, 1 << 32, u64::MAX] {
            image[at(RecordWord::Count)] = count;
            assert_eq!(Record::of(&image, 0).unwrap().section(), None);
        }
        for (pc, step) in [
            (0, None),
            (1 << 63, None),
            (1, Some(0)),
            (1 << 63 | 64, Some(63)),
            (u64::MAX, Some(u64::MAX / 2 - 1)),
        ] {
            image[at(RecordWord::Pc)] = pc;
            assert_eq!(Record::of(&image, 0).unwrap().recorded(), step);
        }
    }
}
