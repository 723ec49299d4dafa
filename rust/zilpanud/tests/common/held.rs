//! What the tests of the locks held have in common.

use super::*;
use zilpanud::owner_index;

/// The ticket's turns that set and clear bit 3, and all of them.
pub const ACQUIRES: usize = 2;
pub const FREES: usize = 15;
pub const TURNS: usize = 19;

/// Masks for a call that must not go by the one that it is given.
pub const MASKS: [u64; 5] = [0, ONLY_3, !ONLY_3, u64::MAX, ODD.held];

/// A mask of these locks.
pub fn mask(locks: &[usize]) -> u64 {
    locks.iter().fold(0, |mask, lock| mask | 1 << lock)
}

/// Document 02: the number of ones "equals the count of lock words other than 0". And bit by bit it is those words.
pub fn as_owned(world: &World) {
    let owned: Vec<usize> = (0..64).filter(|&lock| world.image[owner_index(lock)] != 0).collect();
    let held: Vec<usize> = (0..64).filter(|&lock| world.at.holds(lock)).collect();
    assert_eq!((&held, world.at.held), (&owned, mask(&owned)));
    assert_eq!(world.at.locks_held(), owned.len());
}

pub fn stores(world: &mut World, worker: usize, turns: usize) {
    for _ in 0..turns {
        assert!(matches!(world.turn(worker), Ok(Turn::Stored(_))));
    }
}

/// Two workers: worker 0 has freed lock 3, was cut there and is recovered.
pub fn freed_and_recovered() -> World {
    let mut world = World::formatted(2);
    world.submit(0, 1, &TICKET).unwrap();
    stores(&mut world, 0, FREES);
    world.recover().unwrap();
    world
}

/// A call that stores nothing leaves the mask that it is given, whatever that is. All is then as before.
pub fn kept(world: &mut World, call: impl Fn(&mut World)) {
    let at = world.at;
    for given in MASKS {
        world.at = Cursors { held: given, ..at };
        call(world);
        assert_eq!(world.at.held, given);
    }
    world.at = at;
}
