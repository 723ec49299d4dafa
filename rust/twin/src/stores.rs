//! Which stores are made.

/// Decides whether a store is made (the stores left), and may watch it.
pub trait Meter {
    fn admit(&mut self, index: usize, value: u64) -> bool;
}

/// The stores left.
pub struct Left(pub u64);

impl Meter for Left {
    #[inline(always)]
    fn admit(&mut self, _: usize, _: u64) -> bool {
        if self.0 == 0 {
            return false;
        }
        self.0 -= 1;
        true
    }
}

/// Unlimited stores, each shown to a watcher.
pub struct Watched<F: FnMut(usize, u64)>(pub F);

impl<F: FnMut(usize, u64)> Meter for Watched<F> {
    #[inline(always)]
    fn admit(&mut self, index: usize, value: u64) -> bool {
        (self.0)(index, value);
        true
    }
}
