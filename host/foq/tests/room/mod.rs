//! A room that is lent dirty and looked at afterwards.

use crate::lent::Lender;

/// A room to lend.
pub struct Room(Lender);

impl Room {
    /// For lengths up to this one.
    pub fn up_to(most: usize) -> Room {
        Room(Lender::up_to(most))
    }

    /// Lends a room of this length. Asserts that it comes back with these
    /// bytes written from its first one on, and its rest as it was.
    pub fn lend<T>(
        &mut self,
        length: usize,
        written: &[u8],
        call: impl FnOnce(&mut [u8]) -> T,
    ) -> T {
        let look = |before: &[u8], after: &[u8]| {
            let (front, rest) = after.split_at(written.len());
            assert!(front == written);
            assert!(rest == &before[written.len()..]);
        };
        self.0.lend(length, call, look)
    }
}
