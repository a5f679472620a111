//! Buffers to lend, with guard bytes around them.

use samples::Rng;

/// Bytes on each side that no call may touch.
const GUARD: usize = 64;

/// A buffer of random bytes between guards.
#[derive(Clone, PartialEq, Eq)]
pub(crate) struct Lent(Vec<u8>);

impl Lent {
    /// A buffer of this length.
    pub(crate) fn new(rng: &mut Rng, length: usize) -> Self {
        Self(rng.bytes(length + 2 * GUARD))
    }

    /// A buffer that holds these bytes.
    pub(crate) fn of(rng: &mut Rng, bytes: &[u8]) -> Self {
        let mut lent = Self::new(rng, bytes.len());
        lent.part().copy_from_slice(bytes);
        lent
    }

    /// The part to lend.
    pub(crate) fn part(&mut self) -> &mut [u8] {
        let end = self.0.len() - GUARD;
        &mut self.0[GUARD..end]
    }

    /// Asserts that nothing but the first `written` bytes of the lent part differs from before.
    pub(crate) fn assert_rest(&self, before: &Self, written: usize) {
        let from = GUARD + written;
        assert!(self.0[..GUARD] == before.0[..GUARD], "bytes before the buffer changed");
        assert!(self.0[from..] == before.0[from..], "bytes past the answer changed");
    }
}
