//! Bytes to lend, with guard bytes on both sides that nobody may touch.

use model::rng::Rng;

/// Without guards a tool that watches the heap sees every byte past the end.
#[derive(Clone, Copy)]
pub struct Guard(pub usize);

#[derive(Clone, PartialEq, Eq)]
pub struct Lent {
    bytes: Box<[u8]>,
    guard: usize,
}

impl Lent {
    /// These bytes, between guards of noise.
    pub fn of(bytes: &[u8], guard: Guard, rng: &mut Rng) -> Lent {
        let mut lent = Lent::noise(bytes.len(), guard, rng);
        lent.slice().copy_from_slice(bytes);
        lent
    }

    /// Noise.
    pub fn noise(length: usize, Guard(guard): Guard, rng: &mut Rng) -> Lent {
        let mut bytes = vec![0; length + 2 * guard].into_boxed_slice();
        for part in bytes.chunks_mut(8) {
            part.copy_from_slice(&rng.draw().to_le_bytes()[..part.len()]);
        }
        Lent { bytes, guard }
    }

    pub fn slice(&mut self) -> &mut [u8] {
        let end = self.bytes.len() - self.guard;
        &mut self.bytes[self.guard..end]
    }
}
