// Ours: stands in for src/block/mod.rs of the reference, which is not among the files at hand. A block is one 64-bit word, and its order is
// that of the word.
mod default;
pub use default::Block;

use core::cmp::Ordering;
use core::hash::{Hash, Hasher};

impl Block {
    pub const USIZE_COUNT: usize = 1;
    pub const BITS: usize = usize::BITS as usize;
    pub const NONE: Self = Block(0);

    #[inline]
    pub const fn into_usize_array(self) -> [usize; Self::USIZE_COUNT] {
        [self.0]
    }
}

impl Eq for Block {}

impl PartialOrd for Block {
    #[inline]
    fn partial_cmp(&self, other: &Self) -> Option<Ordering> {
        Some(self.cmp(other))
    }
}

impl Ord for Block {
    #[inline]
    fn cmp(&self, other: &Self) -> Ordering {
        self.0.cmp(&other.0)
    }
}

impl Hash for Block {
    #[inline]
    fn hash<H: Hasher>(&self, state: &mut H) {
        self.0.hash(state);
    }
}
