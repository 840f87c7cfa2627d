//! Stand-in for the crate foldhash, which Debian 12 does not package. It has only what the published files use:
//! `fast::RandomState`. The maps that take it keep insertion order, so no answer may depend on the hash; the seed is
//! there to show that.

use std::sync::atomic::{AtomicU64, Ordering};

static SEED: AtomicU64 = AtomicU64::new(0);

/// Sets the seed of every hasher made from now on.
pub fn set_seed(seed: u64) {
    SEED.store(seed, Ordering::Relaxed);
}

pub mod fast {
    use super::{Ordering, SEED};
    use std::hash::{BuildHasher, Hasher};

    #[derive(Clone)]
    pub struct RandomState(u64);

    impl Default for RandomState {
        fn default() -> Self {
            RandomState(SEED.load(Ordering::Relaxed))
        }
    }

    impl BuildHasher for RandomState {
        type Hasher = FoldHasher;

        fn build_hasher(&self) -> FoldHasher {
            FoldHasher(self.0 ^ 0x9e37_79b9_7f4a_7c15)
        }
    }

    pub struct FoldHasher(u64);

    impl Hasher for FoldHasher {
        fn write(&mut self, bytes: &[u8]) {
            for &b in bytes {
                self.write_u64(u64::from(b));
            }
        }

        fn write_u32(&mut self, x: u32) {
            self.write_u64(u64::from(x));
        }

        fn write_u64(&mut self, x: u64) {
            // Both halves of the product, so that high and low bits all depend on x.
            let wide = u128::from(self.0 ^ x) * 0xd6e8_feb8_6659_fd93;
            self.0 = (wide as u64 ^ (wide >> 64) as u64).wrapping_add(0x2545_f491_4f6c_dd1d);
        }

        fn write_usize(&mut self, x: usize) {
            self.write_u64(x as u64);
        }

        fn finish(&self) -> u64 {
            self.0
        }
    }
}
