//! Stand-in for the crate priority-queue, which Debian 12 does not package. It has only what the published files use:
//! `with_capacity`, `push`, `pop` and `get`.
//!
//! The real queue leaves the order of equal priorities open. Here seed 0 pops the item that was pushed first; the
//! published files push node 0, 1 and so on before they pop any, so that is the lowest node number. Another seed
//! ranks equal items by a mix of seed and place, so other choices can be seen.

use std::cmp::Reverse;
use std::collections::HashMap;
use std::hash::Hash;
use std::sync::atomic::{AtomicU64, Ordering};

static SEED: AtomicU64 = AtomicU64::new(0);

/// Sets the seed of every queue made from now on.
pub fn set_seed(seed: u64) {
    SEED.store(seed, Ordering::Relaxed);
}

pub struct PriorityQueue<I, P> {
    seed: u64,
    // Items in the order of their first push; None once popped.
    slots: Vec<Option<(I, P)>>,
    places: HashMap<I, usize>,
}

impl<I: Hash + Eq + Clone, P: Ord> PriorityQueue<I, P> {
    pub fn with_capacity(capacity: usize) -> Self {
        PriorityQueue {
            seed: SEED.load(Ordering::Relaxed),
            slots: Vec::with_capacity(capacity),
            places: HashMap::with_capacity(capacity),
        }
    }

    /// Puts the item in, or alters its priority if it is there, handing back the old one.
    pub fn push(&mut self, item: I, priority: P) -> Option<P> {
        if let Some(&place) = self.places.get(&item) {
            let slot = self.slots[place].as_mut().unwrap();
            return Some(std::mem::replace(&mut slot.1, priority));
        }
        self.places.insert(item.clone(), self.slots.len());
        self.slots.push(Some((item, priority)));
        None
    }

    /// Takes out an item of the greatest priority.
    pub fn pop(&mut self) -> Option<(I, P)> {
        let place = self
            .slots
            .iter()
            .enumerate()
            .filter_map(|(place, slot)| {
                slot.as_ref()
                    .map(|(_, p)| (p, Reverse(self.rank(place)), place))
            })
            .max_by(|a, b| (a.0, a.1).cmp(&(b.0, b.1)))?
            .2;
        let (item, priority) = self.slots[place].take().unwrap();
        self.places.remove(&item);
        Some((item, priority))
    }

    pub fn get(&self, item: &I) -> Option<(&I, &P)> {
        let slot = self.slots[*self.places.get(item)?].as_ref().unwrap();
        Some((&slot.0, &slot.1))
    }

    // The lower rank goes first. Different places have different ranks: each step of the mix can be undone.
    fn rank(&self, place: usize) -> u64 {
        if self.seed == 0 {
            return place as u64;
        }
        let mut z = (place as u64).wrapping_add(self.seed.wrapping_mul(0x9e37_79b9_7f4a_7c15));
        z = (z ^ (z >> 30)).wrapping_mul(0xbf58_476d_1ce4_e5b9);
        z = (z ^ (z >> 27)).wrapping_mul(0x94d0_49bb_1331_11eb);
        z ^ (z >> 31)
    }
}
