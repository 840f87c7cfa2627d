//! Another stand-in for the crate priority-queue: the data structure of that crate, an `IndexMap` of the items and a binary
//! heap of places in it, with the position of each place in the heap. It has only what the published files use.
//!
//! Equal priorities are told apart by the order of the pushes, so that the answers are those of the scanning stand-in of
//! tests/oracle and can be compared. The real crate leaves that order open; the extra number is compared only on a tie.

use std::cmp::Reverse;
use std::hash::Hash;

use indexmap::IndexMap;

pub struct PriorityQueue<I, P> {
    // Hashed by the standard library's default, as in the real crate.
    map: IndexMap<I, (P, Reverse<usize>)>,
    // Places of the map, a parent not below its children.
    heap: Vec<usize>,
    // For each place of the map its position in the heap.
    positions: Vec<usize>,
    pushed: usize,
}

impl<I: Hash + Eq, P: Ord> PriorityQueue<I, P> {
    pub fn with_capacity(capacity: usize) -> Self {
        PriorityQueue {
            map: IndexMap::with_capacity(capacity),
            heap: Vec::with_capacity(capacity),
            positions: Vec::with_capacity(capacity),
            pushed: 0,
        }
    }

    /// Puts the item in, or alters its priority if it is there, handing back the old one.
    pub fn push(&mut self, item: I, priority: P) -> Option<P> {
        if let Some((place, _, entry)) = self.map.get_full_mut(&item) {
            let old = std::mem::replace(&mut entry.0, priority);
            let position = self.rise(self.positions[place]);
            self.sink(position);
            return Some(old);
        }
        let place = self.map.len();
        self.map.insert(item, (priority, Reverse(self.pushed)));
        self.pushed += 1;
        self.heap.push(place);
        self.positions.push(place);
        self.rise(place);
        None
    }

    /// Takes out the item of the greatest priority, of equal ones the first pushed.
    pub fn pop(&mut self) -> Option<(I, P)> {
        if self.heap.is_empty() {
            return None;
        }
        let place = self.heap.swap_remove(0);
        if let Some(&first) = self.heap.first() {
            self.positions[first] = 0;
        }
        let (item, (priority, _)) = self.map.swap_remove_index(place)?;
        // The map's last place has moved to the place that was left.
        self.positions.swap_remove(place);
        if place < self.map.len() {
            let moved = self.positions[place];
            self.heap[moved] = place;
        }
        self.sink(0);
        Some((item, priority))
    }

    pub fn get(&self, item: &I) -> Option<(&I, &P)> {
        let (_, item, entry) = self.map.get_full(item)?;
        Some((item, &entry.0))
    }

    fn entry(&self, position: usize) -> &(P, Reverse<usize>) {
        &self.map[self.heap[position]]
    }

    fn swap(&mut self, a: usize, b: usize) {
        self.heap.swap(a, b);
        self.positions[self.heap[a]] = a;
        self.positions[self.heap[b]] = b;
    }

    fn rise(&mut self, mut position: usize) -> usize {
        while position > 0 {
            let parent = (position - 1) / 2;
            if self.entry(position) <= self.entry(parent) {
                break;
            }
            self.swap(position, parent);
            position = parent;
        }
        position
    }

    fn sink(&mut self, mut position: usize) {
        loop {
            let left = 2 * position + 1;
            if left >= self.heap.len() {
                return;
            }
            let right = left + 1;
            let child = if right < self.heap.len() && self.entry(right) > self.entry(left) {
                right
            } else {
                left
            };
            if self.entry(child) <= self.entry(position) {
                return;
            }
            self.swap(position, child);
            position = child;
        }
    }
}
