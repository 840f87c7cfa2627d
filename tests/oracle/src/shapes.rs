//! Random numbers, and the graphs and colours that the oracle's programs make.

use crate::rules::NONE;

/// Splitmix64: short, and the same everywhere.
pub struct Random(pub u64);

impl Random {
    pub fn next(&mut self) -> u64 {
        self.0 = self.0.wrapping_add(0x9e37_79b9_7f4a_7c15);
        let mut z = self.0;
        z = (z ^ (z >> 30)).wrapping_mul(0xbf58_476d_1ce4_e5b9);
        z = (z ^ (z >> 27)).wrapping_mul(0x94d0_49bb_1331_11eb);
        z ^ (z >> 31)
    }

    pub fn below(&mut self, bound: usize) -> usize {
        (self.next() % bound as u64) as usize
    }

    pub fn node(&mut self, n: usize) -> u16 {
        self.below(n) as u16
    }

    pub fn shuffle<T>(&mut self, items: &mut [T]) {
        for i in (1..items.len()).rev() {
            items.swap(i, self.below(i + 1));
        }
    }
}

pub type Edges = Vec<(u16, u16)>;

/// The same graph, its edges listed in another order and turned at random.
pub fn mixed(random: &mut Random, edges: &[(u16, u16)]) -> Edges {
    let mut edges: Edges = edges
        .iter()
        .map(|&(u, v)| if random.below(2) == 0 { (u, v) } else { (v, u) })
        .collect();
    random.shuffle(&mut edges);
    edges
}

pub fn path(n: u16) -> Edges {
    (1..n).map(|v| (v - 1, v)).collect()
}

pub fn cycle(n: u16) -> Edges {
    (0..n).map(|v| (v, (v + 1) % n)).collect()
}

pub fn star(n: u16) -> Edges {
    (1..n).map(|v| (0, v)).collect()
}

pub fn complete(n: u16) -> Edges {
    (0..n)
        .flat_map(|u| (u + 1..n).map(move |v| (u, v)))
        .collect()
}

pub fn bipartite(a: u16, b: u16) -> Edges {
    (0..a)
        .flat_map(|u| (a..a + b).map(move |v| (u, v)))
        .collect()
}

/// m different edges without loops.
pub fn simple(random: &mut Random, n: u16, m: usize) -> Edges {
    let mut edges = complete(n);
    random.shuffle(&mut edges);
    edges.truncate(m);
    mixed(random, &edges)
}

pub fn flat(edges: &[(u16, u16)]) -> Vec<u16> {
    edges.iter().flat_map(|&(u, v)| [u, v]).collect()
}

/// Colours from 0 to the greatest, edges that share an end having different ones: the edges take them in a random order, each
/// one of those that are left at both ends. Nothing where an edge finds none.
pub fn proper_colors(random: &mut Random, edges: &[(u16, u16)], greatest: u16) -> Option<Vec<u16>> {
    let mut order: Vec<usize> = (0..edges.len()).collect();
    random.shuffle(&mut order);
    let mut colors = vec![None; edges.len()];
    for k in order {
        let (u, v) = edges[k];
        let touches = |&(a, b): &(u16, u16)| a == u || a == v || b == u || b == v;
        let around = edges.iter().zip(&colors).filter(|(e, _)| touches(e));
        let taken: Vec<u16> = around.filter_map(|(_, &color)| color).collect();
        let left: Vec<u16> = (0..=greatest)
            .filter(|color| !taken.contains(color))
            .collect();
        if left.is_empty() {
            return None;
        }
        colors[k] = Some(left[random.below(left.len())]);
    }
    colors.into_iter().collect()
}

/// The colours, from 0 to the greatest, under other names of the same range.
pub fn renamed(random: &mut Random, colors: &[u16], greatest: u16) -> Vec<u16> {
    let mut names: Vec<u16> = (0..=greatest).collect();
    random.shuffle(&mut names);
    colors
        .iter()
        .map(|&color| names[usize::from(color)])
        .collect()
}

/// How many colours a random list chooses from: few, all, and about the numbers at which the port counts otherwise.
const COLOR_COUNTS: [usize; 14] = [
    1, 2, 5, 63, 64, 65, 66, 4095, 4096, 4097, 32767, 32768, 32769, 65535,
];

/// So many colours, from 0 on or from anywhere. At times one is missing.
fn color_list(random: &mut Random, length: usize) -> Vec<u16> {
    let count = COLOR_COUNTS[random.below(COLOR_COUNTS.len())];
    let from = match random.below(2) {
        0 => 0,
        _ => random.below(65536 - count),
    };
    let color = |_| (from + random.below(count)) as u16;
    let mut colors: Vec<u16> = (0..length).map(color).collect();
    if length > 0 && random.below(4) == 0 {
        colors[random.below(length)] = NONE;
    }
    colors
}

/// A list of much the same days: the same list, shuffled, under other names, or with a place changed.
fn near_list(random: &mut Random, list: &[u16]) -> Vec<u16> {
    let mut near = list.to_vec();
    if list.is_empty() {
        return near;
    }
    let (place, other) = (random.below(list.len()), random.below(list.len()));
    match random.below(6) {
        0 => random.shuffle(&mut near),
        1 => {
            let by = random.below(usize::from(NONE));
            let renamed = |&color: &u16| (usize::from(color) + by) % usize::from(NONE);
            let colors = near.iter_mut().filter(|color| **color != NONE);
            colors.for_each(|color| *color = renamed(color) as u16);
        }
        2 => near[place] = list[other],
        3 => near[place] = random.below(usize::from(NONE)) as u16,
        4 => near[place] = NONE,
        _ => {}
    }
    near
}

/// Two lists of up to so many colours, mostly of nearly as many days and nearly as long, and how many of their first numbers
/// count: mostly all that both have.
pub fn two_lists(random: &mut Random, most: usize) -> (Vec<u16>, Vec<u16>, usize) {
    let length = random.below(most + 1);
    let first = color_list(random, length);
    let mut second = match random.below(4) {
        0 => {
            let length = random.below(most + 1);
            color_list(random, length)
        }
        _ => near_list(random, &first),
    };
    match random.below(6) {
        0 => second.extend([NONE, 3, NONE]),
        1 => second.truncate(length.saturating_sub(1)),
        _ => {}
    }
    let both = first.len().min(second.len());
    let m = match random.below(8) {
        0 => random.below(both + 1),
        1 => both + random.below(4),
        _ => both,
    };
    match random.below(2) {
        0 => (first, second, m),
        _ => (second, first, m),
    }
}
