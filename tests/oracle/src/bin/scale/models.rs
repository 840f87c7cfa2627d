//! What 01 leaves open to an order or a choice: a test whether a run of Saturation is legal, and IndependentSet for a given
//! order of visiting the presets. Written from 01's words. Items are nodes, or edges as nodes of the line graph.

use rustworkx_core::rules::NONE;

/// The neighbours of each item, in the order of the edges there: those with the item as first end, newest first, then
/// those with it as second end, newest first, a loop once.
pub fn neighbours(count: usize, pairs: &[(usize, usize)]) -> Vec<Vec<usize>> {
    let mut leaving = vec![Vec::new(); count];
    let mut coming = vec![Vec::new(); count];
    for &(u, v) in pairs.iter().rev() {
        leaving[u].push(v);
        if u != v {
            coming[v].push(u);
        }
    }
    let both = leaving.into_iter().zip(coming);
    both.map(|(first, second)| [first, second].concat())
        .collect()
}

/// The colours of a run so far, and which of them an item's neighbours have.
struct Board<'a> {
    neighbours: &'a [Vec<usize>],
    colors: Vec<u16>,
    // A colour stands on a neighbour of the item looked at last if its place holds that look's number.
    seen: Vec<usize>,
    look: usize,
}

impl Board<'_> {
    /// Looks at an item: the number of different colours on its neighbours, then of its uncoloured neighbours, a double
    /// edge counted twice and a loop once.
    fn counts(&mut self, item: usize) -> (usize, usize) {
        self.look += 1;
        let (mut different, mut uncolored) = (0, 0);
        for &neighbour in &self.neighbours[item] {
            let color = self.colors[neighbour];
            if color == NONE {
                uncolored += 1;
            } else if self.seen[usize::from(color)] != self.look {
                self.seen[usize::from(color)] = self.look;
                different += 1;
            }
        }
        (different, uncolored)
    }

    /// The smallest colour that no coloured neighbour has.
    fn smallest(&mut self, item: usize) -> u16 {
        self.counts(item);
        let free = (0..NONE).find(|&color| self.seen[usize::from(color)] != self.look);
        free.unwrap()
    }

    fn uncolored(&self) -> impl Iterator<Item = usize> + '_ {
        (0..self.colors.len()).filter(|&item| self.colors[item] == NONE)
    }
}

/// What is not legal about a run of Saturation, given as items with their colours in the order in which they got them,
/// presets first. With `lowest` each turn must also take the lowest of the items that are greatest by the two counts.
pub fn saturation_fault(
    neighbours: &[Vec<usize>],
    presets: &[u16],
    run: &[(usize, u16)],
    lowest: bool,
) -> Option<String> {
    let set = (0..presets.len()).filter(|&item| presets[item] != NONE);
    let set: Vec<(usize, u16)> = set.map(|item| (item, presets[item])).collect();
    if run.len() != presets.len() || run[..set.len()] != set {
        return Some("the presets are not first, or the run has another length".to_string());
    }
    let mut board = Board {
        neighbours,
        colors: presets.to_vec(),
        seen: vec![0; NONE.into()],
        look: 0,
    };
    let mut counts: Vec<(usize, usize)> = (0..presets.len()).map(|i| board.counts(i)).collect();
    for (turn, &(item, color)) in run[set.len()..].iter().enumerate() {
        let greatest = board.uncolored().map(|i| counts[i]).max();
        if board.colors[item] != NONE || Some(counts[item]) != greatest {
            return Some(format!("turn {turn}: item {item} is not greatest"));
        }
        if lowest
            && board
                .uncolored()
                .any(|i| i < item && counts[i] == counts[item])
        {
            return Some(format!("turn {turn}: item {item} is not the lowest"));
        }
        if color != board.smallest(item) {
            return Some(format!("turn {turn}: item {item} has not its smallest"));
        }
        board.colors[item] = color;
        // Nobody else's counts depend on this item.
        for &neighbour in &neighbours[item] {
            counts[neighbour] = board.counts(neighbour);
        }
    }
    None
}

/// Takes the listed neighbours out, in order, and appends them to the next list. The last of the list fills the hole.
fn take_out(neighbours: &[usize], list: &mut Vec<usize>, next: &mut Vec<usize>) {
    for neighbour in neighbours {
        if let Some(place) = list.iter().position(|listed| listed == neighbour) {
            next.push(list.swap_remove(place));
        }
    }
}

/// IndependentSet's answer where the presets are visited in the order given.
pub fn independent_set(neighbours: &[Vec<usize>], presets: &[u16], visits: &[usize]) -> Vec<u16> {
    let mut colors = presets.to_vec();
    let mut list: Vec<usize> = (0..presets.len()).filter(|&i| presets[i] == NONE).collect();
    let mut round = 0;
    while !list.is_empty() {
        let mut next = Vec::new();
        for &preset in visits.iter().filter(|&&preset| presets[preset] == round) {
            take_out(&neighbours[preset], &mut list, &mut next);
        }
        while !list.is_empty() {
            let front = list.swap_remove(0);
            colors[front] = round;
            take_out(&neighbours[front], &mut list, &mut next);
        }
        list = next;
        round += 1;
    }
    colors
}

/// The preset items, by rising number.
pub fn preset_items(presets: &[u16]) -> Vec<usize> {
    let items = 0..presets.len();
    items.filter(|&item| presets[item] != NONE).collect()
}

/// The preset items whose colour another has too.
pub fn sharing(presets: &[u16]) -> Vec<usize> {
    let shared = |color| presets.iter().filter(|&&preset| preset == color).count() > 1;
    let mut items = preset_items(presets);
    items.retain(|&item| shared(presets[item]));
    items
}

/// Every order of the items.
pub fn orders<T: Copy>(items: &[T]) -> Vec<Vec<T>> {
    let Some((&first, rest)) = items.split_first() else {
        return vec![Vec::new()];
    };
    let mut all = Vec::new();
    for order in orders(rest) {
        for place in 0..=order.len() {
            let mut longer = order.clone();
            longer.insert(place, first);
            all.push(longer);
        }
    }
    all
}

/// All answers of IndependentSet, whatever the order of visiting. Only presets that share a colour are put in every
/// order: each other one has a round of its own.
pub fn independent_set_answers(neighbours: &[Vec<usize>], presets: &[u16]) -> Vec<Vec<u16>> {
    let shared = sharing(presets);
    let mut alone = preset_items(presets);
    alone.retain(|item| !shared.contains(item));
    let answer = |order: Vec<usize>| {
        let visits = [order, alone.clone()].concat();
        independent_set(neighbours, presets, &visits)
    };
    let mut answers: Vec<Vec<u16>> = orders(&shared).into_iter().map(answer).collect();
    answers.sort_unstable();
    answers.dedup();
    answers
}

/// Holds the models against 01's examples, and against runs that are not legal.
pub fn check() {
    let path = neighbours(4, &[(0, 1), (1, 2), (2, 3)]);
    let none = [NONE; 4];
    let fault = |run: &[(usize, u16)], lowest| saturation_fault(&path, &none, run, lowest);
    // P9's two answers; the second begins with node 2.
    assert_eq!(fault(&[(1, 0), (2, 1), (0, 1), (3, 0)], true), None);
    assert_eq!(fault(&[(2, 0), (1, 1), (3, 1), (0, 0)], false), None);
    // Not the lowest, not the greatest, not the smallest colour, a node twice, a node too few.
    assert!(fault(&[(2, 0), (1, 1), (3, 1), (0, 0)], true).is_some());
    assert!(fault(&[(1, 0), (0, 1), (2, 1), (3, 0)], false).is_some());
    assert!(fault(&[(0, 0), (1, 1), (2, 0), (3, 1)], false).is_some());
    assert!(fault(&[(1, 0), (2, 1), (0, 1), (3, 2)], false).is_some());
    assert!(fault(&[(1, 0), (2, 1), (1, 0), (3, 0)], false).is_some());
    assert!(fault(&[(1, 0), (2, 1), (0, 1)], false).is_some());
    // P10.
    assert_eq!(independent_set(&path, &none, &[]), [0, 1, 2, 0]);
}
