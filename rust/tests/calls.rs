//! Every call, accepted and refused; a refused call leaves its slices as they were.

use std::collections::HashSet;
use wulgranite::*;

const TAIL: [u16; 8] = [0, 1, 1, 2, 0, 2, 2, 3];

const STRATEGIES: [ColoringStrategy; 3] = [
    ColoringStrategy::Degree,
    ColoringStrategy::Saturation,
    ColoringStrategy::IndependentSet,
];

/// How many different colours there are.
fn different(colors: &[u16]) -> usize {
    let days: HashSet<&u16> = colors.iter().filter(|&&color| color != NONE).collect();
    days.len()
}

#[test]
fn incidence_table() {
    let (mut starts, mut entries) = ([7; 4], [9; 6]);
    assert_eq!(
        incidence(3, &[0, 1, 2, 2, 2, 0], &mut starts, &mut entries),
        Ok(5)
    );
    assert_eq!(starts, [0, 2, 3, 5]);
    // The loop stands once, so the last entry is unchanged.
    assert_eq!(entries, [0, 2, 0, 2, 1, 9]);
    assert_eq!(
        incidence(2, &[], &mut starts, &mut entries),
        Err(Refusal::WrongLength)
    );
    assert_eq!((starts, entries), ([0, 2, 3, 5], [0, 2, 0, 2, 1, 9]));
}

#[test]
fn graph_checks() {
    let mut colors = vec![9; 513];
    assert_eq!(
        greedy_node_color(513, &[], &mut colors),
        Err(Refusal::TooManyNodes)
    );
    assert_eq!(
        greedy_node_color(3, &[0], &mut colors[..3]),
        Err(Refusal::OddEnds)
    );
    assert_eq!(
        greedy_node_color(2, &vec![0; 8194], &mut colors[..2]),
        Err(Refusal::TooManyEnds)
    );
    assert_eq!(
        greedy_node_color(3, &[0, 3], &mut colors[..3]),
        Err(Refusal::EndOutside)
    );
    assert_eq!(
        greedy_node_color(3, &[0, 2], &mut colors[..2]),
        Err(Refusal::WrongLength)
    );
    assert!(colors.iter().all(|&c| c == 9));
    assert_eq!(greedy_node_color(512, &[], &mut colors[..512]), Ok(1));
}

#[test]
fn two_colors() {
    let mut colors = [5; 5];
    assert_eq!(two_color(5, &[0, 1, 1, 2, 2, 3, 3, 4], &mut colors), Ok(2));
    assert_eq!(colors, [1, 0, 1, 0, 1]);
    assert_eq!(
        two_color(5, &[4, 4], &mut colors),
        Err(Refusal::OddClosedWalk)
    );
    assert_eq!(colors, [1, 0, 1, 0, 1]);
    // Without edges one day, and that is 1; without nodes none.
    assert_eq!(two_color(3, &[], &mut colors[..3]), Ok(1));
    assert_eq!(colors, [1, 1, 1, 0, 1]);
    assert_eq!(two_color(1, &[], &mut colors[4..]), Ok(1));
    assert_eq!(two_color(0, &[], &mut []), Ok(0));
    // One edge among many nodes.
    let mut many = [5; 512];
    assert_eq!(two_color(512, &[], &mut many), Ok(1));
    assert_eq!(many, [1; 512]);
    assert_eq!(two_color(512, &[511, 0], &mut many), Ok(2));
    assert_eq!((many[0], many[510], many[511]), (1, 1, 0));
}

#[test]
fn greedy_nodes() {
    let path = [0, 1, 1, 2, 2, 3];
    let mut colors = [0; 4];
    for (strategy, days, expected) in [
        (ColoringStrategy::Degree, 2, [1, 0, 1, 0]),
        (ColoringStrategy::Saturation, 2, [1, 0, 1, 0]),
        (ColoringStrategy::IndependentSet, 3, [0, 1, 2, 0]),
    ] {
        let answer =
            greedy_node_color_with_coloring_strategy(4, &path, &[NONE; 4], strategy, &mut colors);
        assert_eq!((answer, colors), (Ok(days), expected));
    }
    assert_eq!(
        greedy_node_color_with_preset_colors(2, &[0, 1], &[4, 4], &mut colors[..2]),
        Ok(1)
    );
    assert_eq!(colors[..2], [4, 4]);
    let short = greedy_node_color_with_preset_colors(2, &[0, 1], &[4], &mut colors[..2]);
    assert_eq!(short, Err(Refusal::WrongLength));
}

#[test]
fn greedy_edges() {
    let mut colors = [0; 4];
    assert_eq!(greedy_edge_color(4, &TAIL, &mut colors), Ok(3));
    assert_eq!(colors, [2, 0, 1, 2]);
    let presets = [9, NONE, NONE, NONE];
    for strategy in STRATEGIES {
        let answer =
            greedy_edge_color_with_coloring_strategy(4, &TAIL, &presets, strategy, &mut colors);
        // The others meet at node 2.
        assert_eq!(answer, Ok(4));
        assert_eq!(colors[0], 9);
    }
}

#[test]
fn days_9_and_0_are_two() {
    for strategy in STRATEGIES {
        let mut colors = [7; 2];
        let matches = &[0, 1, 1, 2];
        let answer =
            greedy_edge_color_with_coloring_strategy(3, matches, &[9, 0], strategy, &mut colors);
        assert_eq!((answer, colors), (Ok(2), [9, 0]));
        let answer = greedy_edge_color_with_coloring_strategy(
            3,
            matches,
            &[65534, NONE],
            strategy,
            &mut colors,
        );
        assert_eq!((answer, colors), (Ok(2), [65534, 0]));
        let answer =
            greedy_node_color_with_coloring_strategy(2, &[0, 1], &[9, 0], strategy, &mut colors);
        assert_eq!((answer, colors), (Ok(2), [9, 0]));
        let answer =
            greedy_node_color_with_coloring_strategy(2, &[0, 1], &[9, 9], strategy, &mut colors);
        assert_eq!((answer, colors), (Ok(1), [9, 9]));
        let answer = greedy_node_color_with_coloring_strategy(0, &[], &[], strategy, &mut []);
        assert_eq!(answer, Ok(0));
    }
    let mut colors = [7; 2];
    let answer = greedy_node_color_with_preset_colors(2, &[0, 1], &[9, 0], &mut colors);
    assert_eq!((answer, colors), (Ok(2), [9, 0]));
}

/// Days are the different colours, whatever is preset; without presets no colour below them is left out.
#[test]
fn greedy_days() {
    // None is preset, or two of three: on a few days, on any, and around the numbers at which the counting changes.
    const BORDERS: [u16; 8] = [63, 4095, 4096, 32767, 32768, 32769, 65533, 65534];
    let presets: [fn(usize) -> u16; 4] = [
        |_| NONE,
        |i| (i * 7 % 64) as u16,
        |i| (i * 7919 % 65535) as u16,
        |i| BORDERS[i % 8],
    ];
    for (n, ends) in simple_lists() {
        let m = ends.len() / 2;
        for (kind, preset) in presets.iter().enumerate() {
            let some = |i| if i % 3 == 0 { NONE } else { preset(i) };
            let presets: Vec<u16> = (0..n.max(m)).map(some).collect();
            for strategy in STRATEGIES {
                let (mut nodes, mut edges) = (vec![7; n], vec![7; m]);
                let answers = [
                    greedy_node_color_with_coloring_strategy(
                        n,
                        &ends,
                        &presets[..n],
                        strategy,
                        &mut nodes,
                    ),
                    greedy_edge_color_with_coloring_strategy(
                        n,
                        &ends,
                        &presets[..m],
                        strategy,
                        &mut edges,
                    ),
                ];
                for (answer, colors) in answers.iter().zip([nodes, edges]) {
                    assert!(!colors.contains(&NONE));
                    assert_eq!(*answer, Ok(different(&colors)));
                    if kind == 0 {
                        let greatest = colors.iter().max().unwrap();
                        assert_eq!(*answer, Ok(usize::from(*greatest) + 1));
                    }
                }
            }
        }
    }
}

/// As many days as there can be, all of them preset.
#[test]
fn every_match_its_own_day() {
    let ends: Vec<u16> = (0..2 * MAX_EDGES).map(|k| (k % MAX_NODES) as u16).collect();
    for step in [1, 16] {
        let presets: Vec<u16> = (0..MAX_EDGES).map(|k| (k * step) as u16).collect();
        for strategy in STRATEGIES {
            let mut colors = vec![NONE; MAX_EDGES];
            let answer = greedy_edge_color_with_coloring_strategy(
                MAX_NODES,
                &ends,
                &presets,
                strategy,
                &mut colors,
            );
            assert_eq!(answer, Ok(MAX_EDGES));
            assert_eq!(colors, presets);
        }
    }
}

#[test]
fn line_list() {
    let ends = [0, 1, 0, 2, 1, 2, 0, 3];
    let mut list = [9; 12];
    assert_eq!(
        line_graph(4, &ends, &mut list[..9]),
        Err(Refusal::ShortList)
    );
    assert_eq!(list, [9; 12]);
    assert_eq!(line_graph(4, &ends, &mut list), Ok(5));
    assert_eq!(list, [3, 1, 3, 0, 1, 0, 2, 0, 2, 1, 9, 9]);
}

#[test]
fn misra_gries() {
    let mut colors = [9; 4];
    assert_eq!(
        misra_gries_edge_color(4, &[0, 1, 1, 2, 3, 3, 2, 3], &mut colors),
        Err(Refusal::Loop)
    );
    assert_eq!(
        misra_gries_edge_color(4, &[0, 1, 1, 2, 1, 0, 2, 3], &mut colors),
        Err(Refusal::DoubleEdge)
    );
    assert_eq!(colors, [9; 4]);
    assert_eq!(misra_gries_edge_color(4, &TAIL, &mut colors), Ok(3));
    assert_eq!(colors, [2, 1, 0, 2]);
}

/// The greatest complete graph, on the stack of a test's thread.
#[test]
fn no_club_twice_on_a_day() {
    let ends = complete(91);
    let mut colors = vec![0; ends.len() / 2];
    let days = misra_gries_edge_color(91, &ends, &mut colors).unwrap();
    assert!(days <= 91);
    assert!(colors.iter().all(|&color| usize::from(color) < days));
    assert_eq!(days, different(&colors));
    assert_proper(&ends, &colors);
}

/// The complete graph, lower ends first.
fn complete(n: u16) -> Vec<u16> {
    (0..n)
        .flat_map(|u| (u + 1..n).flat_map(move |v| [u, v]))
        .collect()
}

/// Lists without loops and double edges.
fn simple_lists() -> Vec<(usize, Vec<u16>)> {
    let star = (1..20).flat_map(|v| [v, 0]).collect();
    let bipartite = (0..64).flat_map(|k| [8 + k / 8, k % 8]).collect();
    let mut scattered = Vec::new();
    let mut joined = HashSet::new();
    let mut seed = 1u32;
    while joined.len() < 150 {
        seed = seed.wrapping_mul(1103515245).wrapping_add(12345);
        let (u, v) = ((seed >> 16) % 30, (seed >> 24) % 30);
        if u != v && joined.insert((u.min(v), u.max(v))) {
            scattered.extend([u as u16, v as u16]);
        }
    }
    vec![
        (4, TAIL.to_vec()),
        (20, star),
        (16, bipartite),
        (14, complete(14)),
        (15, complete(15)),
        (30, scattered),
    ]
}

/// The most edges at a node.
fn most_edges(ends: &[u16]) -> usize {
    let at = |v| ends.iter().filter(|&&end| end == v).count();
    ends.iter().map(|&v| at(v)).max().unwrap_or(0)
}

/// No club has two matches on a day, and no day is above D.
fn assert_proper(ends: &[u16], colors: &[u16]) {
    let most = most_edges(ends);
    let mut seen = HashSet::new();
    assert_eq!(ends.len(), 2 * colors.len());
    for (edge, &color) in ends.chunks(2).zip(colors) {
        assert!(usize::from(color) <= most);
        assert!(seen.insert((edge[0], color)) && seen.insert((edge[1], color)));
    }
}

#[test]
fn late_match_refused() {
    let long = vec![9; 8194];
    let (none, one, two) = (&[][..], &[7][..], &[7, 7][..]);
    for (n, ends, stored, places, refusal) in [
        (513, &[0][..], none, 9, Refusal::TooManyNodes),
        (3, &[9], none, 9, Refusal::OddEnds),
        (3, &long, none, 9, Refusal::TooManyEnds),
        (3, &[1, 1, 0, 2, 2, 0, 3, 0], none, 9, Refusal::EndOutside),
        // One stored colour fewer than there are edges, and a place for each edge,
        (3, &[1, 1, 0, 2, 2, 0], one, 3, Refusal::WrongLength),
        (3, &[1, 1, 0, 2, 2, 0], &[7; 3], 3, Refusal::WrongLength),
        (3, &[1, 1, 0, 2, 2, 0], two, 2, Refusal::WrongLength),
        (3, &[1, 1, 0, 2, 2, 0], two, 4, Refusal::WrongLength),
        // none for none.
        (3, &[], one, 0, Refusal::WrongLength),
        (3, &[], none, 1, Refusal::WrongLength),
        (3, &[0, 2, 2, 0, 1, 1], two, 3, Refusal::Loop),
        (3, &[1, 0, 0, 2, 2, 0], two, 3, Refusal::DoubleEdge),
        (3, &[2, 0, 1, 2, 2, 0], two, 3, Refusal::DoubleEdge),
        // A colour above D, where the last edge counts, or none.
        (4, &[0, 1, 2, 3], &[2], 2, Refusal::BadStoredColors),
        (3, &[0, 1, 0, 2], &[3], 2, Refusal::BadStoredColors),
        (3, &[0, 1, 0, 2], &[NONE], 2, Refusal::BadStoredColors),
        (4, &TAIL, &[0, 1, 4], 4, Refusal::BadStoredColors),
        // The same colour at a first end, at a second end, and at one of each.
        (4, &[0, 1, 0, 2, 2, 3], &[1, 1], 3, Refusal::BadStoredColors),
        (4, &[1, 0, 2, 0, 2, 3], &[1, 1], 3, Refusal::BadStoredColors),
        (4, &[1, 0, 0, 2, 2, 3], &[1, 1], 3, Refusal::BadStoredColors),
        (4, &[0, 1, 2, 0, 2, 3], &[1, 1], 3, Refusal::BadStoredColors),
        (4, &TAIL, &[0, 1, 0], 4, Refusal::BadStoredColors),
    ] {
        let mut colors = vec![9; places];
        assert_eq!(
            misra_gries_add_edge(n, ends, stored, &mut colors),
            Err(refusal)
        );
        assert!(colors.iter().all(|&color| color == 9));
    }
}

#[test]
fn late_match_accepted() {
    assert_eq!(misra_gries_add_edge(0, &[], &[], &mut []), Ok(0));
    assert_eq!(misra_gries_add_edge(5, &[], &[], &mut []), Ok(0));
    let mut colors = [9; 4];
    assert_eq!(
        misra_gries_add_edge(2, &[1, 0], &[], &mut colors[..1]),
        Ok(1)
    );
    assert_eq!(colors, [0, 9, 9, 9]);
    // D itself, and equal colours of edges that share no end.
    let two = misra_gries_add_edge(4, &[0, 1, 2, 3], &[1], &mut colors[..2]);
    assert_eq!((two, colors), (Ok(2), [1, 0, 9, 9]));
    let three = misra_gries_add_edge(4, &[0, 1, 2, 3, 1, 2], &[2, 2], &mut colors[..3]);
    assert_eq!((three, colors), (Ok(2), [2, 2, 0, 9]));
    // The step changes a stored colour, whether it comes from the whole call or not.
    for (stored, days, expected) in [([0, 1, 2], 3, [2, 1, 0, 2]), ([3, 1, 0], 4, [3, 1, 2, 0])] {
        let answer = misra_gries_add_edge(4, &TAIL, &stored, &mut colors);
        assert_eq!((answer, colors), (Ok(days), expected));
    }
    // Stored colours that leave out 2, and an answer that does.
    let star = misra_gries_add_edge(4, &[0, 1, 0, 2, 0, 3], &[3, 1], &mut colors[..3]);
    assert_eq!((star, &colors[..3]), (Ok(3), &[3, 1, 0][..]));
}

/// Stored colours that the whole call gives: the answer is the whole call's again.
#[test]
fn late_match_afresh() {
    for (n, ends) in simple_lists() {
        let mut stored = Vec::new();
        for m in 1..=ends.len() / 2 {
            let (mut late, mut whole) = (vec![9; m], vec![9; m]);
            let answer = misra_gries_edge_color(n, &ends[..2 * m], &mut whole);
            assert_eq!(
                misra_gries_add_edge(n, &ends[..2 * m], &stored, &mut late),
                answer
            );
            assert_eq!(late, whole);
            // No colour below the number of days is left out.
            let greatest = whole.iter().max().unwrap();
            assert_eq!(answer, Ok(usize::from(*greatest) + 1));
            assert_eq!(answer, Ok(different(&whole)));
            stored = late;
        }
    }
}

/// Other stored colours.
#[test]
fn late_match_elsewhere() {
    for (n, ends) in simple_lists() {
        for m in 1..=ends.len() / 2 {
            let (list, others) = (&ends[..2 * m], &ends[..2 * m - 2]);
            let most = most_edges(list) as u16;
            let mut whole = vec![9; m - 1];
            misra_gries_edge_color(n, others, &mut whole).unwrap();
            let turned = whole.iter().map(|color| most - color).collect();
            let mut greedy: Vec<u16> = vec![9; m - 1];
            greedy_edge_color(n, others, &mut greedy).unwrap();
            for stored in [turned, greedy] {
                let mut colors = vec![9; m];
                let answer = misra_gries_add_edge(n, list, &stored, &mut colors);
                if stored.iter().any(|&color| color > most) {
                    assert_eq!(answer, Err(Refusal::BadStoredColors));
                    assert!(colors.iter().all(|&color| color == 9));
                } else {
                    assert_eq!(answer, Ok(different(&colors)));
                    assert_proper(list, &colors);
                }
            }
        }
    }
}

/// The greatest complete graph, one match after the other, on the stack of a test's thread.
#[test]
fn one_match_after_the_other() {
    let ends = complete(91);
    let mut stored = Vec::new();
    let mut days = 0;
    for m in 1..=ends.len() / 2 {
        let mut colors = vec![0; m];
        days = misra_gries_add_edge(91, &ends[..2 * m], &stored, &mut colors).unwrap();
        stored = colors;
    }
    let mut whole = vec![0; ends.len() / 2];
    assert_eq!(misra_gries_edge_color(91, &ends, &mut whole), Ok(days));
    assert_eq!(stored, whole);
}

/// The front of one list, and not numbers that are equal to it.
fn assert_front(part: &[u16], list: &[u16], length: usize) {
    assert!(std::ptr::eq(part, &list[..length]));
}

#[test]
fn list_with_fewer_days() {
    for (first, second, m, chosen) in [
        // Two days against three, either way round,
        (vec![9, 0, 9], vec![0, 1, 2], 3, 0),
        (vec![0, 1, 2], vec![9, 0, 9], 3, 1),
        // among the first m only.
        (vec![0, 1, 0], vec![5, 5, 6, 7], 2, 1),
        (vec![5, 5, 6, 7], vec![0, 1, 0], 2, 0),
        // Equally many: the first, if it has the same numbers as the second, too.
        (vec![0, 1], vec![7, 9], 2, 0),
        (vec![65534, 3, 3], vec![3, 3, 65534], 3, 0),
        (vec![4, 4], vec![4, 4], 2, 0),
        // A list with 65,535 loses, with fewer days, too,
        (vec![4, NONE], vec![0, 1], 2, 1),
        (vec![NONE, NONE], vec![0, 1], 2, 1),
        (vec![0, 1], vec![4, NONE], 2, 0),
        (vec![0, 1], vec![NONE, 4], 2, 0),
        // unless both have it,
        (vec![0, 1, NONE], vec![4, 4, NONE], 3, 0),
        (vec![NONE], vec![NONE], 1, 0),
        // or it stands behind the first m.
        (vec![0, 1, NONE], vec![4, 4, NONE], 2, 1),
        (vec![4, 4, NONE], vec![4, 4, 4], 2, 0),
        // None of them.
        (vec![0, 1], vec![4], 0, 0),
        (vec![NONE], vec![4], 0, 0),
        (vec![], vec![4], 0, 0),
        (vec![4], vec![], 0, 0),
    ] {
        let list = if chosen == 0 { &first } else { &second };
        assert_front(fewer_days(&first, &second, m), list, m);
    }
}

#[test]
fn list_too_short() {
    for (first, second) in [
        (vec![0, 1], vec![4, 4, 4]),
        (vec![0, 1, 2], vec![4, 4]),
        (vec![0, 1], vec![4, 4]),
        (vec![NONE, 1], vec![4, 4, 4]),
        (vec![], vec![4, 4, 4]),
        (vec![0, 1, 2], vec![]),
        (vec![], vec![]),
    ] {
        for m in [3, 4, 4097, usize::MAX] {
            assert_front(fewer_days(&first, &second, m), &first, 0);
        }
    }
}

/// The same memory for both, and parts of it that overlap.
#[test]
fn one_list_twice() {
    let list = [3, 1, 1, 1];
    assert_front(fewer_days(&list, &list, 4), &list, 4);
    assert_front(fewer_days(&list, &list[1..], 3), &list[1..], 3);
    assert_front(fewer_days(&list[1..], &list, 3), &list[1..], 3);
}

/// More numbers than a graph has edges, and as many colours as there are.
#[test]
fn long_lists() {
    let all: Vec<u16> = (0..NONE).collect();
    let but_one: Vec<u16> = (0..NONE).map(|color| color.max(1)).collect();
    for m in [2, 64, 65, 4096, 4097, 4160, 4161, 32768, 32769, 65535] {
        assert_front(fewer_days(&all, &but_one, m), &but_one, m);
        assert_front(fewer_days(&but_one, &all, m), &but_one, m);
        assert_front(fewer_days(&all, &all.clone(), m), &all, m);
        // From the greatest colour down.
        let falling: Vec<u16> = all.iter().rev().copied().collect();
        assert_front(fewer_days(&falling, &but_one, m), &but_one, m);
        assert_front(fewer_days(&falling, &all, m), &falling, m);
    }
    // The last colour of the first window, there or not.
    let without: Vec<u16> = (0..=32769).filter(|&color| color != 32767).collect();
    assert_front(fewer_days(&all, &without, 32769), &all, 32769);
    assert_front(fewer_days(&without, &all, 32769), &without, 32769);
    // Ten times each, the last number 65,535 only where it counts.
    let mut often = all.repeat(10);
    let mut fewer = but_one.repeat(10);
    fewer.push(NONE);
    often.push(0);
    assert_front(fewer_days(&often, &fewer, 655350), &fewer, 655350);
    assert_front(fewer_days(&often, &fewer, 655351), &often, 655351);
    assert_front(fewer_days(&fewer, &often, 655351), &often, 655351);
    assert_front(fewer_days(&often, &fewer, 655352), &often, 0);
}

/// Random lists of few days, small, great and both, beside the choice as it is said in words.
#[test]
fn scattered_lists() {
    let mut state = 1u64;
    let mut random = |below: usize| {
        state = state
            .wrapping_mul(6364136223846793005)
            .wrapping_add(1442695040888963407);
        (state >> 33) as usize % below
    };
    let mut chosen = [0; 3];
    for round in 0..20_000 {
        let most = [8, 64, 65, 4096, 32768, 32769, 65535][round % 7];
        let mut list = || -> Vec<u16> {
            let from = random(65536 - most);
            let mut days = vec![0; 1 + random(20)];
            let small = round % 5;
            days.fill_with(|| match random(4) < small {
                true => random([64, 4096][round % 2]) as u16,
                false => (from + random(most)) as u16,
            });
            if random(4) == 0 {
                days[0] = NONE;
            }
            let length = [20, 60, 100][round % 3] + random(40);
            (0..length).map(|_| days[random(days.len())]).collect()
        };
        let (first, second) = (list(), list());
        let m = random([20, 60, 100][round % 3] + 20);
        let part = fewer_days(&first, &second, m);
        if m > first.len() || m > second.len() {
            assert_front(part, &first, 0);
            chosen[2] += 1;
            continue;
        }
        let (one, two) = (&first[..m], &second[..m]);
        let second_chosen = match (one.contains(&NONE), two.contains(&NONE)) {
            (false, false) => different(two) < different(one),
            (one, two) => one && !two,
        };
        assert_front(part, if second_chosen { &second } else { &first }, m);
        chosen[usize::from(second_chosen)] += 1;
    }
    assert!(chosen.iter().all(|&times| times > 1000));
}

/// The list of `TAIL`.
const LIST: [u8; 24] = [
    1, 2, 0, 4, 0, 2, 16, 0, 0, 0, 1, 0, 1, 0, 2, 0, 0, 0, 2, 0, 2, 0, 3, 0,
];

/// The fields of its colours and of the method.
const COLORS: [u8; 11] = [3, 8, 0, 2, 0, 1, 0, 255, 255, 0, 1];
const METHOD: [u8; 4] = [4, 1, 0, 3];

fn bad(bytes: &[u8]) {
    let (mut ends, mut colors) = ([9; 10], [9; 10]);
    assert_eq!(
        read_graph_file(bytes, &mut ends, &mut colors),
        Err(Refusal::BadFile)
    );
    assert_eq!((ends, colors), ([9; 10], [9; 10]));
}

#[test]
fn house_file() {
    let (mut ends, mut colors) = ([9; 10], [9; 6]);
    let read = GraphFile {
        nodes: 4,
        edges: 4,
        tags: 3,
        method: None,
    };
    assert_eq!(
        read_graph_file(&LIST, &mut ends[..7], &mut colors),
        Err(Refusal::WrongLength)
    );
    for cut in 0..LIST.len() {
        bad(&LIST[..cut]);
    }
    assert_eq!(ends, [9; 10]);
    // Without colours in the file none are lent.
    assert_eq!(read_graph_file(&LIST, &mut ends, &mut []), Ok(read));
    assert_eq!(ends, [0, 1, 1, 2, 0, 2, 2, 3, 9, 9]);
    assert_eq!(read_graph_file(&LIST, &mut ends, &mut colors), Ok(read));
    assert_eq!(colors, [9; 6]);
    assert!(!read.has_colors());
}

#[test]
fn saved_colors() {
    let (mut ends, mut colors) = ([9; 10], [9; 6]);
    let colored = [&LIST[..], &COLORS].concat();
    let named = [&colored[..], &METHOD].concat();
    assert_eq!(
        read_graph_file(&named, &mut ends[..7], &mut colors),
        Err(Refusal::WrongLength)
    );
    assert_eq!(
        read_graph_file(&named, &mut ends, &mut colors[..3]),
        Err(Refusal::WrongLength)
    );
    assert_eq!((ends, colors), ([9; 10], [9; 6]));
    for (bytes, tags, method) in [(&colored, 7, None), (&named, 15, Some(Method::MisraGries))] {
        let read = read_graph_file(bytes, &mut ends, &mut colors).unwrap();
        assert_eq!((read.nodes, read.edges), (4, 4));
        assert_eq!((read.tags, read.method), (tags, method));
        assert!(read.has_colors());
        assert_eq!(ends, [0, 1, 1, 2, 0, 2, 2, 3, 9, 9]);
        assert_eq!(colors, [2, 1, NONE, 256, 9, 9]);
        (ends, colors) = ([9; 10], [9; 6]);
    }
}

#[test]
fn no_house_file() {
    let named = [&LIST[..], &COLORS, &METHOD].concat();
    for cut in 1..named.len() {
        if cut != LIST.len() && cut != LIST.len() + COLORS.len() {
            bad(&named[..cut]);
        }
    }
    // A method above 3, a method without colours, colours twice, a method twice, a byte behind the end.
    for method in 4..=255 {
        bad(&[&LIST[..], &COLORS, &[4, 1, 0, method]].concat());
    }
    bad(&[&LIST[..], &METHOD].concat());
    bad(&[&LIST[..], &COLORS, &COLORS].concat());
    bad(&[&named[..], &METHOD].concat());
    bad(&[&named[..], &[0]].concat());
    // A colour too few, a colour too many, half a colour.
    bad(&[&LIST[..], &[3, 6, 0, 2, 0, 1, 0, 0, 0]].concat());
    bad(&[&LIST[..], &[3, 10, 0, 2, 0, 1, 0, 0, 0, 2, 0, 4, 0]].concat());
    bad(&[&LIST[..], &[3, 7, 0, 2, 0, 1, 0, 0, 0, 2]].concat());
    // 4,097 edges.
    let mut long = vec![1, 2, 0, 4, 0, 2, 4, 64];
    long.resize(8 + 4 * 4097, 0);
    bad(&long);
}

#[test]
fn written_file() {
    let colored = [&LIST[..], &COLORS].concat();
    let named = [&colored[..], &METHOD].concat();
    let colors = [2, 1, NONE, 256];
    for (bytes, colors, method) in [
        (&LIST.to_vec(), None, None),
        (&colored, Some(&colors[..]), None),
        (&named, Some(&colors[..]), Some(Method::MisraGries)),
    ] {
        let mut output = [9; 50];
        assert_eq!(
            write_graph_file(4, &TAIL, colors, method, &mut output[..bytes.len() - 1]),
            Err(Refusal::WrongLength)
        );
        assert_eq!(output, [9; 50]);
        assert_eq!(
            write_graph_file(4, &TAIL, colors, method, &mut output),
            Ok(bytes.len())
        );
        assert_eq!(output[..bytes.len()], bytes[..]);
        assert!(output[bytes.len()..].iter().all(|&byte| byte == 9));
    }
}

#[test]
fn nothing_written() {
    let mut output = vec![9; MAX_FILE];
    let method = Some(Method::Degree);
    for (n, ends, colors, method, refusal) in [
        (513, &[][..], None, None, Refusal::TooManyNodes),
        (3, &[0], None, None, Refusal::OddEnds),
        (2, &[0; 8194], None, None, Refusal::TooManyEnds),
        // The graph comes before the method,
        (3, &[0, 3], None, method, Refusal::EndOutside),
        (3, &[0, 2], None, method, Refusal::BadFile),
        (3, &[0, 2], Some(&[][..]), method, Refusal::WrongLength),
        (3, &[0, 2], Some(&[0, 1]), None, Refusal::WrongLength),
    ] {
        assert_eq!(
            write_graph_file(n, ends, colors, method, &mut output),
            Err(refusal)
        );
    }
    // and the method before the lengths.
    assert_eq!(
        write_graph_file(3, &[0, 2], None, method, &mut []),
        Err(Refusal::BadFile)
    );
    assert!(output.iter().all(|&byte| byte == 9));
}

#[test]
fn written_and_read_again() {
    for method in [
        None,
        Some(Method::Degree),
        Some(Method::Saturation),
        Some(Method::IndependentSet),
        Some(Method::MisraGries),
    ] {
        let saved = Saved {
            nodes: 4,
            ends: TAIL.to_vec(),
            colors: Some(vec![2, 1, NONE, 256]),
            method,
        };
        let bytes = saved.write().unwrap();
        let read = Saved::read(&bytes).unwrap();
        assert_eq!(read.write().as_ref(), Ok(&bytes));
        assert_eq!(read, saved);
    }
    let list = Saved::read(&LIST).unwrap();
    assert_eq!((list.nodes, &list.ends[..]), (4, &TAIL[..]));
    assert_eq!((&list.colors, list.method), (&None, None));
    assert_eq!(list.write().unwrap(), LIST);
    // No matches, with and without colours.
    let none = [1, 2, 0, 0, 0, 2, 0, 0, 3, 0, 0];
    assert_eq!(Saved::read(&none).unwrap().colors, Some(vec![]));
    assert_eq!(Saved::read(&none).unwrap().write().unwrap(), none);
    assert_eq!(Saved::read(&none[..8]).unwrap().colors, None);
    // The reader tests neither nodes nor ends, the writer does.
    let outside = [1, 2, 0, 1, 2, 2, 4, 0, 7, 0, 255, 255];
    assert_eq!(
        Saved::read(&outside).unwrap().write(),
        Err(Refusal::TooManyNodes)
    );
}

#[test]
fn six_clubs() {
    let mut list = Saved::read(include_bytes!("../../examples/six-clubs.file")).unwrap();
    let mut days = vec![0; list.ends.len() / 2];
    assert_eq!(misra_gries_edge_color(6, &list.ends, &mut days), Ok(6));
    list.colors = Some(days);
    list.method = Some(Method::MisraGries);
    let saved = include_bytes!("../../examples/six-clubs-saved.file");
    assert_eq!(list.write().unwrap(), saved);
}

#[test]
fn longest_file() {
    let saved = Saved {
        nodes: MAX_NODES,
        ends: (0..2 * MAX_EDGES).map(|k| (k % MAX_NODES) as u16).collect(),
        colors: Some((0..MAX_EDGES).map(|k| (k * 17) as u16).collect()),
        method: Some(Method::Saturation),
    };
    let bytes = saved.write().unwrap();
    assert_eq!(bytes.len(), MAX_FILE);
    assert_eq!(Saved::read(&bytes), Ok(saved));
}

#[test]
fn refusals_say_why() {
    let refusal = misra_gries_edge_color(2, &[0, 1, 1, 0], &mut [0, 0]).unwrap_err();
    assert_eq!(
        refusal.to_string(),
        "refused 7: two edges have the same ends"
    );
    let refusal = misra_gries_add_edge(3, &[0, 1, 1, 2], &[3], &mut [0, 0]).unwrap_err();
    assert_eq!(
        refusal.to_string(),
        "refused 11: a stored colour is too great, or two edges that share an end have the same one"
    );
    assert_eq!(refusal.number(), 11);
}
