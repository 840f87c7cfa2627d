//! The list with fewer days: the port's choice beside that of rules.rs.

use rustworkx_core::rules::{self, NONE};
use rustworkx_core::shapes::{two_lists, Random};

use crate::exhaustive::all_numbers;
use crate::port;
use crate::question::Chosen;
use crate::tally::{shortened, Tally};

/// How often a part ended with the first m numbers of either list.
#[derive(Default)]
struct Due {
    first: u64,
    second: u64,
}

impl Due {
    fn remark(&self) -> String {
        let Due { first, second } = self;
        format!("; the first list was due {first} times, the second {second} times")
    }
}

/// Has both choose.
fn ask(tally: &mut Tally, due: &mut Due, first: &[u16], second: &[u16], m: usize) {
    let (second_wins, part) = rules::fewer_days(first, second, m);
    due.first += u64::from(!second_wins && !part.is_empty());
    due.second += u64::from(second_wins);
    let expected = Chosen {
        list: second_wins.into(),
        length: part.len(),
        wrote_elsewhere: false,
    };
    let found = port::fewer_days(first, second, m);
    tally.count_case("fewer_days", expected != found, || {
        let (first, second) = (shortened(first), shortened(second));
        format!("m {m}, first {first}, second {second}\n  rules {expected:?}\n  port {found:?}")
    });
}

fn small_lists(tally: &mut Tally) {
    let mut due = Due::default();
    let numbers = [0, 1, 65534, NONE];
    let lists: Vec<Vec<u16>> = (0..=3)
        .flat_map(|length| all_numbers(numbers.len(), length))
        .map(|list| list.into_iter().map(|place| numbers[place]).collect())
        .collect();
    // Beyond 4, what some bits leave of m is small.
    let above = [
        1 << 16,
        (1 << 32) + 2,
        1 << 63,
        (1 << 63) + 1,
        usize::MAX - 1,
        usize::MAX,
    ];
    for first in &lists {
        for second in &lists {
            for m in (0..=4).chain(above) {
                ask(tally, &mut due, first, second, m);
            }
        }
    }
    let remark = due.remark();
    tally.end_part("fewer_days: all lists of up to 3 numbers", &remark);
}

/// Some are long, as a list of matches may be, and few much longer.
fn random_lists(tally: &mut Tally) {
    let mut due = Due::default();
    for i in 0..400_000 {
        let random = &mut Random(40_000_000 + i);
        let most = match i % 4000 {
            0 => 100_000,
            1..=40 => 4200,
            _ => 100,
        };
        let (first, second, m) = two_lists(random, most);
        ask(tally, &mut due, &first, &second, m);
    }
    let remark = due.remark();
    tally.end_part("fewer_days: random lists", &remark);
}

/// A list with so many days, some of them more than once: of the smallest colours, the greatest, or any.
fn list_of_days(random: &mut Random, days: usize, length: usize) -> Vec<u16> {
    let mut colors: Vec<u16> = (0..NONE).collect();
    match random.below(3) {
        0 => {}
        1 => colors.reverse(),
        _ => random.shuffle(&mut colors),
    }
    colors.truncate(days);
    while colors.len() < length {
        colors.push(colors[random.below(days)]);
    }
    random.shuffle(&mut colors);
    colors
}

/// As many days, and one more or fewer, about each number where the port may count otherwise; then with 65,535 in either, in both,
/// and beyond the m.
fn numbers_of_days(tally: &mut Tally) {
    let mut due = Due::default();
    let random = &mut Random(41_000_000);
    let counts = [
        1, 2, 3, 45, 55, 62, 63, 64, 65, 66, 127, 128, 4094, 4095, 4096, 4097, 4098, 8191, 8192,
        8193, 16383, 16384, 16385, 32767, 32768, 32769, 65533, 65534,
    ];
    for days in counts {
        for _ in 0..12 {
            let m = days + 1 + random.below(20);
            let mut first = list_of_days(random, days, m);
            for other in [days, days + 1] {
                let mut second = list_of_days(random, other, m);
                ask(tally, &mut due, &first, &second, m);
                ask(tally, &mut due, &second, &first, m);
                second.push(NONE);
                ask(tally, &mut due, &first, &second, m);
                ask(tally, &mut due, &second, &first, m);
                second[random.below(m)] = NONE;
                ask(tally, &mut due, &first, &second, m);
                ask(tally, &mut due, &second, &first, m);
                first[random.below(m)] = NONE;
                ask(tally, &mut due, &first, &second, m);
                ask(tally, &mut due, &second, &first, m);
                first = list_of_days(random, days, m);
            }
        }
    }
    let remark = due.remark();
    tally.end_part(
        "fewer_days: days about 64, 4,096, 16,384, 32,768 and 65,535",
        &remark,
    );
}

pub fn run(tally: &mut Tally) {
    small_lists(tally);
    random_lists(tally);
    numbers_of_days(tally);
}
