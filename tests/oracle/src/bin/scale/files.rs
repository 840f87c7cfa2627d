//! The house file: the port's reader and writer beside those of rules.rs, there and back, with files that are right and
//! files that were broken.

use rustworkx_core::rules::{self, field_bytes, Saved, NONE, UNNAMED};
use rustworkx_core::shapes::Random;

use crate::port;
use crate::question::{FileRead, Writing, Written, READ, REPORT_BEFORE, WRITE};
use crate::refusals::around;
use crate::tally::{shortened, Tally};

/// What a written file brings back when it is read.
const THERE_AND_BACK: &str = "what was written, read";
/// The bytes of a file that was read and whose graph passes the graph checks.
const AGAIN: &str = "what was read, written again";

/// What the reader has to do.
fn ruled_read(bytes: &[u8], ends: usize, colors: usize) -> FileRead {
    let mut outcome = FileRead {
        code: 0,
        report: [REPORT_BEFORE; 4],
        ends: (0..ends).map(rules::lent_number).collect(),
        colors: (0..colors).map(rules::lent_number).collect(),
        wrote_elsewhere: false,
    };
    match rules::read_lent(bytes, ends, colors) {
        Err(number) => outcome.code = number.into(),
        Ok(saved) => {
            let method = saved.method.unwrap_or(UNNAMED);
            outcome.report = [
                saved.nodes.into(),
                saved.m(),
                saved.tags().into(),
                method.into(),
            ];
            outcome.ends[..saved.ends.len()].copy_from_slice(&saved.ends);
            if let Some(stored) = &saved.colors {
                outcome.colors[..stored.len()].copy_from_slice(stored);
            }
        }
    }
    outcome
}

/// What the writer has to do.
fn ruled_write(writing: &Writing) -> Written {
    let mut outcome = Written {
        code: 0,
        length: REPORT_BEFORE,
        output: (0..writing.output).map(rules::lent_byte).collect(),
        wrote_elsewhere: false,
    };
    let Writing {
        n,
        ends,
        colors,
        tags,
        method,
        output,
    } = writing;
    match rules::write_file(*n as u64, ends, colors, *tags, *method, *output) {
        Err(number) => outcome.code = number.into(),
        Ok(file) => {
            outcome.length = file.len();
            outcome.output[..file.len()].copy_from_slice(&file);
        }
    }
    outcome
}

fn shown_read(read: &FileRead) -> String {
    let (ends, colors) = (shortened(&read.ends), shortened(&read.colors));
    let (code, report, elsewhere) = (read.code, read.report, read.wrote_elsewhere);
    format!("code {code}, report {report:?}, ends {ends}, colors {colors}, elsewhere {elsewhere}")
}

fn shown_written(written: &Written) -> String {
    let (code, length, elsewhere) = (written.code, written.length, written.wrote_elsewhere);
    let output = shortened(&written.output);
    format!("code {code}, length {length}, output {output}, elsewhere {elsewhere}")
}

fn shown_writing(writing: &Writing) -> String {
    let (ends, colors) = (shortened(&writing.ends), shortened(&writing.colors));
    let (n, tags, method, output) = (writing.n, writing.tags, writing.method, writing.output);
    format!("n {n}, ends {ends}, colors {colors}, tags {tags}, method {method}, lent {output}")
}

/// Has both read the file; hands back what the port did.
fn ask_read(tally: &mut Tally, bytes: &[u8], ends: usize, colors: usize) -> FileRead {
    let expected = ruled_read(bytes, ends, colors);
    let found = port::read_file(bytes, ends, colors);
    if expected.code != 0 {
        tally.refused(READ, expected.code);
    }
    tally.count_case(READ, expected != found, || {
        let file = shortened(bytes);
        let (expected, found) = (shown_read(&expected), shown_read(&found));
        format!("file {file}, lent {ends} and {colors}\n  rules {expected}\n  port {found}")
    });
    found
}

/// Has both write the file; hands back what the port did.
fn ask_write(tally: &mut Tally, writing: &Writing) -> Written {
    let expected = ruled_write(writing);
    let found = port::write_file(writing);
    if expected.code != 0 {
        tally.refused(WRITE, expected.code);
    }
    tally.count_case(WRITE, expected != found, || {
        let (expected, found) = (shown_written(&expected), shown_written(&found));
        format!(
            "{}\n  rules {expected}\n  port {found}",
            shown_writing(writing)
        )
    });
    found
}

/// Reads what the port wrote, with so many ends and colours beyond those needed, and holds it against what was handed in.
fn ask_back(tally: &mut Tally, writing: &Writing, file: &[u8], beyond: (usize, usize)) {
    let m = writing.ends.len() / 2;
    let told = |tag: u8| writing.tags >> (tag - 1) & 1 == 1;
    let count = if told(3) { m } else { 0 };
    let read = ask_read(tally, file, 2 * m + beyond.0, count + beyond.1);
    let method = if told(4) { writing.method } else { UNNAMED };
    let tags = 3 + 4 * usize::from(told(3)) + 8 * usize::from(told(4));
    let back = read.code == 0
        && read.report == [writing.n, m, tags, method.into()]
        && read.ends[..2 * m] == writing.ends
        && (!told(3) || read.colors[..m] == writing.colors);
    tally.count_case(THERE_AND_BACK, !back, || {
        format!("{}\n  port {}", shown_writing(writing), shown_read(&read))
    });
}

/// Writes what the port read, told by what it reported, and holds the bytes against the file's.
fn ask_again(tally: &mut Tally, file: &[u8], read: &FileRead) {
    let [n, m, tags, method] = read.report;
    let count = if tags & 4 != 0 { m } else { 0 };
    // A report of more than was lent is a difference that was counted.
    let (Some(ends), Some(colors)) = (read.ends.get(..2 * m), read.colors.get(..count)) else {
        return;
    };
    let writing = Writing {
        n,
        ends: ends.to_vec(),
        colors: colors.to_vec(),
        tags: tags as u8,
        method: method as u8,
        output: file.len(),
    };
    let written = ask_write(tally, &writing);
    if rules::graph_refusal(n as u64, ends).is_some() {
        return;
    }
    let same = written.code == 0 && written.length == file.len() && written.output == file;
    tally.count_case(AGAIN, !same, || {
        format!(
            "file {}\n  port {}",
            shortened(file),
            shown_written(&written)
        )
    });
}

/// Colours out of few or many, some edges without one.
fn random_colors(random: &mut Random, count: usize) -> Vec<u16> {
    let bound = [3, 40, 512, 65536][random.below(4)];
    let color = |_| match random.below(5) {
        0 => NONE,
        _ => random.below(bound) as u16,
    };
    (0..count).map(color).collect()
}

/// A list with loops and double edges, and any tags; the bytes lent are those needed and a few more.
fn random_writing(random: &mut Random, most_nodes: usize, most_edges: usize) -> Writing {
    let n = random.below(most_nodes + 1);
    let m = if n == 0 {
        0
    } else {
        random.below(most_edges + 1)
    };
    let tags = match random.below(8) {
        0 => random.below(256) as u8,
        1 => random.below(16) as u8 * 16 + 3,
        2 | 3 => random.below(16) as u8 * 16 + 7,
        _ => random.below(16) as u8 * 16 + 12 + random.below(4) as u8,
    };
    let method = match random.below(16) {
        0 => random.below(256) as u8,
        1 => UNNAMED,
        _ => random.below(4) as u8,
    };
    // What is not told may have any length.
    let count = match tags & 4 {
        0 => random.below(m + 3),
        _ => m,
    };
    Writing {
        n,
        ends: (0..2 * m).map(|_| random.node(n)).collect(),
        colors: random_colors(random, count),
        tags,
        method,
        output: 15 + 6 * m + random.below(4),
    }
}

/// The size of the list that is made with this number: of 400 one is large.
fn sized_writing(random: &mut Random, i: u64) -> Writing {
    match i % 400 {
        399 => random_writing(random, 512, 4096),
        _ => random_writing(random, 40, 60),
    }
}

fn lists(tally: &mut Tally) {
    let mut accepted = 0;
    for i in 0..100_000 {
        let random = &mut Random(20_000_000 + i);
        let mut writing = sized_writing(random, i);
        tally.graph();
        let written = ask_write(tally, &writing);
        if written.code != 0 {
            continue;
        }
        accepted += 1;
        let file = &written.output[..written.length.min(written.output.len())];
        let beyond = (random.below(3), random.below(3));
        ask_back(tally, &writing, file, beyond);
        // Just enough room, and one byte less.
        for output in [file.len(), file.len().saturating_sub(1)] {
            writing.output = output;
            ask_write(tally, &writing);
        }
    }
    let remark = format!("; {accepted} lists were written");
    tally.end_part("files: random lists, written and read", &remark);
}

/// A file with something done to its fields or its bytes.
fn broken(random: &mut Random, mut fields: Vec<Vec<u8>>) -> Vec<u8> {
    let k = random.below(fields.len());
    let other = random.below(fields.len());
    match random.below(12) {
        // A field twice, exchanged, dropped, new.
        0 => fields.insert(other, fields[k].clone()),
        1 => fields.swap(k, other),
        2 => drop(fields.remove(k)),
        3 => {
            let tag = [0, 1, 2, 3, 4, 5, 6, 255][random.below(8)];
            let length = [0, 1, 2, 4, 8][random.below(5)];
            fields.insert(random.below(k + 2), field_bytes(tag, &vec![1; length]));
        }
        // Another tag; another length, the bytes being as they were, and being so many.
        4 => fields[k][0] = random.below(8) as u8,
        5 => {
            let place = 1 + random.below(2);
            fields[k][place] =
                fields[k][place].wrapping_add([1, 2, 4, 252, 254, 255][random.below(6)]);
        }
        6 => {
            let mut content = fields[k].split_off(3);
            let by = [1, 2, 4, 8][random.below(4)];
            let length = match random.below(2) {
                0 => content.len() + by,
                _ => content.len().saturating_sub(by),
            };
            content.resize(length, 0);
            fields[k] = field_bytes(fields[k][0], &content);
        }
        // Another byte at the end, which is the method where there is one.
        7 => *fields.last_mut().unwrap().last_mut().unwrap() = random.below(256) as u8,
        _ => {}
    }
    let mut file = fields.concat();
    match random.below(8) {
        0 => file.truncate(random.below(file.len() + 1)),
        1 => file.extend(vec![random.below(6) as u8; 1 + random.below(4)]),
        2 | 3 if !file.is_empty() => {
            let place = random.below(file.len());
            file[place] = random.below(256) as u8;
        }
        4 if !file.is_empty() => {
            let place = random.below(file.len().min(12));
            file[place] = file[place].wrapping_add(1 + random.below(4) as u8);
        }
        _ => {}
    }
    file
}

fn mutations(tally: &mut Tally) {
    let mut accepted = 0;
    for i in 0..200_000 {
        let random = &mut Random(21_000_000 + i);
        let writing = sized_writing(random, i);
        let m = writing.ends.len() / 2;
        let stands = random.below(4);
        let colors = random_colors(random, m);
        let saved = Saved {
            nodes: writing.n as u16,
            ends: writing.ends,
            colors: (stands > 0).then_some(colors),
            method: (stands > 1).then_some(random.below(4) as u8),
        };
        let file = broken(random, saved.fields());
        tally.graph();
        // Mostly as much as is needed whatever was done.
        let (ends, colors) = match random.below(6) {
            0 => (2 * m, m),
            1 => (2 * m - random.below(2 * m + 1), m + random.below(3)),
            2 => (2 * m + random.below(3), m - random.below(m + 1)),
            _ => (2 * m + 8, m + 8),
        };
        let read = ask_read(tally, &file, ends, colors);
        if read.code == 0 {
            accepted += 1;
            ask_again(tally, &file, &read);
        }
    }
    let remark = format!("; {accepted} files were read");
    tally.end_part("files: random changes, read and written again", &remark);
}

/// A graph with these tags, all sorts of methods and colours, and room as each set of tags needs it and one byte less.
fn ask_tags(tally: &mut Tally, n: usize, ends: &[u16], tags: u8) {
    let m = ends.len() / 2;
    let lengths = [8 + 4 * m, 11 + 6 * m, 15 + 6 * m];
    for method in [0, 1, 2, 3, 4, 127, 128, 255] {
        for count in around(m) {
            for output in lengths
                .into_iter()
                .chain(lengths.map(|length| length - 1))
                .chain([0])
            {
                let writing = Writing {
                    n,
                    ends: ends.to_vec(),
                    colors: (0..count).map(|k| k as u16 % 600).collect(),
                    tags,
                    method,
                    output,
                };
                ask_write(tally, &writing);
            }
        }
    }
}

/// Graphs that pass the graph checks and such that don't, with all that the writer can be told.
fn checks(tally: &mut Tally) {
    let long: Vec<u16> = (0..8195).map(|place| place % 2).collect();
    let graphs: [(usize, &[u16]); 17] = [
        (0, &[]),
        (512, &[]),
        (3, &[0, 1, 1, 2, 1, 1]),
        (512, &[511, 0]),
        (2, &long[..8192]),
        (513, &[0, 1]),
        (65536, &[0, 1]),
        (1 << 32, &[0, 0]),
        (usize::MAX, &[]),
        (3, &[0]),
        (3, &[0, 1, 3]),
        (2, &long[..8191]),
        (2, &long[..8193]),
        (2, &long[..8194]),
        (1, &long),
        (3, &[0, 3]),
        (512, &[0, 1, 512, 1]),
    ];
    for (n, ends) in graphs {
        tally.graph();
        // For long lists only the tags that differ in what is told.
        let tags: Vec<u8> = match ends.len() {
            0..=100 => (0..=255).collect(),
            _ => vec![0, 4, 8, 12],
        };
        for tags in tags {
            ask_tags(tally, n, ends, tags);
        }
    }
    tally.end_part("files: the writer's checks", "");
}

/// Each set of tags with lists of any length, the numbers of edges about the limit, each cut and each method.
fn layouts(tally: &mut Tally) {
    let saved = |m: usize| Saved {
        nodes: 3,
        ends: (0..2 * m).map(|place| (place % 3) as u16).collect(),
        colors: Some((0..m).map(|k| k as u16 ^ NONE).collect()),
        method: Some(2),
    };
    for m in [
        0, 1, 2, 5, 4095, 4096, 4097, 4098, 6144, 6145, 8192, 16383, 16384, 20480,
    ] {
        tally.graph();
        let fields = saved(m).fields();
        for count in 0..=fields.len() {
            let file = fields[..count].concat();
            for ends in around(2 * m) {
                for colors in around(m) {
                    let read = ask_read(tally, &file, ends, colors);
                    if read.code == 0 {
                        ask_again(tally, &file, &read);
                    }
                }
            }
        }
        let file = fields.concat();
        // Each cut; of a long file those at either end.
        for length in 0..file.len() {
            if length < 40 || length + 40 > file.len() {
                ask_read(tally, &file[..length], 2 * m, m);
            }
        }
        for last in 0..=255 {
            let mut file = file.clone();
            *file.last_mut().unwrap() = last;
            ask_read(tally, &file, 2 * m, m);
            file.push(last);
            ask_read(tally, &file, 2 * m, m);
        }
    }
    tally.end_part("files: layouts", "");
}

/// Ends the program unless both calls were seen to refuse by each of their numbers.
fn check_all_seen(tally: &Tally) {
    for (name, numbers) in [(READ, &[5, 10][..]), (WRITE, &[1, 2, 3, 4, 5, 10])] {
        for &number in numbers {
            assert!(
                tally.was_refused(name, number),
                "{name}: {number} was never due"
            );
        }
    }
}

pub fn run(tally: &mut Tally) {
    layouts(tally);
    checks(tally);
    lists(tally);
    mutations(tally);
    check_all_seen(tally);
}
