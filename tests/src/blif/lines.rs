//! Random texts: the lines of a network under any names and with any covers, and their free layout.

use crate::random::Random;
use crate::reference::{all_entries, bit, Network};

pub type Word = Vec<u8>;
pub type Line = Vec<Word>;

/// As a text can say it: nothing is excluded, and each output is another signal.
pub fn sayable(rng: &mut Random, s: &Network) -> Network {
    let mut outputs: Vec<usize> = Vec::new();
    for &signal in &s.outputs {
        let free = (0..s.n + s.m()).filter(|signal| !outputs.contains(signal));
        let free: Vec<usize> = free.collect();
        if free.contains(&signal) {
            outputs.push(signal);
        } else if !free.is_empty() {
            outputs.push(*rng.pick(&free));
        }
    }
    Network {
        excluded: vec![false; s.patterns()],
        outputs,
        ..s.clone()
    }
}

/// The lines of a network that a text can say.
pub fn lines_of(rng: &mut Random, s: &Network) -> Vec<Line> {
    let names = names(rng, s.n + s.m());
    let line = |keyword: &str, signals: &[usize]| -> Line {
        let words = signals.iter().map(|&signal| names[signal].clone());
        [keyword.into()].into_iter().chain(words).collect()
    };
    let inputs: Vec<usize> = (0..s.n).collect();
    let mut lines = vec![
        vec![b".model".to_vec(), name(rng)],
        line(".inputs", &inputs),
        line(".outputs", &s.outputs),
    ];
    for g in 0..s.m() {
        let signals = [&s.fanins[g][..], &[s.n + g]].concat();
        lines.push(line(".names", &signals));
        lines.extend(cover(rng, s.tables[g], s.fanins[g].len()));
    }
    lines.push(vec![b".end".to_vec()]);
    lines
}

fn names(rng: &mut Random, count: usize) -> Vec<Word> {
    let mut names: Vec<Word> = Vec::new();
    while names.len() < count {
        let name = name(rng);
        if !names.contains(&name) {
            names.push(name);
        }
    }
    names
}

/// What else stands in a text, and may be a name as well.
const OTHERS: [&str; 14] = [
    ".model", ".inputs", ".outputs", ".names", ".end", "0", "1", "-", "11", "1-", "\\", ".", "s",
    "!~",
];

/// Any word: one that has another meaning elsewhere, the beginning of others, one that goes out, a long one.
pub fn name(rng: &mut Random) -> Word {
    match rng.within(0, 9) {
        0 => rng.pick(&OTHERS).as_bytes().to_vec(),
        1 => b"a".repeat(rng.within(1, 20)),
        2 | 3 => format!("s{}", rng.within(0, 60)).into(),
        4 => printing(rng, 200),
        _ => printing(rng, 6),
    }
}

/// Printing bytes without `#`.
fn printing(rng: &mut Random, most: usize) -> Word {
    let length = rng.within(1, most);
    let byte = |_| match rng.within(0x21, 0x7E) as u8 {
        b'#' => b'_',
        byte => byte,
    };
    (0..length).map(byte).collect()
}

/// The entries that a row answers.
fn answered(row: &[u8]) -> u64 {
    let agrees = |t: u64| (0..row.len()).all(|r| row[r] == b'-' || bit(t, r) == (row[r] == b'1'));
    let entries = 0..1u64 << row.len();
    entries.filter(|&t| agrees(t)).map(|t| 1 << t).sum()
}

/// A cover of ones or, where the table has some, of zeros; its rows may overlap and repeat, in any order.
fn cover(rng: &mut Random, table: u64, k: usize) -> Vec<Line> {
    let all = all_entries(k);
    let zeros = table != all && rng.chance(2);
    let set = if zeros { all ^ table } else { table };
    let digit = if zeros { "0" } else { "1" };
    let (mut rows, mut covered): (Vec<Line>, u64) = (Vec::new(), 0);
    for t in shuffled(rng, 1 << k) {
        if bit(set, t) && (!bit(covered, t) || rng.chance(6)) {
            let row = row(rng, set, t, k);
            covered |= answered(&row);
            rows.push(vec![row, digit.into()]);
        }
    }
    if rng.chance(8) && !rows.is_empty() {
        rows.push(rng.pick(&rows).clone());
    }
    rows
}

/// A row that answers the entry t and no entry outside the set, now and then as wide as can be.
fn row(rng: &mut Random, set: u64, t: usize, k: usize) -> Word {
    let mut row: Word = (0..k).map(|r| b"01"[t >> r & 1]).collect();
    let often = rng.within(1, 3);
    for r in shuffled(rng, k) {
        let mut wider = row.clone();
        wider[r] = b'-';
        if answered(&wider) & !set == 0 && rng.chance(often) {
            row = wider;
        }
    }
    row
}

fn shuffled(rng: &mut Random, count: usize) -> Vec<usize> {
    let mut numbers: Vec<usize> = (0..count).collect();
    (0..count).for_each(|i| numbers.swap(i, rng.within(i, count - 1)));
    numbers
}

/// The text of the lines: one space and no more than is due, or blanks, comments and blank lines one time in so many.
pub fn laid_out(rng: &mut Random, lines: &[Line]) -> Vec<u8> {
    let one_in = *rng.pick(&[2, 6, 60, usize::MAX]);
    let mut text = Vec::new();
    for line in lines {
        idle_lines(rng, one_in, &mut text);
        for (i, word) in line.iter().enumerate() {
            match i {
                0 => blanks(rng, one_in, 0, &mut text),
                _ => blanks(rng, one_in, 1, &mut text),
            }
            text.extend(word);
        }
        end_of_line(rng, one_in, &mut text);
    }
    idle_lines(rng, one_in, &mut text);
    if rng.chance(4) {
        text.pop();
    }
    text
}

/// At least so many blanks, which are a space mostly.
fn blanks(rng: &mut Random, one_in: usize, least: usize, text: &mut Vec<u8>) {
    if rng.chance(one_in) {
        text.extend((0..rng.within(least, 4)).map(|_| rng.pick(b" \t\r")));
    } else {
        text.extend(b" ".repeat(least));
    }
}

/// A comment now and then, behind blanks or behind the last word.
fn end_of_line(rng: &mut Random, one_in: usize, text: &mut Vec<u8>) {
    blanks(rng, one_in, 0, text);
    if rng.chance(one_in) {
        let bytes = (0..rng.within(0, 12)).map(|_| rng.next() as u8);
        text.push(b'#');
        text.extend(bytes.filter(|&b| b != b'\n'));
    }
    text.push(b'\n');
}

/// Blank lines and lines of a comment.
fn idle_lines(rng: &mut Random, one_in: usize, text: &mut Vec<u8>) {
    while rng.chance(one_in) {
        end_of_line(rng, one_in, text);
    }
}
