//! Changes of a text's lines, of which damages are made.

use super::lines::{name, Line, Word};
use crate::random::Random;

/// Where these lines stand in a text that reads.
pub const INPUTS: usize = 1;
pub const OUTPUTS: usize = 2;

/// A byte that stands in no word, in some word of the line.
pub fn foreign(rng: &mut Random, line: &mut Line) {
    let high = rng.within(0x7F, 0xFF) as u8;
    let byte = *rng.pick(&[
        0, 1, 8, 0x0B, 0x0C, 0x0E, 0x1A, 0x1F, 0x7F, 0x80, 0xFF, high,
    ]);
    let word = rng.within(0, line.len() - 1);
    let place = rng.within(0, line[word].len());
    line[word].insert(place, byte);
}

/// The places of the lines that are a block's first, or of its rows.
fn places(lines: &[Line], rows: bool) -> Vec<usize> {
    let inner = 3..lines.len() - 1;
    let opens = |at: &usize| lines[*at][0] == b".names";
    inner.filter(|at| opens(at) != rows).collect()
}

pub fn block(rng: &mut Random, lines: &[Line]) -> Option<usize> {
    Some(*rng.pick(&places(lines, false)))
}

pub fn row(rng: &mut Random, lines: &[Line]) -> Option<usize> {
    let rows = places(lines, true);
    (!rows.is_empty()).then(|| *rng.pick(&rows))
}

/// The names of the signals before that line.
pub fn known(lines: &[Line], at: usize) -> Vec<Word> {
    let blocks = places(lines, false).into_iter().filter(|&b| b < at);
    let own = blocks.filter_map(|b| lines[b].last().cloned());
    lines[INPUTS][1..].iter().cloned().chain(own).collect()
}

/// A name that stands nowhere.
pub fn fresh(rng: &mut Random, lines: &[Line]) -> Word {
    loop {
        let name = name(rng);
        if !lines.iter().any(|line| line.contains(&name)) {
            return name;
        }
    }
}

/// Any word, at the least place or behind it.
pub fn insert(rng: &mut Random, line: &mut Line, least: usize) -> Option<()> {
    line.insert(rng.within(least, line.len()), name(rng));
    Some(())
}

/// One of the line's names again, anywhere behind its first word.
pub fn twice(rng: &mut Random, line: &mut Line) -> Option<()> {
    let name = line[rng.within(1, line.len() - 1)].clone();
    line.insert(rng.within(1, line.len()), name);
    Some(())
}

/// So many names in the line, or some more.
pub fn more_names(rng: &mut Random, lines: &mut [Line], at: usize, count: usize) -> Option<()> {
    let count = *rng.pick(&[count, count, count + 1, 60]);
    while lines[at].len() <= count {
        let name = fresh(rng, lines);
        lines[at].push(name);
    }
    Some(())
}

/// A block before `.end` with seven fan-ins, where there are as many signals.
pub fn seven_fanins(rng: &mut Random, lines: &mut Vec<Line>) -> Option<()> {
    let (end, own) = (lines.len() - 1, fresh(rng, lines));
    let mut fanins = known(lines, end);
    while fanins.len() > 7 {
        fanins.remove(rng.within(0, fanins.len() - 1));
    }
    let full = fanins.len() == 7;
    let line = [vec![b".names".to_vec()], fanins, vec![own]].concat();
    full.then(|| lines.insert(end, line))
}

/// Blocks of one fan-in before `.end`, up to the forty-first.
pub fn forty_one(rng: &mut Random, lines: &mut Vec<Line>) -> Option<()> {
    while places(lines, false).len() < 41 {
        let (end, own) = (lines.len() - 1, fresh(rng, lines));
        let fanin = rng.pick(&known(lines, end)).clone();
        lines.insert(end, vec![b".names".to_vec(), fanin, own]);
    }
    Some(())
}

/// A name of a signal becomes that of another, wherever it stands.
pub fn made_one(rng: &mut Random, lines: &mut [Line]) -> Option<()> {
    let names = known(lines, lines.len());
    let (one, other) = (rng.pick(&names).clone(), rng.pick(&names).clone());
    let named = lines.iter_mut().filter(|line| line[0][0] == b'.');
    for word in named.flat_map(|line| &mut line[1..]) {
        if *word == one {
            *word = other.clone();
        }
    }
    (one != other).then_some(())
}

/// A row with the other digit beside one of the same block.
pub fn both_digits(rng: &mut Random, lines: &mut [Line]) -> Option<()> {
    let rows = places(lines, true);
    let second = |at: &&usize| rows.contains(&(**at - 1));
    let seconds: Vec<usize> = rows.iter().filter(second).copied().collect();
    let at = (!seconds.is_empty()).then(|| *rng.pick(&seconds))?;
    let at = *rng.pick(&[at, at - 1]);
    lines[at][1] = if lines[at][1] == b"1" { "0" } else { "1" }.into();
    Some(())
}

/// Lines that BLIF has elsewhere, or nowhere.
const KINDS: [&str; 16] = [
    ".latch a q re c 0",
    ".subckt x A=a",
    ".gate nand2 A=a O=b",
    ".exdc",
    ".clock c",
    ".search x",
    ".MODEL t",
    ".name a b",
    ".namess a b",
    ".ends",
    "model t",
    ".",
    "\\",
    "a b",
    "11",
    "12 1",
];

pub fn other_kind(rng: &mut Random, lines: &mut Vec<Line>) -> Option<()> {
    let words = rng.pick(&KINDS).split(' ');
    let line = words.map(|word| word.into()).collect();
    lines.insert(rng.within(0, lines.len()), line);
    Some(())
}

pub fn any_line(rng: &mut Random, lines: &mut Vec<Line>) -> Option<()> {
    let at = rng.within(0, lines.len() - 1);
    let line = lines[at].clone();
    if !rng.chance(3) {
        lines.remove(at);
    }
    if !rng.chance(3) {
        lines.insert(rng.within(0, lines.len()), line);
    }
    Some(())
}

pub fn any_word(rng: &mut Random, lines: &mut [Line]) -> Option<()> {
    let line = rng.pick(lines);
    let other = rng.pick(line).clone();
    let at = rng.within(0, lines.len() - 1);
    let word = rng.within(0, lines[at].len() - 1);
    match rng.within(0, 3) {
        0 => drop(lines[at].remove(word)),
        1 => lines[at].insert(word, other),
        _ => lines[at][word] = other,
    }
    Some(())
}

/// A block with its rows, behind others or before them.
pub fn block_moved(rng: &mut Random, lines: &mut Vec<Line>) -> Option<()> {
    let from = block(rng, lines)?;
    let rows = lines[from + 1..].iter();
    let rows = rows.take_while(|line| ![&b".names"[..], b".end"].contains(&&line[0][..]));
    let moved: Vec<Line> = lines.drain(from..=from + rows.count()).collect();
    let places = [places(lines, false), vec![lines.len() - 1]].concat();
    let to = *rng.pick(&places);
    lines.splice(to..to, moved);
    Some(())
}
