//! Request Four: the network that a BLIF text gives, and the text that goes out.

use super::file::demand;
use super::network::{bit, Network};
use std::collections::{HashMap, HashSet};

type Word<'a> = &'a [u8];
type Line<'a> = Vec<Word<'a>>;

/// The lines that have words.
fn lines(text: &[u8]) -> impl Iterator<Item = Line<'_>> {
    let lines = text.split(|&b| b == b'\n').map(words);
    lines.filter(|line| !line.is_empty())
}

/// The words before the comment.
fn words(line: &[u8]) -> Line<'_> {
    let line = line.split(|&b| b == b'#').next().unwrap_or_default();
    let words = line.split(|b| b" \t\r".contains(b));
    words.filter(|w| !w.is_empty()).collect()
}

/// The words behind the first; 17 where that is another one than is due, or some byte is not of 21 to 7E.
fn behind<'a>(due: &str, line: &Line<'a>) -> Result<Line<'a>, u64> {
    let printing = |word: &Word| word.iter().all(|b| (0x21..=0x7E).contains(b));
    demand(line[0] == due.as_bytes(), 17)?;
    demand(line.iter().all(printing), 17)?;
    Ok(line[1..].to_vec())
}

fn repeats(names: &[Word]) -> bool {
    names.iter().collect::<HashSet<_>>().len() < names.len()
}

/// The names of `.inputs` or `.outputs`.
fn names<'a>(due: &str, most: usize, line: &Line<'a>) -> Result<Line<'a>, u64> {
    let names = behind(due, line)?;
    demand(!repeats(&names), 18)?;
    demand((1..=most).contains(&names.len()), 3)?;
    Ok(names)
}

/// The fan-ins of a gate, and its rows: the marks and the digit.
struct Block<'a> {
    fanins: Vec<usize>,
    rows: Vec<(Word<'a>, Word<'a>)>,
}

impl<'a> Block<'a> {
    fn row(&mut self, line: &Line<'a>) -> Result<(), u64> {
        demand(line.len() == 2, 17)?;
        let (marks, digit) = (line[0], line[1]);
        demand(marks.len() == self.fanins.len(), 17)?;
        demand(marks.iter().all(|b| b"01-".contains(b)), 17)?;
        demand(digit == b"0" || digit == b"1", 17)?;
        demand(self.rows.first().is_none_or(|row| row.1 == digit), 17)?;
        self.rows.push((marks, digit));
        Ok(())
    }

    fn table(&self) -> u64 {
        let entries = 0..1 << self.fanins.len();
        let ones = entries.filter(|&t| self.value(t));
        ones.map(|t| 1 << t).sum()
    }

    /// Of the entry t.
    fn value(&self, t: usize) -> bool {
        let Some((_, digit)) = self.rows.first() else {
            return false;
        };
        let agrees = |(r, &mark): (usize, &u8)| match mark {
            b'-' => true,
            mark => bit(t as u64, r) == (mark == b'1'),
        };
        let covered = |marks: Word| marks.iter().enumerate().all(agrees);
        self.rows.iter().any(|row| covered(row.0)) == (*digit == b"1")
    }
}

/// The signal of each name, and the blocks so far.
struct Blocks<'a> {
    signals: HashMap<Word<'a>, usize>,
    blocks: Vec<Block<'a>>,
}

impl<'a> Blocks<'a> {
    fn new(inputs: &Line<'a>) -> Blocks<'a> {
        let signals = inputs.iter().zip(0..);
        Blocks {
            signals: signals.map(|(&name, i)| (name, i)).collect(),
            blocks: Vec::new(),
        }
    }

    /// The signals of the names; 18 where one is unknown.
    fn find(&self, names: &[Word]) -> Result<Vec<usize>, u64> {
        let signal = |name| self.signals.get(name).copied().ok_or(18);
        names.iter().map(signal).collect()
    }

    /// A line between `.outputs` and `.end`.
    fn line(&mut self, line: &Line<'a>) -> Result<(), u64> {
        if line[0] == b".names" {
            return self.open(&behind(".names", line)?);
        }
        self.blocks.last_mut().ok_or(17u64)?.row(line)
    }

    fn open(&mut self, names: &Line<'a>) -> Result<(), u64> {
        let (own, fanins) = names.split_last().ok_or(3u64)?;
        let signals = self.find(fanins)?;
        demand(!self.signals.contains_key(own) && !repeats(names), 18)?;
        demand((1..=6).contains(&fanins.len()), 3)?;
        demand(self.blocks.len() < 40, 3)?;
        self.signals.insert(own, self.signals.len());
        self.blocks.push(Block {
            fanins: signals,
            rows: Vec::new(),
        });
        Ok(())
    }
}

/// What reading a text answers: the network, or the refusal of the first line at fault.
pub fn read_blif(text: &[u8]) -> Result<Network, u64> {
    let mut lines = lines(text);
    let mut line = || lines.next().ok_or(17u64);
    demand(behind(".model", &line()?)?.len() == 1, 17)?;
    let inputs = names(".inputs", 10, &line()?)?;
    let outputs = names(".outputs", 8, &line()?)?;
    let mut read = Blocks::new(&inputs);
    let mut next = line()?;
    while next[0] != b".end" {
        read.line(&next)?;
        next = line()?;
    }
    demand(next.len() == 1, 17)?;
    let outputs = read.find(&outputs)?;
    demand(!read.blocks.is_empty(), 3)?;
    demand(line().is_err(), 17)?;
    Ok(Network {
        n: inputs.len(),
        excluded: vec![false; 1 << inputs.len()],
        tables: read.blocks.iter().map(Block::table).collect(),
        fanins: read.blocks.into_iter().map(|b| b.fanins).collect(),
        outputs,
    })
}

/// The network that goes out: behind its gates a copy for each output that repeats an earlier one or is an input.
pub fn outgoing(s: &Network) -> Network {
    let mut out = s.clone();
    out.excluded.fill(false);
    for (i, signal) in s.outputs.iter().enumerate() {
        if *signal < s.n || s.outputs[..i].contains(signal) {
            out.outputs[i] = out.n + out.m();
            out.fanins.push(vec![*signal]);
            out.tables.push(2);
        }
    }
    out
}

/// The text of a network; 3 where the copies make more than 40 gates.
pub fn write_blif(s: &Network) -> Result<String, u64> {
    let s = outgoing(s);
    demand(s.m() <= 40, 3)?;
    let inputs: Vec<usize> = (0..s.n).collect();
    let blocks: String = (0..s.m()).map(|g| block(&s, g)).collect();
    let (inputs, outputs) = (called(&inputs), called(&s.outputs));
    let head = format!(".model s\n.inputs{inputs}\n.outputs{outputs}\n");
    Ok(head + &blocks + ".end\n")
}

/// The names of signals, each behind a space.
fn called(signals: &[usize]) -> String {
    signals.iter().map(|s| format!(" s{s}")).collect()
}

fn block(s: &Network, g: usize) -> String {
    let signals = [&s.fanins[g][..], &[s.n + g]].concat();
    let ones = (0..s.entries(g)).filter(|&t| bit(s.tables[g], t));
    let rows = ones.map(|t| {
        let marks = (0..s.fanins[g].len()).map(|r| if bit(t as u64, r) { '1' } else { '0' });
        marks.collect::<String>() + " 1\n"
    });
    format!(".names{}\n{}", called(&signals), rows.collect::<String>())
}
