//! Networks, and verdicts that change their outputs at a few chosen patterns and at no others.

use crate::random::Random;
use crate::reference::{bit, weight, Network};

pub struct Chosen {
    /// As loaded.
    pub network: Network,
    /// The gates of the verdict with their tables.
    pub pairs: Vec<(u64, u64)>,
    /// The patterns at which each output changes, excluded ones too.
    changed: Vec<Vec<usize>>,
}

/// A chosen pattern, and the last gate of its minterm.
type Minterm = (usize, usize);

impl Chosen {
    /// Each pattern has its minterm, whose last gate is either in place and taken away by the verdict, or put in place by it. Sums of
    /// some minterms are the outputs, with others among them.
    pub fn new(rng: &mut Random, n: usize) -> Chosen {
        let patterns = patterns(rng, n);
        let network = Network {
            n,
            excluded: excluded(rng, n, &patterns),
            fanins: Vec::new(),
            tables: Vec::new(),
            outputs: Vec::new(),
        };
        let mut chosen = Chosen {
            network,
            pairs: Vec::new(),
            changed: Vec::new(),
        };
        let width = rng.within(3, 6);
        let minterms = patterns.iter().map(|&x| (x, chosen.minterm(rng, x, width)));
        let minterms: Vec<Minterm> = minterms.collect();
        chosen.outputs(rng, &minterms);
        shuffle(rng, &mut chosen.pairs);
        chosen
    }

    /// A new gate's signal.
    fn gate(&mut self, fanins: Vec<usize>, table: u64) -> usize {
        self.network.fanins.push(fanins);
        self.network.tables.push(table);
        self.network.n + self.network.m() - 1
    }

    /// Gates of up to `width` fan-ins, each the AND of the one before and of literals that are one at the pattern x; the last is for
    /// the verdict, and its signal is given.
    fn minterm(&mut self, rng: &mut Random, x: usize, width: usize) -> usize {
        let n = self.network.n;
        let mut lines: Vec<usize> = (0..n).collect();
        shuffle(rng, &mut lines);
        let mut before = None;
        while !lines.is_empty() {
            let mut fanins: Vec<usize> = before.into_iter().collect();
            let room = lines.len().min(width - fanins.len());
            fanins.extend(lines.drain(..room));
            shuffle(rng, &mut fanins);
            let ones = fanins.iter().map(|&f| f >= n || bit(x as u64, f));
            let entry: usize = ones.enumerate().map(|(r, one)| (one as usize) << r).sum();
            before = Some(self.gate(fanins, 1 << entry));
        }
        let last = before.expect("some line");
        let table = &mut self.network.tables[last - n];
        let other = if rng.chance(2) { 0 } else { *table };
        self.pairs.push((last as u64, *table - other));
        *table = other;
        last
    }

    /// Each minterm is in one sum or two. Every sum is an output; lines, minterms and repeats are the others.
    fn outputs(&mut self, rng: &mut Random, minterms: &[Minterm]) {
        let mut sums = vec![Vec::new(); rng.within(1, minterms.len())];
        for &minterm in minterms {
            let places = [0; 2].map(|_| rng.within(0, sums.len() - 1));
            let sums = sums.iter_mut().enumerate();
            let taken = sums.filter(|(i, _)| places.contains(i));
            taken.for_each(|(_, sum)| sum.push(minterm));
        }
        sums.retain(|sum| !sum.is_empty());
        let mut outputs: Vec<(usize, Vec<usize>)> = Vec::new();
        for sum in sums {
            outputs.push((self.sum(rng, &sum), sum.iter().map(|s| s.0).collect()));
        }
        for _ in 0..rng.within(0, 8 - outputs.len()) {
            let (x, minterm) = *rng.pick(minterms);
            let line = (rng.within(0, self.network.n - 1), Vec::new());
            let again = rng.pick(&outputs).clone();
            outputs.push(rng.pick(&[line, (minterm, vec![x]), again]).clone());
        }
        shuffle(rng, &mut outputs);
        (self.network.outputs, self.changed) = outputs.into_iter().unzip();
    }

    /// The parity of these minterms, and at times of a line: it changes wherever one of the minterms does.
    fn sum(&mut self, rng: &mut Random, minterms: &[Minterm]) -> usize {
        let mut fanins: Vec<usize> = minterms.iter().map(|m| m.1).collect();
        if fanins.len() < 6 && rng.chance(2) {
            fanins.push(rng.within(0, self.network.n - 1));
        }
        shuffle(rng, &mut fanins);
        let odd = (0..1usize << fanins.len()).filter(|t| t.count_ones() % 2 == 1);
        let table = odd.fold(0, |table, t| table | 1 << t);
        self.gate(fanins, table)
    }

    /// The chosen patterns that are harmed, and those that are excluded.
    pub fn parted(&self) -> (Vec<usize>, Vec<usize>) {
        let all = self.changed.iter().flatten().copied();
        all.partition(|&x| !self.network.excluded[x])
    }

    /// The lowest output that changes at the pattern.
    pub fn lowest_output(&self, x: usize) -> Option<usize> {
        self.changed
            .iter()
            .position(|patterns| patterns.contains(&x))
    }

    /// The pattern and the output that the verdict names, where it finds harm.
    pub fn harm(&self) -> Option<(usize, usize)> {
        let (mut harmed, _) = self.parted();
        harmed.sort_by_key(|&x| (weight(x), x));
        let first = *harmed.first()?;
        Some((first, self.lowest_output(first)?))
    }
}

fn shuffle<T>(rng: &mut Random, list: &mut [T]) {
    (0..list.len()).for_each(|i| list.swap(i, rng.within(i, list.len() - 1)));
}

/// One to six patterns: any, some highest lines, the one before with its lines moved up by one, or all lines below its highest one,
/// which is a smaller number and mostly of more weight.
fn patterns(rng: &mut Random, n: usize) -> Vec<usize> {
    let last = (1 << n) - 1;
    let count = rng.within(1, last.min(5) + 1);
    let mut chosen: Vec<usize> = Vec::new();
    while chosen.len() < count {
        let (lines, any) = (rng.within(1, n), rng.within(0, last));
        let before = *chosen.last().unwrap_or(&any);
        let x = match rng.within(0, 3) {
            0 => (1 << before.checked_ilog2().unwrap_or(0)) - 1,
            1 => last & !(last >> lines),
            2 => last & before << 1 | before >> (n - 1),
            _ => any,
        };
        if !chosen.contains(&x) {
            chosen.push(x);
        }
    }
    chosen
}

/// Of the chosen patterns none, the lightest, some or all are excluded; of the others none, few or many.
fn excluded(rng: &mut Random, n: usize, chosen: &[usize]) -> Vec<bool> {
    let others = *rng.pick(&[0, 8, 2]);
    let lightest = chosen.iter().min_by_key(|&&x| (weight(x), x));
    let kind = rng.within(0, 6);
    let mut one = |x: usize| match kind {
        _ if !chosen.contains(&x) => others > 0 && rng.chance(others),
        0 | 1 => false,
        2 | 3 => lightest == Some(&x),
        4 | 5 => rng.chance(2),
        _ => true,
    };
    (0..1 << n).map(&mut one).collect()
}
