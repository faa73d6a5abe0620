//! A network, and the values of its signals.

/// `excluded[x]`: pattern x never comes.
#[derive(Clone, Debug, PartialEq)]
pub struct Network {
    pub n: usize,
    pub excluded: Vec<bool>,
    pub fanins: Vec<Vec<usize>>,
    pub tables: Vec<u64>,
    pub outputs: Vec<usize>,
}

pub fn bit(x: u64, i: usize) -> bool {
    x >> i & 1 == 1
}

/// All entries of a table with k fan-ins; of six these are all 64 bits.
pub fn all_entries(k: usize) -> u64 {
    u64::MAX >> (64 - (1 << k))
}

/// No bit is set past 2^k.
pub fn fits(table: u64, k: usize) -> bool {
    table & !all_entries(k) == 0
}

/// The weight of a pattern: how many of its lines are on.
pub fn weight(x: usize) -> u32 {
    x.count_ones()
}

/// A set of patterns as words of 64, the spare bits zero.
pub fn words_of(set: &[bool]) -> Vec<u64> {
    let word = |part: &[bool]| {
        let ones = part.iter().enumerate().filter(|(_, &one)| one);
        ones.map(|(b, _)| 1 << b).sum()
    };
    set.chunks(64).map(word).collect()
}

impl Network {
    pub fn m(&self) -> usize {
        self.fanins.len()
    }

    pub fn patterns(&self) -> usize {
        1 << self.n
    }

    /// Some gate has more than four fan-ins.
    pub fn is_wide(&self) -> bool {
        self.fanins.iter().any(|f| f.len() > 4)
    }

    /// The entries of gate g's table.
    pub fn entries(&self, g: usize) -> usize {
        1 << self.fanins[g].len()
    }

    /// The entry of gate g that the values give.
    pub fn entry(&self, values: &[bool], g: usize) -> usize {
        let fanins = self.fanins[g].iter().enumerate();
        fanins.map(|(r, &f)| (values[f] as usize) << r).sum()
    }

    /// The values of all signals at the pattern x; the gate `inverted` counts the other way round.
    pub fn values(&self, x: usize, inverted: Option<usize>) -> Vec<bool> {
        let mut values = Vec::with_capacity(self.n + self.m());
        values.extend((0..self.n).map(|i| bit(x as u64, i)));
        for g in 0..self.m() {
            let v = bit(self.tables[g], self.entry(&values, g));
            values.push(v != (inverted == Some(g)));
        }
        values
    }

    pub fn outputs_at(&self, x: usize, inverted: Option<usize>) -> Vec<bool> {
        let values = self.values(x, inverted);
        self.outputs.iter().map(|&s| values[s]).collect()
    }

    /// Of the patterns not excluded at which an output of the other network differs, the one of the least weight, the smaller number
    /// among equals; and the lowest output that differs there.
    pub fn harm(&self, other: &Network) -> Option<(usize, usize)> {
        let lowest = |x: usize| {
            let (a, b) = (self.outputs_at(x, None), other.outputs_at(x, None));
            let i = (0..a.len()).find(|&i| a[i] != b[i]);
            i.map(|i| (x, i))
        };
        let patterns = (0..self.patterns()).filter(|&x| !self.excluded[x]);
        let harmed = patterns.filter_map(lowest);
        harmed.min_by_key(|&(x, _)| (weight(x), x))
    }
}
