//! Random networks over all bounds, from a seed that is printed.

use crate::reference::{all_entries, bit};

/// xorshift64*: small, and the same everywhere.
pub struct Random(u64);

impl Random {
    /// The numbers of one case of a part.
    pub fn new(seed: u64, part: &str, case: usize) -> Random {
        let mut state = seed;
        for x in part.bytes().map(u64::from).chain([case as u64]) {
            state = (state ^ x).wrapping_mul(0x9E37_79B9_7F4A_7C15);
            state ^= state >> 29;
        }
        Random(state | 1)
    }

    pub fn next(&mut self) -> u64 {
        self.0 ^= self.0 >> 12;
        self.0 ^= self.0 << 25;
        self.0 ^= self.0 >> 27;
        self.0.wrapping_mul(0x2545_F491_4F6C_DD1D)
    }

    /// A number from `low` to `high`, both included.
    pub fn within(&mut self, low: usize, high: usize) -> usize {
        low + (self.next() >> 11) as usize % (high - low + 1)
    }

    pub fn chance(&mut self, one_in: usize) -> bool {
        self.within(1, one_in) == 1
    }

    pub fn pick<'a, T>(&mut self, items: &'a [T]) -> &'a T {
        &items[self.within(0, items.len() - 1)]
    }
}

/// The file of a random network: mostly small, and now and then at the bounds.
pub fn network(rng: &mut Random, case: usize) -> Vec<u8> {
    let (n, m) = match case % 50 {
        0 => (10, 40),
        1 => (10, rng.within(1, 40)),
        2 => (9, rng.within(1, 30)),
        3 => (8, rng.within(1, 40)),
        4 | 5 => (rng.within(1, 7), 40),
        6 | 7 => (rng.within(1, 10), 1),
        _ => (rng.within(1, 7), rng.within(1, 12)),
    };
    network_of(rng, n, m)
}

/// The file of a random network with at most six inputs and twelve gates.
pub fn small_network(rng: &mut Random) -> Vec<u8> {
    let (n, m) = (rng.within(1, 6), rng.within(1, 12));
    network_of(rng, n, m)
}

/// The file of a network, as long as any that loads.
pub fn longest_network(rng: &mut Random) -> Vec<u8> {
    let head = [0x4E, 0x49, 10, 40, 8, 0x4E, 0x58];
    let gates = (0..40).flat_map(|_| record(&[0, 1, 2, 3, 4, 5], table(rng, 6)));
    let gates: Vec<u8> = gates.collect();
    [&head[..], &[1; 128], &gates, &[0x4E, 0x4F, 49].repeat(8)].concat()
}

/// The least and the most fan-ins of a network's gates: narrow gates only, mixed, or wide ones only.
const ARITIES: [(usize, usize); 3] = [(1, 4), (1, 6), (5, 6)];

/// The file of a random network with n inputs and m gates, which have fewer fan-ins only where there are not so many signals.
pub fn network_of(rng: &mut Random, n: usize, m: usize) -> Vec<u8> {
    let (p, arities) = (rng.within(1, 8), *rng.pick(&ARITIES));
    let mut file = vec![0x4E, 0x49, n as u8, m as u8, p as u8];
    file.extend(excluded(rng, n));
    let mut record = Vec::new();
    for g in 0..m {
        // now and then the twin of the gate before, so that each hides the other
        if g == 0 || !rng.chance(6) {
            record = gate(rng, n + g, arities);
        }
        file.extend(&record);
    }
    file.extend((0..p).flat_map(|_| output(rng, n + m, p)));
    file
}

/// The record of one of p outputs: mostly a late signal.
fn output(rng: &mut Random, signals: usize, p: usize) -> [u8; 3] {
    let low = if rng.chance(4) {
        0
    } else {
        signals.saturating_sub(p + 2)
    };
    [0x4E, 0x4F, rng.within(low, signals - 1) as u8]
}

/// The record of a gate with so many signals before it.
fn gate(rng: &mut Random, signals: usize, (least, most): (usize, usize)) -> Vec<u8> {
    let k = rng.within(least.min(signals), most.min(signals));
    let fanins = fanins(rng, signals, k);
    record(&fanins, table(rng, k))
}

fn record(fanins: &[u8], table: u64) -> Vec<u8> {
    let (mark, width) = if fanins.len() > 4 {
        (0x48, 8)
    } else {
        (0x47, 2)
    };
    let table = &table.to_le_bytes()[..width];
    [&[0x4E, mark, fanins.len() as u8], fanins, table].concat()
}

/// No record, or one of an empty, a sparse, a dense or a full excluded set, or of whole words of 64 patterns.
fn excluded(rng: &mut Random, n: usize) -> Vec<u8> {
    let kind = rng.within(0, 6);
    if kind < 2 {
        return Vec::new();
    }
    let mut set = vec![0u8; ((1 << n) / 8).max(1)];
    let mut word = false;
    for x in 0..1usize << n {
        if x % 64 == 0 {
            word = rng.chance(2);
        }
        let one = match kind {
            2 => false,
            3 => rng.chance(8),
            4 => !rng.chance(8),
            5 => word,
            _ => true,
        };
        set[x / 8] |= (one as u8) << (x % 8);
    }
    [vec![0x4E, 0x58], set].concat()
}

/// Fan-ins among the earlier signals; late ones more often, so that networks are deep and gates hide each other.
pub fn fanins(rng: &mut Random, signals: usize, k: usize) -> Vec<u8> {
    let mut fanins: Vec<u8> = Vec::new();
    while fanins.len() < k {
        let low = if rng.chance(2) {
            signals.saturating_sub(6)
        } else {
            0
        };
        let f = rng.within(low, signals - 1) as u8;
        if !fanins.contains(&f) {
            fanins.push(f);
        }
    }
    fanins
}

/// A table of k fan-ins: any, one with few or many ones, with a single one or a single zero, or one that does not depend on one
/// of them.
pub fn table(rng: &mut Random, k: usize) -> u64 {
    let mut table = rng.next();
    match rng.within(0, 7) {
        0 => table &= rng.next() & rng.next(),
        1 => table |= rng.next() | rng.next(),
        2 => {
            let one = 1 << rng.within(0, (1 << k) - 1);
            table = *rng.pick(&[one, !one]);
        }
        3 => {
            let r = rng.within(0, k - 1);
            let entries = (0..64).filter(|t| bit(table, t & !(1 << r)));
            table = entries.fold(0, |set, t| set | 1 << t);
        }
        _ => {}
    }
    table & all_entries(k)
}
