//! What a session's user asks for: gates that are none, tables that fit and that do not, open and closed entries, and handfuls
//! of gates.

use crate::call::Call;
use crate::random::Random;
use crate::reference::{all_entries, State};

/// A random list of calls on a session fresh from a load, with the tables, sets and bytes asked for at the end.
pub fn calls(rng: &mut Random, fresh: &State) -> Vec<Call> {
    let mut user = User::new(rng, fresh);
    let length = user.rng.within(0, 40);
    let mut list: Vec<Call> = (0..length).map(|_| user.call()).collect();
    list.extend([
        Call::AllTables,
        Call::PatternSets,
        Call::Hidden,
        Call::Write,
        Call::WriteBlif,
    ]);
    list
}

pub struct User<'a> {
    rng: &'a mut Random,
    fresh: &'a State,
    /// The gate asked for last, and the last table asked for at each gate.
    gate: usize,
    tables: Vec<u64>,
}

impl User<'_> {
    pub fn new<'a>(rng: &'a mut Random, fresh: &'a State) -> User<'a> {
        User {
            rng,
            fresh,
            gate: fresh.loaded.n,
            tables: fresh.loaded.tables.clone(),
        }
    }

    pub fn call(&mut self) -> Call {
        match self.rng.within(0, 9) {
            0..=4 => self.exchange(),
            5..=7 => self.verdict(),
            8 => Call::Tables { gate: self.gate() },
            _ => self.rng.pick(&[Call::Write, Call::WriteBlif]).clone(),
        }
    }

    pub fn exchange(&mut self) -> Call {
        let gate = self.gate();
        let table = self.table(gate);
        Call::Exchange { gate, table }
    }

    /// On one gate, or a handful; at times with pairs at fault at random places, or lists of unequal length.
    pub fn verdict(&mut self) -> Call {
        let mut pairs = self.handful();
        if self.rng.chance(3) {
            let gate = self.gate();
            pairs = vec![(gate as u64, self.table(gate))];
        }
        if self.rng.chance(4) {
            for _ in 0..self.rng.within(1, 3) {
                let fault = self.fault(&pairs);
                pairs.insert(self.rng.within(0, pairs.len()), fault);
            }
        }
        let (mut gates, mut tables): (Vec<u64>, Vec<u64>) = pairs.into_iter().unzip();
        if self.rng.chance(12) {
            let first = self.rng.chance(2);
            let list = if first { &mut gates } else { &mut tables };
            let (length, more) = (list.len(), self.rng.within(1, 40));
            let other = [0, length.saturating_sub(1), length + 1, length + more];
            list.resize(*self.rng.pick(&other), 0);
        }
        Call::Verdict { gates, tables }
    }

    /// One to all gates with tables of one kind or of any that fit; at times with a pair at fault at a random place.
    pub fn order(&mut self, kind: usize) -> Vec<(u64, u64)> {
        let most = *self.rng.pick(&[2, 4, self.fresh.loaded.m()]);
        let mut gates = self.some_gates(most);
        if gates.is_empty() {
            gates.push(self.gate);
        }
        let pair = |gate| (gate as u64, self.table_of(gate, kind));
        let mut pairs: Vec<(u64, u64)> = gates.into_iter().map(pair).collect();
        if self.rng.chance(8) {
            let fault = self.fault(&pairs);
            pairs.insert(self.rng.within(0, pairs.len()), fault);
        }
        pairs
    }

    /// None to all gates, each once, in any order, with tables of one kind or of any that fit; now and then up to 200 pairs.
    fn handful(&mut self) -> Vec<(u64, u64)> {
        let (n, m) = (self.fresh.loaded.n, self.fresh.loaded.m());
        let most = *self.rng.pick(&[2, 4, m]);
        let kind = self.rng.within(0, 9);
        let mut gates = self.some_gates(most);
        if self.rng.chance(20) {
            gates.extend((0..self.rng.within(1, 160)).map(|_| self.rng.within(n, n + m - 1)));
        }
        let pair = |gate| (gate as u64, self.table_of(gate, kind));
        gates.into_iter().map(pair).collect()
    }

    /// Up to so many gates, each once, in any order.
    fn some_gates(&mut self, most: usize) -> Vec<usize> {
        let (n, m) = (self.fresh.loaded.n, self.fresh.loaded.m());
        let mut gates: Vec<usize> = (n..n + m).collect();
        (0..m).for_each(|i| gates.swap(i, self.rng.within(i, m - 1)));
        gates.truncate(self.rng.within(0, most));
        gates
    }

    /// A pair that 11, 12 or, behind some other, 16 refuses.
    fn fault(&mut self, pairs: &[(u64, u64)]) -> (u64, u64) {
        let (n, m) = (self.fresh.loaded.n, self.fresh.loaded.m());
        let gate = self.rng.within(n, n + m - 1);
        let again = pairs.get(self.rng.within(0, pairs.len()));
        let wide = self.too_wide(gate - n);
        match (self.rng.within(0, 2), wide) {
            (1, Some(wide)) => (gate as u64, wide),
            (2, _) => *again.unwrap_or(&(gate as u64, self.fresh.loaded.tables[gate - n])),
            _ => (self.no_gate() as u64, self.rng.next()),
        }
    }

    /// A list of pairs that exchanges would accept, and a part of it.
    pub fn acceptable(&mut self) -> [Vec<(u64, u64)>; 2] {
        let gates = self.some_gates(self.fresh.loaded.m());
        let pair = |gate| (gate as u64, self.table_of(gate, 1));
        let all: Vec<(u64, u64)> = gates.into_iter().map(pair).collect();
        let part = all.iter().copied().filter(|_| self.rng.chance(2)).collect();
        [all, part]
    }

    /// Mostly a gate, often the last one; else none.
    pub fn gate(&mut self) -> usize {
        let (n, m) = (self.fresh.loaded.n, self.fresh.loaded.m());
        match self.rng.within(0, 11) {
            0 => return self.no_gate(),
            1..=5 => {}
            _ => self.gate = self.rng.within(n, n + m - 1),
        }
        self.gate
    }

    /// An input, the number behind the last gate, or one with the low bits of a gate's.
    fn no_gate(&mut self) -> usize {
        let (n, m) = (self.fresh.loaded.n, self.fresh.loaded.m());
        let alike = [64, 256, 1 << 32, 1 << 63].map(|high| self.gate + high);
        let none = [0, n - 1, n + m, n + m + 1, 64, 255, usize::MAX];
        *self.rng.pick(&[&alike[..], &none[..]].concat())
    }

    /// A table for that gate, at times one that does not fit. Any table where the gate is none.
    pub fn table(&mut self, gate: usize) -> u64 {
        let Ok(g) = self.fresh.place(gate) else {
            return self.rng.next();
        };
        match (self.rng.within(0, 9), self.too_wide(g)) {
            (9, Some(wide)) => wide,
            (kind, _) => self.table_of(gate, kind),
        }
    }

    /// A table that fits: any, or one that alters open entries, entries of the full table, one entry or none of the loaded
    /// table, by kinds 0 to 8; and of any of these kinds.
    fn table_of(&mut self, gate: usize, kind: usize) -> u64 {
        let g = gate - self.fresh.loaded.n;
        let (loaded, open) = (self.fresh.loaded.tables[g], self.fresh.open[g]);
        let entries = self.fresh.loaded.entries(g);
        let all = all_entries(self.fresh.loaded.fanins[g].len());
        let some = self.rng.next();
        let table = match kind {
            0 => *self.rng.pick(&[some & all, loaded ^ all]),
            1 | 2 => loaded ^ (open & some),
            3 => loaded ^ open,
            4 => loaded ^ 1 << self.rng.within(0, entries - 1),
            5 => loaded,
            6 => self.tables[g] ^ (open & some),
            7 | 8 => loaded ^ (self.fresh.loaded.full(g) & some),
            _ => {
                let kind = self.rng.within(0, 8);
                return self.table_of(gate, kind);
            }
        };
        self.tables[g] = table;
        table
    }

    /// None is for a gate of six fan-ins.
    fn too_wide(&mut self, g: usize) -> Option<u64> {
        let (loaded, entries) = (self.fresh.loaded.tables[g], self.fresh.loaded.entries(g));
        if entries == 64 {
            return None;
        }
        let (next, any) = (1 << entries, 1 << self.rng.within(entries, 63));
        let wide = [loaded | next, loaded | any, 1 << 63, u64::MAX];
        Some(*self.rng.pick(&wide))
    }
}
