//! 01's sets, by their numbers there.

use super::network::{bit, Network};

/// The set of the entries below `size` that are chosen.
fn table(size: usize, chosen: impl Fn(usize) -> bool) -> u64 {
    (0..size)
        .filter(|&t| chosen(t))
        .fold(0, |set, t| set | 1 << t)
}

impl Network {
    /// 1. SDC, as request Five has it: in two words, lower entries first.
    pub fn sdc(&self, g: usize) -> [u64; 2] {
        let entries = self.entries(g);
        let set = |e: usize| {
            let (t, o) = (e % entries, e / entries == 1);
            e < 2 * entries && o != bit(self.tables[g], t)
        };
        [table(64, set), table(64, |e| set(64 + e))]
    }

    /// The entry of gate g that comes at each pattern.
    fn entries_at(&self, g: usize) -> Vec<usize> {
        (0..self.patterns())
            .map(|x| self.entry(&self.values(x, None), g))
            .collect()
    }

    /// 2. CDC, as request Two has it: no pattern that comes gives the entry.
    pub fn cdc(&self, g: usize) -> u64 {
        let given = self.entries_at(g);
        let came = |t| (0..self.patterns()).any(|x| !self.excluded[x] && given[x] == t);
        table(self.entries(g), |t| !came(t))
    }

    /// 3. ODC, as one truth value for each pattern.
    pub fn odc(&self, g: usize) -> Vec<bool> {
        (0..self.patterns())
            .map(|x| self.outputs_at(x, None) == self.outputs_at(x, Some(g)))
            .collect()
    }

    /// 4. Full table.
    pub fn full(&self, g: usize) -> u64 {
        let (given, odc) = (self.entries_at(g), self.odc(g));
        table(self.entries(g), |t| {
            (0..self.patterns()).all(|x| given[x] != t || self.excluded[x] || odc[x])
        })
    }

    /// 5. H of all gates: `[gate][pattern]`.
    pub fn compatible(&self) -> Vec<Vec<bool>> {
        let free: Vec<_> = (0..self.m()).map(|g| self.free_at_entries(g)).collect();
        let by_pattern: Vec<Vec<bool>> = (0..self.patterns())
            .map(|x| self.compatible_at(x, &free))
            .collect();
        (0..self.m())
            .map(|g| by_pattern.iter().map(|h| h[g]).collect())
            .collect()
    }

    /// Which gates' H hold the pattern x; `free[gate][entry]` are the fan-ins that are free there.
    fn compatible_at(&self, x: usize, free: &[Vec<u64>]) -> Vec<bool> {
        let values = self.values(x, None);
        let named = |s: usize| self.outputs.contains(&s);
        let mut h: Vec<bool> = (0..self.n + self.m())
            .map(|s| !named(s) || self.excluded[x])
            .collect();
        for g in (0..self.m()).rev() {
            self.take_edges(g, free[g][self.entry(&values, g)], &mut h);
        }
        h[self.n..].to_vec()
    }

    /// Intersects the sets of gate g's fan-ins with their edge sets, at a pattern where these are free.
    fn take_edges(&self, g: usize, free: u64, h: &mut [bool]) {
        let own = h[self.n + g];
        for (r, &f) in self.fanins[g].iter().enumerate() {
            h[f] = h[f] && (own || bit(free, r));
        }
    }

    fn free_at_entries(&self, g: usize) -> Vec<u64> {
        (0..self.entries(g)).map(|t| self.free(g, t)).collect()
    }

    /// 6. The fan-ins that are free at the entry t of gate g, where its value counts: fan-in r at bit r.
    fn free(&self, g: usize, t: usize) -> u64 {
        let value = |entry| bit(self.tables[g], entry);
        let mut free = 0;
        for r in 0..self.fanins[g].len() {
            let others = !(free | 1 << r);
            let held = |u: usize| (u ^ t) as u64 & others == 0;
            if (0..self.entries(g)).all(|u| !held(u) || value(u) == value(t)) {
                free |= 1 << r;
            }
        }
        free
    }

    /// 7. Open tables of all gates.
    pub fn open_tables(&self) -> Vec<u64> {
        let h = self.compatible();
        (0..self.m()).map(|g| self.open_table(g, &h)).collect()
    }

    fn open_table(&self, g: usize, h: &[Vec<bool>]) -> u64 {
        let mut closed = vec![false; self.entries(g)];
        for x in (0..self.patterns()).filter(|&x| !h[g][x]) {
            let values = self.values(x, None);
            for (t, shut) in closed.iter_mut().enumerate() {
                *shut = *shut || self.delivered(g, t, x, &values, h);
            }
        }
        table(self.entries(g), |t| !closed[t])
    }

    /// t agrees with the fan-in values at the pattern x, except at gates whose H holds x.
    fn delivered(&self, g: usize, t: usize, x: usize, values: &[bool], h: &[Vec<bool>]) -> bool {
        self.fanins[g].iter().enumerate().all(|(r, &f)| {
            let moves = f >= self.n && h[f - self.n][x];
            moves || values[f] == bit(t as u64, r)
        })
    }
}
