//! The state that a session's words hold, and the test of words made by hand (10).

use super::file::demand;
use super::network::{fits, words_of, Network};

// where each field of a session begins
pub const ARITY: usize = 3;
pub const FANINS: usize = 43;
pub const OUTPUTS: usize = 283;
pub const EXCLUDED: usize = 291;
pub const LOADED: usize = 307;
pub const CURRENT: usize = 347;
pub const OPEN: usize = 387;
pub const WORDS: usize = 427;

/// The loaded network, the current one, and the open tables of the loaded one.
#[derive(Clone, Debug, PartialEq)]
pub struct State {
    pub loaded: Network,
    pub current: Network,
    pub open: Vec<u64>,
}

impl State {
    /// Fresh from a load.
    pub fn fresh(network: Network) -> State {
        State {
            open: network.open_tables(),
            current: network.clone(),
            loaded: network,
        }
    }

    /// A session's words; the places that nothing fills are zero.
    pub fn words(&self) -> Vec<u64> {
        let s = &self.loaded;
        let arity: Vec<usize> = s.fanins.iter().map(|f| f.len()).collect();
        let fanins = s.fanins.iter().flat_map(|f| filled(&numbers(f), 6));
        [
            numbers(&[s.n, s.m(), s.outputs.len()]),
            filled(&numbers(&arity), 40),
            filled(&fanins.collect::<Vec<u64>>(), 240),
            filled(&numbers(&s.outputs), 8),
            filled(&words_of(&s.excluded), 16),
            filled(&s.tables, 40),
            filled(&self.current.tables, 40),
            filled(&self.open, 40),
        ]
        .concat()
    }

    /// 9 where words are missing, 10 where they hold no network.
    pub fn read(words: &[u64]) -> Result<State, u64> {
        demand(words.len() >= WORDS, 9)?;
        demand(words[..EXCLUDED].iter().all(|&w| w <= 255), 10)?;
        let (n, m, p) = (words[0] as usize, words[1] as usize, words[2] as usize);
        demand((1..=10).contains(&n), 10)?;
        demand((1..=40).contains(&m), 10)?;
        demand((1..=8).contains(&p), 10)?;
        let mut fanins = Vec::new();
        for g in 0..m {
            fanins.push(fanins_of(words, g, n + g)?);
        }
        let outputs: Vec<usize> = (0..p).map(|i| words[OUTPUTS + i] as usize).collect();
        demand(outputs.iter().all(|&signal| signal < n + m), 10)?;
        let loaded = Network {
            n,
            excluded: excluded_of(words, 1 << n)?,
            tables: tables_of(words, LOADED, &fanins)?,
            fanins,
            outputs,
        };
        Ok(State {
            current: Network {
                tables: tables_of(words, CURRENT, &loaded.fanins)?,
                ..loaded.clone()
            },
            open: words[OPEN..OPEN + m].to_vec(),
            loaded,
        })
    }

    /// The place of the gate with that signal number among the gates, or 11.
    pub fn place(&self, gate: usize) -> Result<usize, u64> {
        let (n, m) = (self.loaded.n, self.loaded.m());
        demand(gate >= n && gate < n + m, 11)?;
        Ok(gate - n)
    }
}

fn numbers(list: &[usize]) -> Vec<u64> {
    list.iter().map(|&x| x as u64).collect()
}

/// The words, and zeros up to this length.
fn filled(words: &[u64], length: usize) -> Vec<u64> {
    let mut part = words.to_vec();
    part.resize(length, 0);
    part
}

fn fanins_of(words: &[u64], g: usize, earlier: usize) -> Result<Vec<usize>, u64> {
    let k = words[ARITY + g] as usize;
    demand((1..=6).contains(&k), 10)?;
    let mut fanins = Vec::new();
    for r in 0..k {
        let f = words[FANINS + 6 * g + r] as usize;
        demand(f < earlier && !fanins.contains(&f), 10)?;
        fanins.push(f);
    }
    Ok(fanins)
}

fn excluded_of(words: &[u64], patterns: usize) -> Result<Vec<bool>, u64> {
    let all: Vec<bool> = (0..1024)
        .map(|x| words[EXCLUDED + x / 64] >> (x % 64) & 1 == 1)
        .collect();
    demand(all[patterns..].iter().all(|&one| !one), 10)?;
    Ok(all[..patterns].to_vec())
}

fn tables_of(words: &[u64], at: usize, fanins: &[Vec<usize>]) -> Result<Vec<u64>, u64> {
    let tables = words[at..at + fanins.len()].to_vec();
    let mut gates = tables.iter().zip(fanins);
    demand(gates.all(|(&table, list)| fits(table, list.len())), 10)?;
    Ok(tables)
}
