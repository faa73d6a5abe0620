//! Ways to alter the words of a session by hand: each cause of refusal 10, changes that are none, and any change.

use crate::random::{fanins, table, Random};
use crate::reference::*;

pub struct Alteration {
    pub what: &'static str,
    /// Whether every call has to refuse the state with 10; nothing where that depends on the change.
    pub refused: Option<bool>,
    pub alter: Alter,
}

/// Alters the words; false where the state has no place for that.
type Alter = fn(&mut Random, &State, &mut [u64]) -> bool;

const fn of(what: &'static str, refused: Option<bool>, alter: Alter) -> Alteration {
    Alteration {
        what,
        refused,
        alter,
    }
}

const YES: Option<bool> = Some(true);
const NO: Option<bool> = Some(false);

pub const ALTERATIONS: [Alteration; 17] = [
    of("n out of bounds", YES, |rng, _, w| {
        count(rng, &mut w[0], 10)
    }),
    of("m out of bounds", YES, |rng, _, w| {
        count(rng, &mut w[1], 40)
    }),
    of("p out of bounds", YES, |rng, _, w| count(rng, &mut w[2], 8)),
    of("k out of bounds", YES, arity),
    of("a late fan-in", YES, late_fanin),
    of("a repeated fan-in", YES, repeated_fanin),
    of("a wide loaded table", YES, |rng, s, w| {
        wide(rng, s, &mut w[LOADED..])
    }),
    of("a wide current table", YES, |rng, s, w| {
        wide(rng, s, &mut w[CURRENT..])
    }),
    of("an excluded bit past 2^n", YES, spare_excluded),
    of("an output that is no signal", YES, no_signal),
    of("a number past 255", YES, past_a_byte),
    of(
        "a number past 255 in an unused place",
        YES,
        unused_past_a_byte,
    ),
    of("other open tables", NO, other_open_tables),
    of("other numbers in unused places", NO, other_unused_places),
    of("other tables that fit", NO, other_tables),
    of("other fan-ins, of any number", NO, other_fanins),
    of("some word changed", None, some_word),
];

fn any_gate(rng: &mut Random, s: &State) -> usize {
    rng.within(0, s.loaded.m() - 1)
}

/// 0, or past its bound.
fn count(rng: &mut Random, word: &mut u64, most: usize) -> bool {
    let past = rng.within(most + 1, 255) as u64;
    *word = *rng.pick(&[0, most as u64 + 1, past]);
    true
}

/// A k out of bounds, with tables that suit it, and with all six places of fan-ins filled well where there are so many signals.
fn arity(rng: &mut Random, s: &State, words: &mut [u64]) -> bool {
    let g = any_gate(rng, s);
    let any = rng.within(8, 255);
    let k = *rng.pick(&[0, 7, any]);
    words[ARITY + g] = k as u64;
    if k == 0 {
        words[LOADED + g] &= 1;
        words[CURRENT + g] &= 1;
    } else if s.loaded.n + g >= 6 {
        lay_fanins(words, g, &[0, 1, 2, 3, 4, 5]);
    }
    true
}

fn lay_fanins(words: &mut [u64], g: usize, fanins: &[u8]) {
    let places = words[FANINS + 6 * g..].iter_mut();
    places.zip(fanins).for_each(|(place, &f)| *place = f.into());
}

fn late_fanin(rng: &mut Random, s: &State, words: &mut [u64]) -> bool {
    let g = any_gate(rng, s);
    let (first, r) = (s.loaded.n + g, rng.within(0, s.loaded.fanins[g].len() - 1));
    let any = rng.within(first, 255);
    words[FANINS + 6 * g + r] = *rng.pick(&[first, any]) as u64;
    true
}

fn repeated_fanin(rng: &mut Random, s: &State, words: &mut [u64]) -> bool {
    let g = any_gate(rng, s);
    let k = s.loaded.fanins[g].len();
    if k < 2 {
        return false;
    }
    let r = rng.within(1, k - 1);
    words[FANINS + 6 * g + r] = words[FANINS + 6 * g + rng.within(0, r - 1)];
    true
}

fn wide(rng: &mut Random, s: &State, tables: &mut [u64]) -> bool {
    let g = any_gate(rng, s);
    let entries = s.loaded.entries(g);
    if entries == 64 {
        return false;
    }
    let any = rng.within(entries, 63);
    tables[g] |= 1 << *rng.pick(&[entries, any, 63]);
    true
}

fn spare_excluded(rng: &mut Random, s: &State, words: &mut [u64]) -> bool {
    let patterns = s.loaded.patterns();
    if patterns == 1024 {
        return false;
    }
    let any = rng.within(patterns, 1023);
    let bit = *rng.pick(&[patterns, any, 1023]);
    words[EXCLUDED + bit / 64] |= 1 << (bit % 64);
    true
}

fn no_signal(rng: &mut Random, s: &State, words: &mut [u64]) -> bool {
    let i = rng.within(0, s.loaded.outputs.len() - 1);
    let first = s.loaded.n + s.loaded.m();
    let any = rng.within(first, 255);
    words[OUTPUTS + i] = *rng.pick(&[first, any]) as u64;
    true
}

fn past_a_byte(rng: &mut Random, _: &State, words: &mut [u64]) -> bool {
    let at = rng.within(0, EXCLUDED - 1);
    words[at] = not_a_byte(rng, words[at]);
    true
}

fn unused_past_a_byte(rng: &mut Random, s: &State, words: &mut [u64]) -> bool {
    let at = *rng.pick(&unused_places(s));
    words[at] = not_a_byte(rng, words[at]);
    at < EXCLUDED
}

/// A number past 255, which may have the same lowest byte.
fn not_a_byte(rng: &mut Random, word: u64) -> u64 {
    let high = 1 << rng.within(8, 63);
    *rng.pick(&[word | high, word | 256, u64::MAX])
}

/// The places that the state's network does not use.
fn unused_places(s: &State) -> Vec<usize> {
    let (m, p) = (s.loaded.m(), s.loaded.outputs.len());
    let behind = |r: usize| r % 6 >= s.loaded.fanins.get(r / 6).map_or(0, |f| f.len());
    let fanins = (0..240).filter(|&r| behind(r)).map(|r| FANINS + r);
    let gates = [ARITY, LOADED, CURRENT, OPEN];
    let gates = gates.iter().flat_map(|at| at + m..at + 40);
    gates
        .chain(fanins)
        .chain(OUTPUTS + p..OUTPUTS + 8)
        .collect()
}

fn other_open_tables(rng: &mut Random, s: &State, words: &mut [u64]) -> bool {
    words[OPEN..OPEN + s.loaded.m()].fill_with(|| rng.next());
    true
}

fn other_unused_places(rng: &mut Random, s: &State, words: &mut [u64]) -> bool {
    for at in unused_places(s) {
        let any = rng.next();
        words[at] = if at < EXCLUDED { any % 256 } else { any };
    }
    true
}

fn other_tables(rng: &mut Random, s: &State, words: &mut [u64]) -> bool {
    for g in 0..s.loaded.m() {
        let all = all_entries(s.loaded.fanins[g].len());
        words[LOADED + g] = rng.next() & all;
        words[CURRENT + g] = rng.next() & all;
    }
    true
}

/// Fan-ins of each gate, up to six, with tables that fit.
fn other_fanins(rng: &mut Random, s: &State, words: &mut [u64]) -> bool {
    for g in 0..s.loaded.m() {
        let signals = s.loaded.n + g;
        let k = rng.within(1, signals.min(6));
        words[ARITY + g] = k as u64;
        lay_fanins(words, g, &fanins(rng, signals, k));
        words[LOADED + g] = table(rng, k);
        words[CURRENT + g] = table(rng, k);
    }
    true
}

/// One word that is in use, changed a little or wholly.
fn some_word(rng: &mut Random, s: &State, words: &mut [u64]) -> bool {
    let unused = unused_places(s);
    let used: Vec<usize> = (0..WORDS).filter(|at| !unused.contains(at)).collect();
    let (at, bit, byte) = (*rng.pick(&used), 1 << rng.within(0, 63), rng.next() % 256);
    let (up, down) = (words[at].wrapping_add(1), words[at].wrapping_sub(1));
    words[at] = *rng.pick(&[up, down, words[at] ^ bit, byte]);
    true
}
