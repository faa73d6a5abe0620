//! What each call answers and leaves in the buffers lent to it.

use super::blif::{read_blif, write_blif};
use super::file::{demand, load, write};
use super::listing::listing;
use super::network::{bit, fits, words_of, Network};
use super::state::{State, CURRENT};
use crate::call::{Call, Lent};

/// The number of the answer; the buffers are left as the call leaves them.
pub fn call(call: &Call, lent: &mut Lent) -> u64 {
    let answer = match call {
        Call::Load => fresh_into(lent, load),
        Call::ReadBlif => fresh_into(lent, read_blif),
        Call::Tables { gate } => tables(lent, *gate),
        Call::AllTables => all_tables(lent),
        Call::PatternSets => pattern_sets(lent),
        Call::Hidden => hidden(lent),
        Call::Verdict { gates, tables } => verdict(lent, gates, tables),
        Call::Exchange { gate, table } => exchange(lent, *gate, *table),
        Call::Write => write_into(lent),
        Call::WriteBlif => write_blif_into(lent),
        Call::Listing => listing_into(lent),
    };
    answer.err().unwrap_or(0)
}

/// Lays the items from the start of the buffer, or 9.
fn lay<T: Copy>(buffer: &mut [T], items: &[T]) -> Result<(), u64> {
    demand(buffer.len() >= items.len(), 9)?;
    buffer[..items.len()].copy_from_slice(items);
    Ok(())
}

fn fresh_into(lent: &mut Lent, read: fn(&[u8]) -> Result<Network, u64>) -> Result<(), u64> {
    let network = read(&lent.file)?;
    lay(&mut lent.session, &State::fresh(network).words())
}

/// SDC in two words, CDC, full and open.
fn tables_of(s: &State, g: usize) -> [u64; 5] {
    let (now, [low, high]) = (&s.current, s.current.sdc(g));
    [low, high, now.cdc(g), now.full(g), s.open[g]]
}

fn tables(lent: &mut Lent, gate: usize) -> Result<(), u64> {
    let s = State::read(&lent.session)?;
    demand(lent.out.len() >= 5, 9)?;
    let g = s.place(gate)?;
    lay(&mut lent.out, &tables_of(&s, g))
}

fn all_tables(lent: &mut Lent) -> Result<(), u64> {
    let s = State::read(&lent.session)?;
    let m = s.loaded.m();
    demand(lent.out.len() >= 5 * m, 9)?;
    let words: Vec<u64> = (0..m).flat_map(|g| tables_of(&s, g)).collect();
    lay(&mut lent.out, &words)
}

fn pattern_sets(lent: &mut Lent) -> Result<(), u64> {
    let s = State::read(&lent.session)?;
    let (m, patterns) = (s.loaded.m(), s.loaded.patterns());
    let width = if patterns < 64 { 1 } else { patterns / 64 };
    demand(lent.out.len() >= 2 * m * width, 9)?;
    let h = s.loaded.compatible();
    let mut words = Vec::new();
    for (g, h) in h.iter().enumerate() {
        words.extend(words_of(&s.current.odc(g)));
        words.extend(words_of(h));
    }
    lay(&mut lent.out, &words)
}

fn hidden(lent: &mut Lent) -> Result<(), u64> {
    let s = State::read(&lent.session)?;
    demand(lent.out.len() >= s.loaded.m(), 9)?;
    let h = s.loaded.compatible();
    let count = |set: &Vec<bool>| set.iter().filter(|&&held| held).count() as u64;
    let counts: Vec<u64> = h.iter().map(count).collect();
    lay(&mut lent.out, &counts)
}

/// 12: the table has a bit past 2^k.
fn width_test(s: &State, g: usize, table: u64) -> Result<(), u64> {
    demand(fits(table, s.loaded.fanins[g].len()), 12)
}

/// 15; then the pairs in order, each 11, 16 and 12; then the harm with all of them in place.
fn verdict(lent: &mut Lent, gates: &[u64], tables: &[u64]) -> Result<(), u64> {
    let s = State::read(&lent.session)?;
    demand(lent.out.len() >= 2, 9)?;
    demand(gates.len() == tables.len(), 15)?;
    let mut replaced: Network = s.current.clone();
    for i in 0..gates.len() {
        let g = s.place(gates[i] as usize)?;
        demand(!gates[..i].contains(&gates[i]), 16)?;
        width_test(&s, g, tables[i])?;
        replaced.tables[g] = tables[i];
    }
    if let Some((pattern, output)) = s.loaded.harm(&replaced) {
        lay(&mut lent.out, &[pattern as u64, output as u64])?;
        return Err(14);
    }
    Ok(())
}

fn exchange(lent: &mut Lent, gate: usize, table: u64) -> Result<(), u64> {
    let s = State::read(&lent.session)?;
    demand(!lent.out.is_empty(), 9)?;
    let g = s.place(gate)?;
    width_test(&s, g, table)?;
    for t in 0..s.loaded.entries(g) {
        let altered = bit(table, t) != bit(s.loaded.tables[g], t);
        if altered && !bit(s.open[g], t) {
            lay(&mut lent.out, &[t as u64])?;
            return Err(13);
        }
    }
    lent.session[CURRENT + g] = table;
    Ok(())
}

fn write_into(lent: &mut Lent) -> Result<(), u64> {
    let s = State::read(&lent.session)?;
    lay_with_length(lent, &write(&s.current))
}

/// 3 before any 9.
fn write_blif_into(lent: &mut Lent) -> Result<(), u64> {
    let s = State::read(&lent.session)?;
    lay_with_length(lent, write_blif(&s.current)?.as_bytes())
}

fn listing_into(lent: &mut Lent) -> Result<(), u64> {
    let text = listing(&lent.file);
    lay_with_length(lent, text.as_bytes())
}

fn lay_with_length(lent: &mut Lent, bytes: &[u8]) -> Result<(), u64> {
    demand(!lent.out.is_empty(), 9)?;
    lay(&mut lent.bytes, bytes)?;
    lay(&mut lent.out, &[bytes.len() as u64])
}
