//! Network files: what load answers, and what write lays down.

use super::network::{fits, Network};

/// The bytes that are left of a file.
pub struct Bytes<'a>(&'a [u8]);

impl Bytes<'_> {
    /// 1 where fewer are left.
    pub fn take(&mut self, count: usize) -> Result<&[u8], u64> {
        if self.0.len() < count {
            return Err(1);
        }
        let (taken, rest) = self.0.split_at(count);
        self.0 = rest;
        Ok(taken)
    }

    /// 1 where under two bytes are left, else 2 where another mark is due.
    pub fn mark(&mut self, due: &[u8; 2]) -> Result<(), u64> {
        if self.take(2)? == due {
            Ok(())
        } else {
            Err(2)
        }
    }
}

/// A refusal where the condition does not hold.
pub fn demand(condition: bool, refusal: u64) -> Result<(), u64> {
    if condition {
        Ok(())
    } else {
        Err(refusal)
    }
}

/// The fan-ins and the table of a gate.
pub type Gate = (Vec<usize>, u64);

/// What load answers: the network, or the refusal.
pub fn load(file: &[u8]) -> Result<Network, u64> {
    load_by(gate, file)
}

/// Load, with each gate's record read in this way; the gate has so many signals before it.
pub fn load_by(
    gate: fn(&mut Bytes, usize) -> Result<Gate, u64>,
    file: &[u8],
) -> Result<Network, u64> {
    let mut bytes = Bytes(file);
    bytes.mark(b"NI")?;
    let head = bytes.take(3)?;
    let (n, m, p) = (head[0] as usize, head[1] as usize, head[2] as usize);
    demand((1..=10).contains(&n), 3)?;
    demand((1..=40).contains(&m), 3)?;
    demand((1..=8).contains(&p), 3)?;
    let excluded = excluded(&mut bytes, 1 << n)?;
    let gates: Result<Vec<_>, u64> = (0..m).map(|g| gate(&mut bytes, n + g)).collect();
    let (fanins, tables) = gates?.into_iter().unzip();
    let outputs: Result<Vec<_>, u64> = (0..p).map(|_| output(&mut bytes, n + m)).collect();
    let network = Network {
        n,
        excluded,
        fanins,
        tables,
        outputs: outputs?,
    };
    demand(bytes.0.is_empty(), 8)?;
    Ok(network)
}

/// The excluded set, where a record has it.
fn excluded(bytes: &mut Bytes, patterns: usize) -> Result<Vec<bool>, u64> {
    if !bytes.0.starts_with(b"NX") {
        return Ok(vec![false; patterns]);
    }
    bytes.mark(b"NX")?;
    let set = bytes.take(if patterns < 8 { 1 } else { patterns / 8 })?;
    let mut all: Vec<bool> = (0..set.len() * 8)
        .map(|x| set[x / 8] >> (x % 8) & 1 == 1)
        .collect();
    demand(all[patterns..].iter().all(|&one| !one), 6)?;
    all.truncate(patterns);
    Ok(all)
}

/// A gate's record: up to four fan-ins and a table of two bytes, or, by the other mark, more and eight.
fn gate(bytes: &mut Bytes, earlier: usize) -> Result<Gate, u64> {
    let (counts, width) = match bytes.take(2)? {
        b"NG" => (1..=4, 2),
        b"NH" => (5..=6, 8),
        _ => return Err(2),
    };
    let k = bytes.take(1)?[0] as usize;
    demand(counts.contains(&k), 3)?;
    let (signals, table) = bytes.take(k + width)?.split_at(k);
    let fanins = fanins(signals, earlier)?;
    let table = table.iter().rev().fold(0, |t, &byte| 256 * t + byte as u64);
    demand(fits(table, k), 6)?;
    Ok((fanins, table))
}

/// Each an earlier signal, and none twice.
pub fn fanins(signals: &[u8], earlier: usize) -> Result<Vec<usize>, u64> {
    let mut fanins = Vec::new();
    for &f in signals {
        demand((f as usize) < earlier, 4)?;
        demand(!fanins.contains(&(f as usize)), 5)?;
        fanins.push(f as usize);
    }
    Ok(fanins)
}

/// An output of a network with so many signals.
fn output(bytes: &mut Bytes, signals: usize) -> Result<usize, u64> {
    bytes.mark(b"NO")?;
    let signal = bytes.take(1)?[0] as usize;
    demand(signal < signals, 7)?;
    Ok(signal)
}

/// The file of a network.
pub fn write(s: &Network) -> Vec<u8> {
    write_by(gate_record, s)
}

/// The file, with each gate's record written in this way.
pub fn write_by(gate_record: fn(&[usize], u64) -> Vec<u8>, s: &Network) -> Vec<u8> {
    let head = [0x4E, 0x49, s.n as u8, s.m() as u8, s.outputs.len() as u8];
    let gates = s.fanins.iter().zip(&s.tables);
    let gates = gates.flat_map(|(fanins, &table)| gate_record(fanins, table));
    let outputs = s.outputs.iter().flat_map(|&s| [0x4E, 0x4F, s as u8]);
    let excluded = excluded_record(&s.excluded).into_iter();
    head.into_iter()
        .chain(excluded)
        .chain(gates)
        .chain(outputs)
        .collect()
}

/// Nothing where the set is empty.
fn excluded_record(set: &[bool]) -> Vec<u8> {
    if !set.contains(&true) {
        return Vec::new();
    }
    let byte = |eight: &[bool]| {
        let ones = eight.iter().enumerate().filter(|(_, &one)| one);
        ones.map(|(b, _)| 1 << b).sum()
    };
    [0x4E, 0x58]
        .into_iter()
        .chain(set.chunks(8).map(byte))
        .collect()
}

fn gate_record(fanins: &[usize], table: u64) -> Vec<u8> {
    let (mark, width) = if fanins.len() <= 4 {
        (0x47, 2)
    } else {
        (0x48, 8)
    };
    let signals: Vec<u8> = fanins.iter().map(|&f| f as u8).collect();
    let table = &table.to_le_bytes()[..width];
    [&[0x4E, mark, fanins.len() as u8], &signals[..], table].concat()
}
