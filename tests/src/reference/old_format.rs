//! Files and listings as they were before request Five, with the one record for gates: it promises that old files load as before,
//! and that a network without wide gates is written and listed as before.

use super::file::{demand, fanins, load_by, write_by, Bytes, Gate};
use super::listing::rows;
use super::network::Network;

/// What load answered.
pub fn load(file: &[u8]) -> Result<Network, u64> {
    load_by(gate, file)
}

fn gate(bytes: &mut Bytes, earlier: usize) -> Result<Gate, u64> {
    bytes.mark(b"NG")?;
    let k = bytes.take(1)?[0] as usize;
    demand((1..=4).contains(&k), 3)?;
    let rest = bytes.take(k + 2)?;
    let fanins = fanins(&rest[..k], earlier)?;
    let table = rest[k] as u64 + 256 * rest[k + 1] as u64;
    demand(table >> (1 << k) == 0, 6)?;
    Ok((fanins, table))
}

/// The file of a network whose gates have up to four fan-ins.
pub fn write(s: &Network) -> Vec<u8> {
    write_by(gate_record, s)
}

fn gate_record(fanins: &[usize], table: u64) -> Vec<u8> {
    let signals: Vec<u8> = fanins.iter().map(|&f| f as u8).collect();
    let table = [(table % 256) as u8, (table / 256) as u8];
    [&[0x4E, 0x47, fanins.len() as u8], &signals[..], &table].concat()
}

/// Its listing: each table has four digits.
pub fn listing(s: &Network) -> String {
    rows(s, 4)
}
