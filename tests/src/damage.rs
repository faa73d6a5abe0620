//! Files with one thing wrong: one that a given refusal is for, or any.

use crate::random::Random;

/// The marks of a gate's records: with up to four fan-ins, and with more.
const GATES: &[u8] = b"GH";

/// The places at which the records of a file that loads begin.
fn records(file: &[u8]) -> Vec<usize> {
    let mut places = vec![0];
    let mut at = 5;
    while at < file.len() {
        places.push(at);
        at += match file[at + 1] {
            b'X' => 2 + ((1usize << file[2]) / 8).max(1),
            b'G' => 5 + file[at + 2] as usize,
            b'H' => 11 + file[at + 2] as usize,
            b'O' => 3,
            mark => unreachable!("no record has the mark {mark:x}"),
        };
    }
    places
}

/// A record with one of these marks, where the file has one that is wanted.
fn record(
    rng: &mut Random,
    file: &[u8],
    marks: &[u8],
    wanted: impl Fn(usize) -> bool,
) -> Option<usize> {
    let all = records(file);
    let fit = |&at: &usize| marks.contains(&file[at + 1]) && wanted(at);
    let places: Vec<usize> = all.into_iter().filter(fit).collect();
    (!places.is_empty()).then(|| *rng.pick(&places))
}

/// The file, damaged so that load refuses it with this number; nothing where it has no place for that.
pub fn targeted(rng: &mut Random, file: &[u8], number: u64) -> Option<Vec<u8>> {
    let mut out = file.to_vec();
    match number {
        1 => out.truncate(rng.within(0, file.len() - 1)),
        2 => mark(rng, &mut out),
        3 => count(rng, &mut out)?,
        4 => late_fanin(rng, &mut out)?,
        5 => repeated_fanin(rng, &mut out)?,
        6 => spare_bit(rng, &mut out)?,
        7 => {
            let at = record(rng, file, b"O", |_| true)?;
            let first = file[2] + file[3];
            let any = rng.within(first as usize, 255) as u8;
            out[at + 2] = *rng.pick(&[first, any]);
        }
        _ => out.extend((0..rng.within(1, 9)).map(|_| rng.next() as u8)),
    }
    Some(out)
}

/// The record in which the damaged file first differs is one of a gate with more than four fan-ins.
pub fn is_at_wide_gate(file: &[u8], bad: &[u8]) -> bool {
    let same = file.iter().zip(bad).take_while(|(a, b)| a == b).count();
    let at = records(file).into_iter().rfind(|&at| at <= same);
    same < file.len() && at.is_some_and(|at| file[at + 1] == b'H')
}

/// 2: another record's mark, or none, where the record is due. Behind the first record three marks are; for a gate two.
fn mark(rng: &mut Random, out: &mut [u8]) {
    let places = records(out);
    let index = rng.within(0, places.len() - 1);
    let at = places[index];
    let due: &[u8] = match out[at + 1] {
        _ if index == 1 => b"GHX",
        b'G' | b'H' => GATES,
        other => &[other],
    };
    if rng.chance(4) {
        out[at] ^= 1 << rng.within(0, 7);
        return;
    }
    let (known, any) = (*rng.pick(b"IXGHO"), rng.next() as u8);
    let second = if rng.chance(4) { any } else { known };
    out[at + 1] = if due.contains(&second) { b'N' } else { second };
}

/// 3: n, m, p or a gate's k is outside its bounds, or a gate has the mark of the other record.
fn count(rng: &mut Random, out: &mut [u8]) -> Option<()> {
    let gate = record(rng, out, GATES, |_| true)?;
    let k = if out[gate + 1] == b'G' {
        (1, 4)
    } else {
        (5, 6)
    };
    if rng.chance(8) {
        out[gate + 1] ^= b'G' ^ b'H';
        return Some(());
    }
    let counts = [(2, (1, 10)), (3, (1, 40)), (4, (1, 8)), (gate + 2, k)];
    let (at, (least, most)) = *rng.pick(&counts);
    let (below, past) = (rng.within(0, least - 1), rng.within(most + 1, 255));
    out[at] = *rng.pick(&[below, least - 1, most + 1, past]) as u8;
    Some(())
}

/// The number of signals before the gate whose record begins there.
fn earlier(file: &[u8], at: usize) -> usize {
    let before = records(file).into_iter().filter(|&r| r < at);
    file[2] as usize + before.filter(|&r| GATES.contains(&file[r + 1])).count()
}

/// 4: a fan-in is the gate itself or a number past it.
fn late_fanin(rng: &mut Random, out: &mut [u8]) -> Option<()> {
    let at = record(rng, out, GATES, |_| true)?;
    let first = earlier(out, at);
    let any = rng.within(first, 255);
    let r = rng.within(0, out[at + 2] as usize - 1);
    out[at + 3 + r] = *rng.pick(&[first, any]) as u8;
    Some(())
}

/// 5: a fan-in is one of those before it.
fn repeated_fanin(rng: &mut Random, out: &mut [u8]) -> Option<()> {
    let at = record(rng, out, GATES, |at| out[at + 2] > 1)?;
    let r = rng.within(1, out[at + 2] as usize - 1);
    out[at + 3 + r] = out[at + 3 + rng.within(0, r - 1)];
    Some(())
}

/// 6: a bit past 2^k in a table, or past 2^n in the excluded set.
fn spare_bit(rng: &mut Random, out: &mut [u8]) -> Option<()> {
    let set = record(rng, out, b"X", |_| out[2] < 3);
    if let Some(at) = set.filter(|_| rng.chance(2)) {
        out[at + 2] |= 1 << rng.within(1 << out[2], 7);
        return Some(());
    }
    let at = record(rng, out, GATES, |at| ![4, 6].contains(&out[at + 2]))?;
    let k = out[at + 2] as usize;
    let last = if k < 4 { 15 } else { 63 };
    let any = rng.within(1 << k, last);
    let spare = *rng.pick(&[1 << k, any]);
    out[at + 3 + k + spare / 8] |= 1 << (spare % 8);
    Some(())
}

/// A file that is cut or lengthened, or has a byte removed, inserted or changed.
pub fn any(rng: &mut Random, file: &[u8]) -> Vec<u8> {
    let mut out = file.to_vec();
    let at = rng.within(0, file.len() - 1);
    let byte = rng.next() as u8;
    match rng.within(0, 6) {
        0 => out.truncate(at),
        1 => out.push(byte),
        2 => {
            out.remove(at);
        }
        3 => out.insert(at, byte),
        4 => out[at] = byte,
        5 => out[at] = out[at].wrapping_add(1),
        _ => out[at] = out[at].wrapping_sub(1),
    }
    out
}
