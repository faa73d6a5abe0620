//! Files that load and files that do not: 01's edges and request Two's line by line, damage for each refusal 1 to 8, random bytes.

use crate::call::{Call, Lent};
use crate::damage;
use crate::engine::{BINDING, PROGRAM, RAW};
use crate::old_files;
use crate::random::{self, Random};
use crate::report::{Case, Report};

pub const TWIN: [u8; 27] = [
    0x4E, 0x49, 1, 3, 1, 0x4E, 0x47, 1, 0, 2, 0, 0x4E, 0x47, 1, 0, 2, 0, 0x4E, 0x47, 2, 1, 2, 0x0E,
    0, 0x4E, 0x4F, 3,
];

pub const HEAD: &str = "gate cdc full open hidden\n";

/// Load and listing of a file by every way, and its load as it was before wide gates.
fn compare_file(report: &mut Report, case: &Case) -> u64 {
    let file = |call| Lent::file(call, &case.file);
    let (list, load) = (Call::Listing, Call::Load);
    report.compare(&[RAW, BINDING, PROGRAM], &list, &file(&list), case);
    old_files::loads(report, case);
    report.compare(&[RAW, BINDING], &load, &file(&load), case).0
}

/// A file that load has to answer with this number, by 01's words and by the enumeration.
pub fn stated(report: &mut Report, what: &str, file: &[u8], number: u64) {
    let case = Case::new(0, file).after(what);
    let got = (RAW.run)(&Call::Load, &mut Lent::file(&Call::Load, file));
    let wrong = got != number;
    report.count(
        case.size(),
        wrong.then(|| format!("{case}want {number}, got {got}")),
    );
    compare_file(report, &case);
}

/// A file whose listing is stated in full.
pub fn listed(report: &mut Report, what: &str, file: &[u8], text: &str) {
    stated(report, what, file, 0);
    for way in [RAW, BINDING, PROGRAM] {
        let mut lent = Lent::file(&Call::Listing, file);
        (way.run)(&Call::Listing, &mut lent);
        let got = String::from_utf8_lossy(&lent.bytes[..lent.out[0] as usize]);
        let wrong = got != text;
        report.count(0, wrong.then(|| format!("{what} by {}: {got}", way.name)));
    }
}

/// The session that a load of the file gives.
pub fn loaded(report: &mut Report, file: &[u8]) -> Vec<u64> {
    let case = Case::new(0, file);
    let lent = Lent::file(&Call::Load, file);
    let (_, after) = report.compare(&[RAW, BINDING], &Call::Load, &lent, &case);
    after.session
}

/// A network of m gates that all copy input 0, with one output.
fn copies(n: u8, m: u8) -> Vec<u8> {
    let gates = [0x4E, 0x47, 1, 0, 2, 0].repeat(m as usize);
    [&[0x4E, 0x49, n, m, 1], &gates[..], &[0x4E, 0x4F, 0]].concat()
}

/// A network of one gate with these fan-ins.
fn one_gate(n: u8, fanins: &[u8]) -> Vec<u8> {
    let head = [0x4E, 0x49, n, 1, 1, 0x4E, 0x47, fanins.len() as u8];
    [&head, fanins, &[1, 0, 0x4E, 0x4F, n]].concat()
}

/// The twin network with one byte changed.
pub fn twin_but(at: usize, byte: u8) -> Vec<u8> {
    let mut file = TWIN.to_vec();
    file[at] = byte;
    file
}

/// The first bytes of the twin network, and others behind them.
pub fn twin_to(end: usize, others: &[u8]) -> Vec<u8> {
    [&TWIN[..end], others].concat()
}

/// The twin network with an excluded set.
fn twin_without(set: u8) -> Vec<u8> {
    [&TWIN[..5], &[0x4E, 0x58, set], &TWIN[5..]].concat()
}

/// 01's twin network and its edges, line by line.
pub fn edges(report: &mut Report) {
    let rows = "1 0000 0002 0002 1\n2 0000 0002 0000 0\n3 0006 0006 0002 0\ntotal 4 2\n";
    listed(report, "the twin network", &TWIN, &format!("{HEAD}{rows}"));
    stated(report, "k 4", &one_gate(6, &[0, 1, 2, 3]), 0);
    stated(report, "k 5", &one_gate(6, &[0, 1, 2, 3, 4]), 3);
    stated(report, "n 10", &copies(10, 1), 0);
    stated(report, "n 11", &copies(11, 1), 3);
    stated(report, "m 40", &copies(1, 40), 0);
    stated(report, "m 41", &copies(1, 41), 3);
    stated(report, "fan-in n+g-1 of gate g", &twin_but(14, 1), 0);
    stated(report, "fan-in n+g of gate g", &twin_but(14, 2), 4);
    stated(report, "one byte short", &twin_to(26, &[]), 1);
    stated(report, "one byte long", &twin_to(27, &[0]), 8);
    let rows = "1 0003 0003 0003 2\n2 0003 0003 0003 2\n3 000f 000f 000f 2\ntotal 8 8\n";
    let all = format!("{HEAD}{rows}");
    listed(report, "E all ones", &twin_without(3), &all);
}

/// Request Two, line by line: the CDC of gates where excluded patterns alone give an entry.
pub fn excluded(report: &mut Report) {
    let lines = |rows: &str| format!("{HEAD}{rows}");
    let file = b"NI\x03\x01\x01NX\x80NG\x03\x00\x01\x02\x96\x00NO\x03";
    let text = lines("3 0080 0080 0080 1\ntotal 1 1\n");
    listed(report, "three lines that never are 111", file, &text);
    let file = b"NI\x02\x02\x01NX\x01NG\x02\x00\x01\x08\x00NG\x02\x02\x00\x08\x00NO\x03";
    let text = lines("2 0001 0005 0005 2\n3 0002 0002 0000 1\ntotal 3 2\n");
    listed(report, "three different tables", file, &text);
    let file = b"NI\x07\x01\x01NX\x01\x02\x04\x08\x10\x20\x40\x80\x01\x02\x04\x08\xFF\xFF\xFF\xFFNG\x02\x05\x06\x08\x00NO\x07";
    let text = lines("7 0008 0008 0008 44\ntotal 1 1\n");
    listed(report, "patterns of a second word", file, &text);
}

/// The order of the tests in a record, and other points of the file that 01 states.
pub fn order(report: &mut Report) {
    stated(report, "nothing", &[], 1);
    stated(report, "one stray byte where a mark is due", &[0], 1);
    stated(report, "k before the length", &twin_to(7, &[5]), 3);
    stated(report, "the length before a fan-in", &twin_to(8, &[9]), 1);
    stated(
        report,
        "a repeat, then no signal",
        &one_gate(6, &[0, 0, 99]),
        5,
    );
    stated(report, "no signal, repeated", &one_gate(6, &[99, 99]), 4);
    stated(report, "an excluded bit past 2^n", &twin_without(4), 6);
    stated(report, "an empty excluded set", &twin_without(0), 0);
    stated(report, "longer than any", &twin_to(27, &[0; 4096]), 8);
}

/// For each refusal 1 to 8 a file damaged for it, a file with two such damages, and one with any.
pub fn damaged(report: &mut Report, seed: u64, cases: usize) {
    report.cases(cases, |report, i| {
        let mut rng = Random::new(seed, report.name(), i);
        let file = random::small_network(&mut rng);
        let number = i as u64 % 8 + 1;
        if let Some(bad) = damage::targeted(&mut rng, &file, number) {
            stated(report, &format!("damaged for {number}"), &bad, number);
            if damage::is_at_wide_gate(&file, &bad) {
                report.see(format!("{number} at a wide gate"));
            }
        }
        if let Some(bad) = twice(&mut rng, &file) {
            compare_file(report, &Case::new(i, &bad));
        }
        let bad = damage::any(&mut rng, &file);
        compare_file(report, &Case::new(i, &bad));
    });
    report.require_answers(1..=8);
    old_files::require(report, 0..=8);
    for number in 1..=6 {
        report.require_seen(&format!("{number} at a wide gate"));
    }
}

/// The file with two damages, each for one of the refusals 2 to 7.
fn twice(rng: &mut Random, file: &[u8]) -> Option<Vec<u8>> {
    let (a, b) = (rng.within(2, 7) as u64, rng.within(2, 7) as u64);
    let one = damage::targeted(rng, file, a)?;
    let other = damage::targeted(rng, file, b)?;
    let bytes = file.iter().zip(one).zip(other);
    let either = bytes.map(|((&f, a), b)| if a == f { b } else { a });
    Some(either.collect())
}

/// Bytes that begin as a file with one gate may; the others are any, or so small that they are signals.
pub fn random_bytes(report: &mut Report, seed: u64, cases: usize) {
    report.cases(cases, |report, i| {
        let mut rng = Random::new(seed, report.name(), i);
        let (length, most) = (rng.within(0, 40), *rng.pick(&[4, 7, 256]));
        let mut bytes: Vec<u8> = (0..length).map(|_| (rng.next() % most) as u8).collect();
        let (n, m) = (rng.within(1, 7), rng.within(1, 2));
        let (mark, k) = match rng.chance(2) {
            true => (0x47, rng.within(1, 4)),
            false => (0x48, rng.within(5, 6)),
        };
        let begin = [0x4E, 0x49, n as u8, m as u8, 1, 0x4E, mark, k as u8];
        let kept = rng.within(0, 2 * begin.len());
        for (byte, known) in bytes.iter_mut().zip(begin.iter().take(kept)) {
            *byte = *known;
        }
        let number = compare_file(report, &Case::new(i, &bytes));
        if bytes.get(5..7) == Some(b"NH") {
            report.see(format!("{number} at a wide gate"));
        }
    });
    report.require_answers(1..=6);
    old_files::require(report, 1..=6);
    for number in [1, 3, 4, 5] {
        report.require_seen(&format!("{number} at a wide gate"));
    }
}
