//! Request Three, line by line: counts at the edges of bytes and of words, the most that 01's bounds allow, and each as it
//! is printed.

use crate::call::{Call, Lent};
use crate::engine::{BINDING, RAW};
use crate::files::{listed, loaded, HEAD, TWIN};
use crate::report::{Case, Report};
use std::collections::BTreeSet;

/// A network whose first patterns are excluded: m gates, each a copy of the one before it, the first of input 0, and one
/// output.
fn chain(n: u8, m: u8, excluded: usize, output: u8) -> Vec<u8> {
    let mut set = vec![0; (1usize << n).div_ceil(8)];
    (0..excluded).for_each(|x| set[x / 8] |= 1 << (x % 8));
    let source = |g| if g == 0 { 0 } else { n + g - 1 };
    let gates: Vec<u8> = (0..m)
        .flat_map(|g| [0x4E, 0x47, 1, source(g), 2, 0])
        .collect();
    let head = [0x4E, 0x49, n, m, 1, 0x4E, 0x58];
    [&head, &set[..], &gates, &[0x4E, 0x4F, output]].concat()
}

/// The counts of a session have to be these, by 01's words and by the enumeration; a word too few is 9.
fn counted(report: &mut Report, case: &Case, session: &[u64], want: &[u64]) {
    let lent = Lent::session(&Call::Hidden, session);
    let (_, after) = report.compare(&[RAW, BINDING], &Call::Hidden, &lent, case);
    let got = &after.out[..want.len()];
    let wrong = got != want;
    let text = || format!("{case}want {want:?}, got {got:?}");
    report.count(case.size(), wrong.then(text));
    got.iter().for_each(|c| report.see(format!("count {c}")));
    report.see(format!("total {}", got.iter().sum::<u64>()));
    let short = Lent::new(session, &[], 0, want.len() - 1);
    let (number, _) = report.compare(&[RAW], &Call::Hidden, &short, case);
    report.require("9 for a word too few", number == 9);
}

/// A network whose listing and counts are stated.
fn network(report: &mut Report, what: &str, file: &[u8], rows: &str, want: &[u64]) {
    listed(report, what, file, &format!("{HEAD}{rows}"));
    let session = loaded(report, file);
    counted(report, &Case::new(0, file).after(what), &session, want);
}

/// The most gates with the most patterns in each set: 1,024 forty times.
fn most(report: &mut Report, what: &str, file: &[u8], cdc: &str) {
    let row = |signal| format!("{signal} {cdc} 0003 0003 1024\n");
    let rows: String = (10..50).map(row).collect();
    network(report, what, file, &(rows + "total 80 80\n"), &[1024; 40]);
}

/// One gate, the output, with the first c patterns excluded: its set has just these.
fn first_excluded(report: &mut Report, n: u8, c: usize) {
    let (table, set) = match (1 << n) - c {
        0 => ("0003", 2),
        1 => ("0001", 1),
        _ => ("0000", 0),
    };
    let rows = format!("{n} {table} {table} {table} {c}\ntotal {set} {set}\n");
    let what = format!("{c} of {} patterns", 1 << n);
    network(report, &what, &chain(n, 1, c, n), &rows, &[c as u64]);
}

/// The counts are the loaded network's: those of the twin network stay when gate 3 becomes a copy of gate 2, and are others
/// once that is loaded.
fn exchanged(report: &mut Report) {
    let case = Case::new(0, &TWIN).after("gate 3 to C");
    let exchange = Call::Exchange {
        gate: 3,
        table: 0xC,
    };
    let fresh = Lent::session(&exchange, &loaded(report, &TWIN));
    let (_, after) = report.compare(&[RAW, BINDING], &exchange, &fresh, &case);
    counted(report, &case, &after.session, &[1, 0, 0]);
    let after = Lent::session(&Call::Write, &after.session);
    let (_, written) = report.compare(&[RAW, BINDING], &Call::Write, &after, &case);
    let file = &written.bytes[..written.out[0] as usize];
    let again = loaded(report, file);
    counted(report, &case.after("loaded again"), &again, &[2, 0, 0]);
}

const EDGES: [usize; 13] = [0, 1, 63, 64, 65, 255, 256, 257, 511, 512, 513, 1023, 1024];

pub fn compare(report: &mut Report) {
    most(report, "no pattern comes", &chain(10, 40, 1024, 49), "0003");
    most(report, "no gate is seen", &chain(10, 40, 0, 0), "0000");
    for n in 1..=10 {
        let patterns = 1 << n;
        let counts = EDGES.into_iter().chain([patterns - 1, patterns]);
        let counts: BTreeSet<usize> = counts.filter(|&c| c <= patterns).collect();
        counts.iter().for_each(|&c| first_excluded(report, n, c));
    }
    exchanged(report);
    for c in EDGES {
        report.require_seen(&format!("count {c}"));
    }
    report.require_seen("total 40960");
}
