//! Request Five, line by line: gates of five and six fan-ins, both records of a gate, and the lengths that these lead to.

use crate::call::{Call, Lent};
use crate::engine::{BINDING, RAW};
use crate::files::{listed, loaded, stated, HEAD};
use crate::reference::{ARITY, CURRENT, LOADED};
use crate::report::{Case, Report};

/// Six copies of one input, and their OR.
pub const OR_SIX: &[u8] = b"NI\x01\x07\x01\
    NG\x01\x00\x02\x00NG\x01\x00\x02\x00NG\x01\x00\x02\x00NG\x01\x00\x02\x00NG\x01\x00\x02\x00NG\x01\x00\x02\x00\
    NH\x06\x01\x02\x03\x04\x05\x06\xFE\xFF\xFF\xFF\xFF\xFF\xFF\xFFNO\x07";

/// Six copies of one input, and a copy of the first of them.
const FIRST: &[u8] = b"NI\x01\x07\x01\
    NG\x01\x00\x02\x00NG\x01\x00\x02\x00NG\x01\x00\x02\x00NG\x01\x00\x02\x00NG\x01\x00\x02\x00NG\x01\x00\x02\x00\
    NH\x06\x01\x02\x03\x04\x05\x06\xAA\xAA\xAA\xAA\xAA\xAA\xAA\xAANO\x07";

/// Document 004's external don't cares: patterns 14 and 15 never come, 4 is the OR and 5 the AND of 0 and 1, and 6 the parity of
/// 0, 2, 3, 4 and 5.
pub const EXTERNAL: &[u8] = b"NI\x04\x03\x01NX\x00\xC0NG\x02\x00\x01\x0E\x00NG\x02\x00\x01\x08\x00\
    NH\x05\x00\x02\x03\x04\x05\x96\x69\x69\x96\x00\x00\x00\x00NO\x06";

const AND: &[u8] =
    b"NI\x06\x01\x01NH\x06\x00\x01\x02\x03\x04\x05\x00\x00\x00\x00\x00\x00\x00\x80NO\x06";
const ONES: &[u8] =
    b"NI\x06\x01\x01NH\x06\x00\x01\x02\x03\x04\x05\xFF\xFF\xFF\xFF\xFF\xFF\xFF\xFFNO\x06";
const ONES_OF_NONE: &[u8] = b"NI\x06\x01\x01NX\xFF\xFF\xFF\xFF\xFF\xFF\xFF\xFF\
    NH\x06\x00\x01\x02\x03\x04\x05\xFF\xFF\xFF\xFF\xFF\xFF\xFF\xFFNO\x06";
const STRIPES: &[u8] =
    b"NI\x06\x01\x01NH\x06\x00\x01\x02\x03\x04\x05\xE7\xE7\xE7\xE7\xE7\xE7\xE7\xE7NO\x06";
const FIVE_ONES: &[u8] =
    b"NI\x05\x01\x01NH\x05\x00\x01\x02\x03\x04\xFF\xFF\xFF\xFF\x00\x00\x00\x00NO\x05";

/// Six copies of inputs, of which the last two select one of the others.
const SELECT: &[u8] = b"NI\x06\x07\x01\
    NG\x01\x00\x02\x00NG\x01\x01\x02\x00NG\x01\x02\x02\x00NG\x01\x03\x02\x00NG\x01\x04\x02\x00NG\x01\x05\x02\x00\
    NH\x06\x06\x07\x08\x09\x0A\x0B\xAA\xAA\xCC\xCC\xF0\xF0\x00\xFFNO\x0C";

const ALL: u64 = u64::MAX;

/// Of a gate: the two words of its SDC, CDC, full and open table, and the compatible set.
type Row = (usize, [u64; 5], u64);

#[rustfmt::skip]
const NETWORKS: [(&str, &[u8], &[Row]); 9] = [
    ("six copies and their OR", OR_SIX, &[
        (1, [6, 0, 0, 2, 2], 0b10),
        (2, [6, 0, 0, 2, 2], 0b10),
        (3, [6, 0, 0, 2, 2], 0b10),
        (4, [6, 0, 0, 2, 2], 0b10),
        (5, [6, 0, 0, 2, 2], 0b10),
        (6, [6, 0, 0, 2, 0], 0),
        (7, [0xFFFFFFFFFFFFFFFE, 1, 0x7FFFFFFFFFFFFFFE, 0x7FFFFFFFFFFFFFFE, 0xFFFFFFFE], 0),
    ]),
    ("the first of six copies", FIRST, &[
        (1, [6, 0, 0, 0, 0], 0),
        (2, [6, 0, 0, 3, 3], 0b11),
        (6, [6, 0, 0, 3, 3], 0b11),
        (7, [0xAAAAAAAAAAAAAAAA, 0x5555555555555555, 0x7FFFFFFFFFFFFFFE, 0x7FFFFFFFFFFFFFFE, 0], 0),
    ]),
    ("external don't cares", EXTERNAL, &[
        (6, [0x6996966996696996, 0, 0xD5FF40AA, 0xD5FF40AA, 0xD5FF40AA], 0xC000),
    ]),
    ("AND", AND, &[(6, [0x8000000000000000, 0x7FFFFFFFFFFFFFFF, 0, 0, 0], 0)]),
    ("all ones", ONES, &[(6, [ALL, 0, 0, 0, 0], 0)]),
    ("all ones, and no pattern comes", ONES_OF_NONE, &[(6, [ALL, 0, ALL, ALL, ALL], ALL)]),
    ("stripes", STRIPES, &[(6, [0xE7E7E7E7E7E7E7E7, 0x1818181818181818, 0, 0, 0], 0)]),
    ("all ones of five fan-ins", FIVE_ONES, &[(5, [0xFFFFFFFF, 0, 0, 0, 0], 0)]),
    ("a selector", SELECT, &[
        (6, [6, 0, 0, 0, 0], 0xFFFFFFFFFFFF0000),
        (7, [6, 0, 0, 0, 0], 0xFFFFFFFF0000FFFF),
        (8, [6, 0, 0, 0, 0], 0xFFFF0000FFFFFFFF),
        (9, [6, 0, 0, 0, 0], 0x0000FFFFFFFFFFFF),
    ]),
];

/// A file; a gate with a table; what an exchange answers and names, fresh from the load, and what a verdict does.
type Change = (&'static [u8], usize, u64, &'static [u64], &'static [u64]);

#[rustfmt::skip]
const CHANGES: [Change; 10] = [
    (OR_SIX, 7, 0, &[13, 32], &[14, 1, 0]),
    (OR_SIX, 7, 0x7FFFFFFFFFFFFFFE, &[13, 63], &[14, 1, 0]),
    (OR_SIX, 7, 0xFFFFFFFF00000000, &[0], &[0]),
    (OR_SIX, 7, 0x8000000000000000, &[13, 32], &[0]),
    // no table of six fan-ins is too wide
    (OR_SIX, 7, ALL, &[13, 0], &[14, 0, 0]),
    (OR_SIX, 1, 4, &[12], &[12]),
    (EXTERNAL, 6, 0x4396293C, &[0], &[0]),
    (EXTERNAL, 6, 0x96696997, &[13, 0], &[14, 0, 0]),
    (EXTERNAL, 6, 0x100000000, &[12], &[12]),
    (EXTERNAL, 6, 0x8000000096696996, &[12], &[12]),
];

/// Behind the first record, which has six inputs, one gate and one output.
#[rustfmt::skip]
const FILES: [(&[u8], u64); 17] = [
    (b"NH\x04", 3),
    (b"NH\x07", 3),
    (b"NH\x00", 3),
    (b"NG\x05", 3),
    (b"NG\x06", 3),
    (b"NH", 1),
    (b"NH\x05", 1),
    (b"NG\x04", 1),
    (b"NJ\x06", 2),
    (b"NH\x05\x00\x01\x02\x03\x04\x00\x00\x00\x00\x01\x00\x00\x00NO\x06", 6),
    (b"NH\x05\x00\x01\x02\x03\x04\x00\x00\x00\x80\x00\x00\x00\x00NO\x06", 0),
    (b"NH\x06\x00\x01\x02\x03\x04\x06\xFF\xFF\xFF\xFF\xFF\xFF\xFF\xFFNO\x06", 4),
    (b"NH\x06\x00\x01\x02\x03\x04\x00\xFF\xFF\xFF\xFF\xFF\xFF\xFF\xFFNO\x06", 5),
    (b"NH\x06\x00\x01\x02\x03\x04\x05\xFF\xFF\xFF\xFF\xFF\xFF\xFF\xFFNO\x06", 0),
    (b"NH\x06\x00\x01\x02\x03\x04\x05\xFF\xFF\xFF\xFF\xFF\xFF\xFF\xFF\xFFNO\x06", 2),
    (b"NH\x06\x00\x01\x02\x03\x04\x05\xFF\xFF\xFF\xFF\xFF\xFF\xFF", 1),
    // a gate is not due any more
    (b"NG\x01\x00\x02\x00NH\x06\x00\x01\x02\x03\x04\x05\xFF\xFF\xFF\xFF\xFF\xFF\xFF\xFFNO\x06", 2),
];

pub fn compare(report: &mut Report) {
    for (what, file, rows) in NETWORKS {
        tables(report, what, file, rows);
    }
    for change in CHANGES {
        changes(report, change);
    }
    for (behind, number) in FILES {
        let file = [b"NI\x06\x01\x01", behind].concat();
        stated(report, "one gate", &file, number);
    }
    stated(report, "a gate first", b"NH\x06\x01\x01", 2);
    listing(report);
    longest(report);
    states(report);
    short(report);
}

/// A call on a session has this answer, and leaves these words at the start of `out`.
pub fn answered(
    report: &mut Report,
    case: &Case,
    call: &Call,
    session: &[u64],
    due: (u64, &[u64]),
) {
    let lent = Lent::session(call, session);
    let (number, after) = report.compare(&[RAW, BINDING], call, &lent, case);
    let got = (number, &after.out[..due.1.len()]);
    let wrong = got != due;
    let text = || format!("{case}{call:X?}: want {due:X?}, got {got:X?}");
    report.count(case.size(), wrong.then(text));
}

fn tables(report: &mut Report, what: &str, file: &[u8], rows: &[Row]) {
    let case = Case::new(0, file).after(what);
    let session = loaded(report, file);
    let sets = Lent::session(&Call::PatternSets, &session);
    let (_, sets) = report.compare(&[RAW, BINDING], &Call::PatternSets, &sets, &case);
    for &(gate, tables, compatible) in rows {
        answered(
            report,
            &case,
            &Call::Tables { gate },
            &session,
            (0, &tables),
        );
        let got = sets.out[2 * (gate - file[2] as usize) + 1];
        let wrong = got != compatible;
        let text = || format!("{case}H of {gate}: want {compatible:X}, got {got:X}");
        report.count(case.size(), wrong.then(text));
    }
    written(report, &case, &session);
}

/// The network's file is the one that it was loaded from.
fn written(report: &mut Report, case: &Case, session: &[u64]) {
    let lent = Lent::session(&Call::Write, session);
    let (number, after) = report.compare(&[RAW, BINDING], &Call::Write, &lent, case);
    let same = number == 0 && after.bytes.starts_with(&case.file);
    let wrong = !same || after.out[0] != case.file.len() as u64;
    let text = || format!("{case}written, another file");
    report.count(case.size(), wrong.then(text));
}

fn changes(report: &mut Report, (file, gate, table, exchanged, judged): Change) {
    let case = Case::new(0, file);
    let session = loaded(report, file);
    let verdict = Call::Verdict {
        gates: vec![gate as u64],
        tables: vec![table],
    };
    for (call, due) in [
        (Call::Exchange { gate, table }, exchanged),
        (verdict, judged),
    ] {
        answered(report, &case, &call, &session, (due[0], &due[1..]));
    }
}

/// Every table has sixteen digits where one gate is wide.
fn listing(report: &mut Report) {
    let copy = "0000000000000000 0000000000000002 0000000000000002 1\n";
    let copies: String = (1..=5).map(|signal| format!("{signal} {copy}")).collect();
    let last = "6 0000000000000000 0000000000000002 0000000000000000 0\n\
                7 7ffffffffffffffe 7ffffffffffffffe 00000000fffffffe 0\ntotal 68 36\n";
    let text = format!("{HEAD}{copies}{last}");
    listed(report, "six copies and their OR", OR_SIX, &text);
    let five = "5 0000000000000000 0000000000000000 0000000000000000 0\ntotal 0 0\n";
    let text = format!("{HEAD}{five}");
    listed(report, "all ones of five fan-ins", FIVE_ONES, &text);
}

/// A file as long as any that loads, and one byte more. As no pattern comes, all entries of all tables are set.
fn longest(report: &mut Report) {
    let gate = b"NH\x06\x00\x01\x02\x03\x04\x05\xFE\xFF\xFF\xFF\xFF\xFF\xFF\xFF";
    let (set, gates, outputs) = ([0xFF; 128], gate.repeat(40), b"NO\x31".repeat(8));
    let file = [b"NI\x0A\x28\x08NX", &set[..], &gates, &outputs].concat();
    let tables = ["ffffffffffffffff"; 3].join(" ");
    let rows: String = (10..50).map(|s| format!("{s} {tables} 1024\n")).collect();
    let text = format!("{HEAD}{rows}total 2560 2560\n");
    listed(report, "the longest file", &file, &text);
    let (case, session) = (Case::new(0, &file), loaded(report, &file));
    written(report, &case, &session);
    answered(report, &case, &Call::Write, &session, (0, &[839]));
    stated(report, "one byte long", &[&file[..], &[0]].concat(), 8);
    stated(report, "one byte short", &file[..838], 1);
}

/// States made by hand of the gate with six fan-ins: its k, its loaded and its current table.
fn states(report: &mut Report) {
    let session = loaded(report, OR_SIX);
    for (k, loaded, current, number) in [
        (0, 1, 1, 10),
        (1, 3, 3, 0),
        (4, 0xFFFF, 0xFFFF, 0),
        (4, 0x10000, 0, 10),
        (5, 0xFFFFFFFF, 0xFFFFFFFF, 0),
        (5, 0x100000000, 0, 10),
        (5, 0, 0x100000000, 10),
        (5, 0, 0x8000000000000000, 10),
        (6, ALL, ALL, 0),
        (7, 0, 0, 10),
        (255, 0, 0, 10),
    ] {
        let mut words = session.clone();
        words[ARITY + 6] = k;
        words[LOADED + 6] = loaded;
        words[CURRENT + 6] = current;
        let case = Case::new(0, OR_SIX).after(format!("k {k}, {loaded:x}, {current:x}"));
        answered(report, &case, &Call::AllTables, &words, (number, &[]));
    }
}

/// Five words a gate, of one fan-in too.
fn short(report: &mut Report) {
    let session = loaded(report, OR_SIX);
    for (call, words) in [
        (Call::Tables { gate: 1 }, 5),
        (Call::Tables { gate: 7 }, 5),
        (Call::AllTables, 35),
    ] {
        for (out, due) in [(words - 1, 9), (words, 0)] {
            let lent = Lent::new(&session, &[], 0, out);
            let case = Case::new(0, OR_SIX).after(format!("{out} words"));
            let (number, _) = report.compare(&[RAW], &call, &lent, &case);
            let wrong = number != due;
            let text = || format!("{case}{call:?}: want {due}, got {number}");
            report.count(case.size(), wrong.then(text));
        }
    }
}
