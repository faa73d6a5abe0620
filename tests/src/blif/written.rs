//! Sessions whose texts are stated, the order of the tests on the way out, and the example.

use super::{answered, compare_text};
use crate::call::{Call, Lent, MOST_BLIF};
use crate::engine::{BINDING, RAW};
use crate::files::{loaded, TWIN};
use crate::reference::WORDS;
use crate::report::{Case, Report};
use crate::wide::OR_SIX;

pub fn written_stated(report: &mut Report) {
    twin(report);
    let pair = b"NI\x02\x02\x06NG\x02\x00\x01\x08\x00NG\x01\x02\x01\x00NO\x00NO\x02NO\x00NO\x02NO\x03NO\x02";
    let text = ".model s\n.inputs s0 s1\n.outputs s4 s2 s5 s6 s3 s7\n.names s0 s1 s2\n11 1\n.names s2 s3\n0 1\n\
                .names s0 s4\n1 1\n.names s0 s5\n1 1\n.names s2 s6\n1 1\n.names s2 s7\n1 1\n.end\n";
    let session = loaded(report, pair);
    written(report, "copies", &session, 161, text);
    let one = b"NI\x01\x01\x01NG\x01\x00\x00\x00NO\x01";
    let text = ".model s\n.inputs s0\n.outputs s1\n.names s0 s1\n.end\n";
    let session = loaded(report, one);
    written(report, "one gate", &session, 50, text);
    crowded(report);
    six_fanins(report);
    longest(report);
    board(report);
}

/// A session that goes out as so many bytes that begin like this. Gives the text.
fn written(
    report: &mut Report,
    what: &str,
    session: &[u64],
    length: usize,
    begin: &str,
) -> Vec<u8> {
    let case = Case::new(0, &[]).after(what);
    let lent = Lent::session(&Call::WriteBlif, session);
    let (number, after) = report.compare(&[RAW, BINDING], &Call::WriteBlif, &lent, &case);
    let text = &after.bytes[..after.out[0].min(after.bytes.len() as u64) as usize];
    let wrong = number != 0 || text.len() != length || !text.starts_with(begin.as_bytes());
    let got = || {
        format!(
            "{case}{number}, {} bytes: {}",
            text.len(),
            text.escape_ascii()
        )
    };
    report.count(case.size(), wrong.then(got));
    if number == 0 {
        compare_text(report, &Case::text(0, text).after(what));
    }
    text.to_vec()
}

/// The twin network; the current tables go out, and the constant 0 has no row.
fn twin(report: &mut Report) {
    let fresh = loaded(report, &TWIN);
    let (head, rest) = (
        ".model s\n.inputs s0\n.outputs s3\n.names s0 s1\n",
        ".names s0 s2\n1 1\n.names s1 s2 s3\n10 1\n01 1\n11 1\n.end\n",
    );
    let text = format!("{head}1 1\n{rest}");
    written(report, "the twin network", &fresh, 102, &text);
    let exchange = Call::Exchange { gate: 1, table: 0 };
    let lent = Lent::session(&exchange, &fresh);
    let (_, after) = report.compare(&[RAW, BINDING], &exchange, &lent, &Case::new(0, &TWIN));
    let text = format!("{head}{rest}");
    written(report, "gate 1 set to 0", &after.session, 98, &text);
}

/// So many gates that copy one input, of which the first is both outputs.
pub fn row_of(m: u8) -> Vec<u8> {
    let gates = [0x4E, 0x47, 1, 0, 2, 0].repeat(m as usize);
    [&[0x4E, 0x49, 1, m, 2], &gates[..], &b"NO\x01NO\x01"[..]].concat()
}

/// 9 for a session cut short comes first, then 10, then 3, then 9 for the others.
fn crowded(report: &mut Report) {
    let fits = loaded(report, &row_of(39));
    written(report, "39 gates and a copy", &fits, 752, ".model s\n");
    let crowded = loaded(report, &row_of(40));
    let mut invalid = crowded.clone();
    invalid[0] = 11;
    let short = &crowded[..WORDS - 1];
    for (session, bytes, out, number) in [
        (&fits[..], 752, 1, 0),
        (&fits, 751, 1, 9),
        (&fits, 752, 0, 9),
        (&fits, 0, 0, 9),
        (&crowded, MOST_BLIF, 1, 3),
        (&crowded, 0, 1, 3),
        (&crowded, MOST_BLIF, 0, 3),
        (&crowded, 0, 0, 3),
        (&invalid, 0, 0, 10),
        (short, 0, 0, 9),
        (&invalid[..WORDS - 1], MOST_BLIF, 1, 9),
        (&[], 0, 0, 9),
    ] {
        let case = Case::new(0, &[]).after(format!("{bytes} bytes, {out} words: {number}"));
        let lent = Lent::new(session, &[], bytes, out);
        let (got, _) = report.compare(&[RAW], &Call::WriteBlif, &lent, &case);
        let wrong = got != number;
        report.count(case.size(), wrong.then(|| format!("{case}got {got}")));
    }
}

/// The table of the gate with six fan-ins has 63 ones. The text comes back as the same session.
fn six_fanins(report: &mut Report) {
    let copies = (1..=6).map(|signal| format!(".names s0 s{signal}\n1 1\n"));
    let copies: String = copies.collect();
    let begin = format!(
        ".model s\n.inputs s0\n.outputs s7\n{copies}\
         .names s1 s2 s3 s4 s5 s6 s7\n100000 1\n010000 1\n110000 1\n001000 1\n"
    );
    let session = loaded(report, OR_SIX);
    let text = written(report, "six fan-ins", &session, 734, &begin);
    let lines = text.split(|&b| b == b'\n');
    let rows = lines.filter(|line| line.len() == 8 && line.ends_with(b" 1"));
    report.require("63 rows", rows.count() == 63);
    reads_as(report, &text, &session);
}

/// As many gates, rows and bytes of names as can be: each gate is constant 1 over the six signals before it.
pub fn longest_in_blif() -> Vec<u8> {
    let fanins = |first: u8| (first..first + 6).collect::<Vec<u8>>();
    let gate = |first| [b"NH\x06", &fanins(first)[..], &[0xFF; 8]].concat();
    let gates: Vec<u8> = (4..44).flat_map(gate).collect();
    let outputs: Vec<u8> = (42..50).flat_map(|signal| [b'N', b'O', signal]).collect();
    [b"NI\x0A\x28\x08", &gates[..], &outputs].concat()
}

fn longest(report: &mut Report) {
    let session = loaded(report, &longest_in_blif());
    let text = written(report, "the longest text", &session, 24512, ".model s\n");
    reads_as(report, &text, &session);
}

/// The text is this session, word for word.
fn reads_as(report: &mut Report, text: &[u8], session: &[u64]) {
    let case = Case::text(0, text);
    answered(report, &case, 0);
    let mut read = Lent::file(&Call::ReadBlif, text);
    (RAW.run)(&Call::ReadBlif, &mut read);
    let wrong = read.session != session;
    let text = || format!("{case}it is another network");
    report.count(case.size(), wrong.then(text));
}

pub const BOARD: &[u8] = include_bytes!("../../../examples/board.net");
pub const BOARD_BLIF: &[u8] = include_bytes!("../../../examples/board.blif");

/// The example as a file and as a text.
fn board(report: &mut Report) {
    let session = loaded(report, BOARD);
    written(report, "the board", &session, 483, ".model s\n");
    reads_as(report, BOARD_BLIF, &session);
}
