//! Orders on boards with gates of five and six fan-ins: sixteen digits for every gate, and the longest board and answer.

use super::stated::{named, Desk, ALONE, OPEN};
use super::{command, compare, due, word, words, Files, Folder};
use crate::files::TWIN;
use crate::random::{self, Random};
use crate::reference::{load, USAGE};
use crate::report::{Case, Report};
use crate::wide::{EXTERNAL, OR_SIX};

pub fn wide(report: &mut Report) {
    let mut desk = Desk::new(
        report,
        named([
            ("twin", TWIN.to_vec()),
            ("or-six", OR_SIX.to_vec()),
            ("external", EXTERNAL.to_vec()),
            ("chain", chain()),
        ]),
    );
    answers(&mut desk);
    refusals(&mut desk);
    longest_answer(&mut desk);
    longest_board(report);
}

fn answers(desk: &mut Desk) {
    let at_1 = "no: output 0 changes at pattern 1, lines on: 0\n";
    let seven = |new, standing| format!("gate 7 from fffffffffffffffe to {new}: {standing}\n");
    let upper = seven("ffffffff00000000", "open");
    let never = seven("0000000000000000", "entry 32 is closed");
    let last = seven("8000000000000000", "entry 32 is closed");
    let one = "gate 1 from 0000000000000002 to 0000000000000000: open\n";
    let six = "gate 6 from 0000000000000002 to 0000000000000000: entry 1 is closed\n";
    let parity = "gate 6 from 0000000096696996 to 000000004396293c: open\n";
    let copy = "gate 1 from 0002 to 0000: open\n";
    for (board, order, lines) in [
        ("or-six", "7=ffffffff00000000", [OPEN, &upper, ""]),
        ("or-six", "7=0", [at_1, &never, ""]),
        ("or-six", "7=8000000000000000", [ALONE, &last, ""]),
        ("or-six", "1=0 7=FFFFFFFF00000000", [OPEN, one, &upper]),
        ("or-six", "6=0", [ALONE, six, ""]),
        ("external", "6=4396293c", [OPEN, parity, ""]),
        ("twin", "1=0", [OPEN, copy, ""]),
    ] {
        desk.answered(board, &[order], &lines.concat());
    }
}

/// A table of five fan-ins may be too wide; one of six has at most sixteen digits, as any.
fn refusals(desk: &mut Desk) {
    let wide = "refused 12: the table of gate 6 is too wide\n";
    for order in ["6=100000000", "6=ffffffffffffffff"] {
        desk.answered("external", &[order], wide);
    }
    let pair = "7=10000000000000000";
    let told = format!("{pair} is not GATE=TABLE\n{USAGE}");
    desk.told(&words(&["or-six", pair]), told);
}

/// Pattern 1023 alone comes; each of forty gates is the AND of the gate before and five inputs, and the last is the output.
fn chain() -> Vec<u8> {
    let and = [0, 0, 0, 0, 0, 0, 0, 0x80];
    let gate = |before| [b"NH\x06", &[before, 0, 1, 2, 3, 4][..], &and].concat();
    let gates: Vec<u8> = (9..49).flat_map(gate).collect();
    let set = [&[0xFF; 127][..], &[0x7F]].concat();
    [b"NI\x0A\x28\x01NX", &set[..], &gates, b"NO\x31"].concat()
}

/// As many bytes as an answer can have.
fn longest_answer(desk: &mut Desk) {
    let gates: Vec<String> = (10..50).map(|gate| format!("00{gate}")).collect();
    let order: String = gates.iter().map(|gate| format!(" {gate}=0")).collect();
    let altered = "from 8000000000000000 to 0000000000000000: entry 63 is closed\n";
    let lines = gates.iter().map(|gate| format!("gate {gate} {altered}"));
    let first = "no: output 0 changes at pattern 1023, lines on: 0 1 2 3 4 5 6 7 8 9\n";
    let answer = [first.into()].into_iter().chain(lines);
    let answer = answer.collect::<String>();
    assert_eq!(answer.len(), 2948);
    desk.answered("chain", &[&order], &answer);
}

/// As many bytes as a board can have, read and written; with one more it is refused.
fn longest_board(report: &mut Report) {
    let file = random::longest_network(&mut Random::new(1, report.name(), 0));
    let table = load(&file).expect("it loads").tables[0];
    let order = [word(format!("10={table:x}"))];
    let yes = format!("{OPEN}gate 10 from {table:016x} to {table:016x}: open\nnew board: new\n");
    let long = "refused 8: bytes follow the last record\n";
    for (more, out, length) in [(0, &yes[..], Some(839)), (1, long, None)] {
        let board = [file.clone(), vec![0; more]].concat();
        let files = Files::from([("board".into(), board)]);
        let folder = Folder::new("longest", &files);
        let got = folder.run(&command("board", &order, Some("new")));
        let case = Case::new(0, &[]).after(format!("{more} bytes more than any board"));
        let want = due(&files, "board", &order, Some("new"));
        compare(report, &case, &got, &want);
        let new = got.files.get("new").map(Vec::len);
        let wrong = got.out != out.as_bytes() || new != length;
        let said = String::from_utf8_lossy(&got.out);
        let text = || format!("{case}got {said}new board {new:?}");
        report.count(0, wrong.then(text));
    }
}
