//! The example that converts: the board both ways, refusals, and what fails around it.

use crate::blif::{longest_in_blif, row_of, BOARD, BOARD_BLIF};
use crate::c::{built, Program};
use crate::engine::fed;
use crate::reference::{load, write_blif};
use crate::report::Report;
use crate::wide::OR_SIX;
use std::fs::File;
use std::process::{Command, Output};

const USAGE: &str = "usage: convert in|out\n";

pub fn compare(report: &mut Report) {
    let program = built(report, "examples/convert.c");
    let longest = longest_in_blif();
    let [text, wide_text, longest_text] = [BOARD, OR_SIX, &longest].map(text_of);
    let long = [&b"# a comment\n".repeat(100_000)[..], BOARD_BLIF].concat();
    let crowded = row_of(40);
    for (way, input, output) in [
        ("in", BOARD_BLIF, BOARD),
        ("out", BOARD, &text),
        ("in", &text, BOARD),
        ("in", &long, BOARD),
        ("out", OR_SIX, &wide_text),
        ("in", &wide_text, OR_SIX),
        ("out", &longest, &longest_text),
        ("in", &longest_text, &longest),
    ] {
        run(report, &program, &[way], input, (output, "", 0));
    }
    for (way, input, refused) in [
        ("in", &b""[..], "refused 17\n"),
        ("in", b".model t\n.inputs a a\n", "refused 18\n"),
        ("in", b".model t\n.inputs\n", "refused 3\n"),
        ("in", BOARD, "refused 17\n"),
        ("out", b"", "refused 1\n"),
        ("out", BOARD_BLIF, "refused 2\n"),
        ("out", &crowded, "refused 3\n"),
    ] {
        run(report, &program, &[way], input, (b"", refused, 1));
    }
    for words in [&[][..], &["on"], &["in", "out"], &["", "in"]] {
        run(report, &program, words, BOARD, (b"", USAGE, 2));
    }
    failures(report, &program);
}

/// The text of a file's network, which needs no copy.
fn text_of(file: &[u8]) -> Vec<u8> {
    let network = load(file).expect("it loads");
    write_blif(&network).expect("it needs no copy").into()
}

/// What is due on standard output and on standard error, and the exit status.
type Due<'a> = (&'a [u8], &'a str, i32);

fn run(report: &mut Report, program: &Program, words: &[&str], input: &[u8], due: Due) {
    let ended = fed(Command::new(&program.0).args(words), input);
    left(report, &words.join(" "), ended, due);
}

fn left(report: &mut Report, what: &str, ended: Output, due: Due) {
    let error = String::from_utf8_lossy(&ended.stderr);
    let got = (&ended.stdout[..], &error[..], ended.status.code());
    let wrong = got != (due.0, due.1, Some(due.2));
    let text = || format!("convert {what}: want {due:?}, got {got:?}");
    report.count(0, wrong.then(text));
}

/// An input that cannot be read, and an output that cannot be written.
fn failures(report: &mut Report, program: &Program) {
    let folder = File::open("/").expect("a folder");
    let ended = Command::new(&program.0).arg("in").stdin(folder).output();
    let due: Due = (b"", "cannot read the input\n", 2);
    left(report, "a folder", ended.expect("it ends"), due);
    let shell = format!("{} out >/dev/full", program.0.display());
    let ended = fed(Command::new("sh").args(["-c", &shell]), BOARD);
    let due: Due = (b"", "cannot write the output\n", 2);
    left(report, &shell, ended, due);
}
