//! Boards that cannot be made, outputs that fail, and a board that comes in pieces.

use super::stated::{boards, OPEN};
use super::{command, compare, due, program, word, words, Files, Folder, Outcome, Word};
use crate::files::TWIN;
use crate::random::{self, Random};
use crate::reference;
use crate::report::{Case, Report};
use std::ffi::OsStr;
use std::io::Write;
use std::os::unix::ffi::OsStrExt;
use std::process::{Command, Stdio};
use std::time::Duration;

pub fn failures(report: &mut Report) {
    taken(report);
    unprinted(report);
    closed(report);
    cut_short(report);
    in_pieces(report);
}

fn order() -> Vec<Word> {
    words(&["1=0"])
}

/// No file is ever overwritten: a target that is taken, and ones that cannot be made.
fn taken(report: &mut Report) {
    let files = boards();
    for (target, why) in [
        ("xor", "File exists"),
        ("twin", "File exists"),
        (".", "File exists"),
        ("none/new", "No such file or directory"),
        ("twin/new", "Not a directory"),
    ] {
        let folder = Folder::new("taken", &files);
        let want = Outcome {
            out: word(format!("{OPEN}gate 1 from 0002 to 0000: open\n")),
            err: word(format!("{target}: {why}\n")),
            files: files.clone(),
        };
        let got = folder.run(&command("twin", &order(), Some(target)));
        let case = Case::new(0, &[]).after(format!("-o {target}"));
        compare(report, &case, &got, &want);
    }
}

/// An answer that cannot be printed: no board is made, and none is written into.
fn unprinted(report: &mut Report) {
    let files = boards();
    for output in [">&-", "<&- >&-", ">/dev/full"] {
        for target in [None, Some("new")] {
            let folder = Folder::new("unprinted", &files);
            let want = Outcome {
                err: word("cannot write the output\n"),
                files: files.clone(),
                ..Outcome::default()
            };
            let words = command("twin", &order(), target);
            let got = folder.run_after(&format!("exec {output}"), &words);
            let case = Case::new(0, &[]).after(format!("{output} {target:?}"));
            compare(report, &case, &got, &want);
        }
    }
}

/// A closed input or a closed standard error changes no answer and no board.
fn closed(report: &mut Report) {
    let files = boards();
    for closed in ["<&-", "2>&-", "<&- 2>&-"] {
        let folder = Folder::new("closed", &files);
        let want = due(&files, "twin", &order(), Some("new"));
        let words = command("twin", &order(), Some("new"));
        let got = folder.run_after(&format!("exec {closed}"), &words);
        compare(report, &Case::new(0, &[]).after(closed), &got, &want);
    }
}

/// A board longer than a file may get: the part that was written is removed again.
fn cut_short(report: &mut Report) {
    let file = random::longest_network(&mut Random::new(1, report.name(), 0));
    let loaded = reference::load(&file).expect("it loads");
    let same = format!("{}={:x}", loaded.n, loaded.tables[0]);
    let (files, order) = (Files::from([("board".into(), file)]), [word(same)]);
    let folder = Folder::new("cut", &files);
    let want = Outcome {
        err: word("new: File too large\n"),
        ..due(&files, "board", &order, None)
    };
    // one block of 512 bytes
    let limit = "trap '' XFSZ; ulimit -f 1";
    let got = folder.run_after(limit, &command("board", &order, Some("new")));
    compare(report, &Case::new(0, &[]).after(limit), &got, &want);
}

/// A board that comes through a pipe, in pieces that the program has time to read alone.
fn in_pieces(report: &mut Report) {
    let files = boards();
    let folder = Folder::new("pieces", &files);
    let words = command("/dev/stdin", &order(), None);
    let mut child = Command::new(program())
        .args(words.iter().map(|w| OsStr::from_bytes(w)))
        .stdin(Stdio::piped())
        .stdout(Stdio::piped())
        .stderr(Stdio::piped())
        .spawn()
        .expect("the program starts");
    let mut input = child.stdin.take().expect("piped");
    for piece in TWIN.chunks(7) {
        input.write_all(piece).expect("the program reads on");
        std::thread::sleep(Duration::from_millis(20));
    }
    drop(input);
    let got = folder.left(child.wait_with_output().expect("the program ends"));
    let want = due(&files, "twin", &order(), None);
    let case = Case::new(0, &[]).after("a board in pieces");
    compare(report, &case, &got, &want);
}
