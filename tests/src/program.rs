//! The listing program's input and output, which no proof covers: bytes that come in pieces, reads and writes that fail.

use crate::engine::LISTING;
use crate::files::TWIN;
use crate::report::Report;
use std::fs::File;
use std::io::Write;
use std::os::fd::OwnedFd;
use std::os::unix::net::UnixStream;
use std::process::{Child, Command, Stdio};
use std::time::Duration;

const TEXT: &str = include_str!("../../crates/listing/stdout");
const UNREAD: &str = "cannot read the input\n";
const UNWRITTEN: &str = "cannot write the output\n";

fn start(input: impl Into<Stdio>, output: Stdio) -> Child {
    Command::new(LISTING.get().expect("the first argument"))
        .stdin(input)
        .stdout(output)
        .stderr(Stdio::piped())
        .spawn()
        .expect("the program starts")
}

/// Compares what the program printed, and what it printed to its standard error.
fn compare_ended(report: &mut Report, what: &str, child: Child, text: &str, error: &str) {
    let output = child.wait_with_output().expect("the program ends");
    let (out, err) = (output.stdout, output.stderr);
    let wrong = out != text.as_bytes() || err != error.as_bytes();
    let got = String::from_utf8_lossy(&[out, err].concat()).into_owned();
    report.count(0, wrong.then(|| format!("{what}: got {got}")));
}

/// A whole network in pieces, each of which the program has time to read alone.
fn in_pieces(report: &mut Report) {
    let mut child = start(Stdio::piped(), Stdio::piped());
    let mut input = child.stdin.take().expect("piped");
    for piece in TWIN.chunks(7) {
        input.write_all(piece).expect("the program reads on");
        std::thread::sleep(Duration::from_millis(20));
    }
    drop(input);
    compare_ended(report, "bytes in pieces", child, TEXT, "");
}

/// The input comes through a socket. Closed while it holds a byte that was never read, it lets the program read what was
/// sent, and then the next read fails; closed without one, the input just ends.
fn through_socket(sent: &[u8], fails: bool) -> OwnedFd {
    let (mut near, mut far) = UnixStream::pair().expect("a pair of sockets");
    near.write_all(sent).expect("room in the socket");
    if fails {
        far.write_all(b"?").expect("room in the socket");
    }
    far.into()
}

pub fn compare(report: &mut Report) {
    in_pieces(report);
    for (what, sent, fails, text) in [
        ("a whole network", &TWIN[..], false, TEXT),
        ("a read fails behind a whole network", &TWIN, true, UNREAD),
        ("a read fails within a network", &TWIN[..9], true, UNREAD),
        ("a read fails at once", &[], true, UNREAD),
        ("no input", &[], false, "refused 1\n"),
    ] {
        let child = start(through_socket(sent, fails), Stdio::piped());
        compare_ended(report, what, child, text, "");
    }
    let full = File::create("/dev/full").expect("a device that is always full");
    let child = start(through_socket(&TWIN, false), full.into());
    compare_ended(report, "a write fails", child, "", UNWRITTEN);
}
