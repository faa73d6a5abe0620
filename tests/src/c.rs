//! C programs that include the header and link the archive: one makes every call on the twin network, the others are the
//! examples.

use crate::report::Report;
use std::fs::File;
use std::path::PathBuf;
use std::process::Command;

/// The repository, and the folder of the archive.
fn folders() -> (PathBuf, PathBuf) {
    let root = PathBuf::from(env!("CARGO_MANIFEST_DIR")).join("..");
    let library = std::env::var_os("TUSQIRMA_LIB").map(PathBuf::from);
    let library = library.unwrap_or_else(|| root.join("target/staticlib"));
    (root, library)
}

/// What a command prints, or what went wrong.
pub fn printed(command: &mut Command) -> String {
    let output = match command.output() {
        Ok(output) => output,
        Err(error) => return error.to_string(),
    };
    let said = [output.stdout, output.stderr].concat();
    let text = String::from_utf8_lossy(&said).into_owned();
    if output.status.success() {
        text
    } else {
        format!("{text}{}\n", output.status)
    }
}

/// A program that goes when it is dropped.
pub struct Program(pub PathBuf);

impl Drop for Program {
    fn drop(&mut self) {
        let _ = std::fs::remove_file(&self.0);
    }
}

/// Compiles with warnings as errors.
pub fn built(report: &mut Report, source: &str) -> Program {
    let (root, library) = folders();
    let program = std::env::temp_dir().join(format!("tusqirma-c-{}", std::process::id()));
    let said = printed(
        Command::new("cc")
            .args(["-std=c99", "-Wall", "-Wextra", "-pedantic", "-Werror"])
            .arg("-I")
            .arg(root.join("include"))
            .arg(root.join(source))
            .arg(library.join("libcapi.a"))
            .arg("-o")
            .arg(&program),
    );
    let failed = !said.is_empty();
    report.count(0, failed.then(|| format!("{source}, cc:\n{said}")));
    Program(program)
}

/// Compares each line that the program prints for a file with the one that 01 leads to.
fn program(report: &mut Report, source: &str, input: &str, want: &str) {
    let program = built(report, source);
    let file = File::open(folders().0.join(input)).expect("a file of the repository");
    let got = printed(Command::new(&program.0).stdin(file));
    report.lines(source, &got, want);
}

pub fn compare(report: &mut Report) {
    let twin = "crates/listing/stdin";
    program(
        report,
        "tests/c/twin.c",
        twin,
        include_str!("../c/twin.txt"),
    );
    let board = "examples/board.net";
    program(
        report,
        "examples/ask.c",
        board,
        include_str!("../c/ask.txt"),
    );
}
