//! The desk's program, each run in a folder of its own: both of its outputs and every file that it leaves.

mod failures;
mod random;
mod stated;
mod wide;

pub use failures::failures;
pub use random::{chains, orders};
pub use stated::stated;
pub use wide::wide;

use crate::reference;
use crate::report::{Case, Report};
use std::collections::BTreeMap;
use std::ffi::OsStr;
use std::os::unix::ffi::OsStrExt;
use std::path::PathBuf;
use std::process::{Command, Output};
use std::sync::OnceLock;

/// The whole path of the program, which is run in other folders.
pub static ORDER: OnceLock<PathBuf> = OnceLock::new();

fn program() -> &'static PathBuf {
    ORDER.get().expect("the second argument")
}

type Files = BTreeMap<String, Vec<u8>>;
type Word = Vec<u8>;

/// Both outputs of a run, and every file in its folder afterwards.
#[derive(Clone, Default, PartialEq)]
struct Outcome {
    out: Vec<u8>,
    err: Vec<u8>,
    files: Files,
}

impl Outcome {
    /// What is printed, told and left, as far as it differs from the other.
    fn against(&self, other: &Outcome) -> String {
        let text = |bytes: &[u8]| String::from_utf8_lossy(bytes).into_owned();
        let mut shown = Vec::new();
        if self.out != other.out {
            shown.push(format!("{:?}", text(&self.out)));
        }
        if self.err != other.err {
            shown.push(format!("on standard error {:?}", text(&self.err)));
        }
        for (name, bytes) in &self.files {
            if other.files.get(name) != Some(bytes) {
                shown.push(format!("{name}: {bytes:02X?}"));
            }
        }
        shown.join(", ")
    }
}

/// A folder with these files; it goes when it is dropped.
struct Folder(PathBuf);

impl Folder {
    fn new(name: &str, files: &Files) -> Folder {
        let own = format!("tusqirma-{}-{name}", std::process::id());
        let folder = Folder(std::env::temp_dir().join(own));
        std::fs::create_dir(&folder.0).expect("a folder of its own");
        for (name, bytes) in files {
            std::fs::write(folder.0.join(name), bytes).expect("a file in it");
        }
        folder
    }

    fn files(&self) -> Files {
        let entries = std::fs::read_dir(&self.0).expect("its folder");
        let file = |entry: std::io::Result<std::fs::DirEntry>| {
            let entry = entry.expect("a file in it");
            let name = entry.file_name().to_string_lossy().into_owned();
            (name, std::fs::read(entry.path()).expect("a file in it"))
        };
        entries.map(file).collect()
    }

    fn run(&self, words: &[Word]) -> Outcome {
        self.outcome(Command::new(program()), words)
    }

    /// By a shell, which first does what is said.
    fn run_after(&self, done: &str, words: &[Word]) -> Outcome {
        let mut shell = Command::new("sh");
        shell.arg("-c").arg(format!("{done}; exec \"$0\" \"$@\""));
        shell.arg(program());
        self.outcome(shell, words)
    }

    fn outcome(&self, mut command: Command, words: &[Word]) -> Outcome {
        let words = words.iter().map(|w| OsStr::from_bytes(w));
        let ended = command.args(words).current_dir(&self.0).output();
        self.left(ended.expect("the program ends"))
    }

    fn left(&self, ended: Output) -> Outcome {
        Outcome {
            out: ended.stdout,
            err: ended.stderr,
            files: self.files(),
        }
    }
}

impl Drop for Folder {
    fn drop(&mut self) {
        let _ = std::fs::remove_dir_all(&self.0);
    }
}

fn word(text: impl AsRef<[u8]>) -> Word {
    text.as_ref().to_vec()
}

fn words(texts: &[&str]) -> Vec<Word> {
    texts.iter().map(word).collect()
}

/// The words of a run: the board, the order, and the target where there is one.
fn command(board: &str, order: &[Word], target: Option<&str>) -> Vec<Word> {
    let target = target.map_or(Vec::new(), |name| words(&["-o", name]));
    [&[word(board)], order, &target].concat()
}

/// The outcome of a run on a board that is there, with a target that is free.
fn due(files: &Files, board: &str, order: &[Word], target: Option<&str>) -> Outcome {
    let mut due = Outcome {
        files: files.clone(),
        ..Outcome::default()
    };
    match reference::pairs(order) {
        Err(told) => due.err = told,
        Ok(pairs) => {
            let (text, changed) = reference::answer(&files[board], &pairs);
            due.out = text.into_bytes();
            if let (Some(name), Some(bytes)) = (target, changed) {
                due.out.extend(format!("new board: {name}\n").bytes());
                due.files.insert(name.into(), bytes);
            }
        }
    }
    due
}

/// What was run, for a case.
fn shown(words: &[Word]) -> String {
    format!("order {:?}", String::from_utf8_lossy(&words.join(&b' ')))
}

fn compare(report: &mut Report, case: &Case, got: &Outcome, want: &Outcome) {
    let wrong = got != want;
    let text = || {
        format!(
            "{case}want {}\ngot {}",
            want.against(got),
            got.against(want)
        )
    };
    report.count(case.size(), wrong.then(text));
}
