//! Orders whose outputs are stated in full, each kind of answer and of message among them; every file has to stay.

use super::{command, compare, due, shown, word, words, Files, Folder, Outcome, Word};
use crate::files::{twin_but, twin_to, TWIN};
use crate::reference::{REASONS, USAGE};
use crate::report::{Case, Report};
use crate::weights::THREE;

pub const OPEN: &str = "yes: open, also together with any other order open on this board\n";
pub const ALONE: &str = "yes: alone, with no other order; ask the next on the changed board\n";
const TOO_LONG: &str = "the order is too long\n";

const HELP: &str = "\
usage: order BOARD GATE=TABLE... [-o NEW]
May these gates of BOARD get these tables, all on one order?
Sensor lines are numbered from 0, gates on from there, outputs from 0. TABLE
is the gate's new table in hexadecimal. After a yes, -o writes the changed
board to NEW, a new file: ask the next order on that one.
  yes: open   harmless, and so together with all orders open on BOARD
  yes: alone  harmless if no other order is done on BOARD
  no          with these sensor lines on, all others off, that output changes
  refused     a fault in the file or in the order
The gates marked open may get their tables even after a no, all of them.
";

pub fn named<const N: usize>(files: [(&str, Vec<u8>); N]) -> Files {
    files.map(|(name, bytes)| (name.to_string(), bytes)).into()
}

/// The twin, the twin with gate 3 an exclusive or, the twin with pattern 1 excluded, one gate over three lines, and the example.
pub fn boards() -> Files {
    let board = include_bytes!("../../../examples/board.net");
    named([
        ("twin", TWIN.to_vec()),
        ("xor", twin_but(22, 6)),
        (
            "twin-1",
            [&TWIN[..5], &[0x4E, 0x58, 2], &TWIN[5..]].concat(),
        ),
        ("three", THREE.to_vec()),
        ("board", board.to_vec()),
    ])
}

/// A file for each refusal 1 to 8.
fn refused_files() -> Files {
    named([
        ("bad-1", vec![]),
        ("bad-2", b"XX".to_vec()),
        ("bad-3", twin_but(2, 11)),
        ("bad-4", twin_but(14, 2)),
        ("bad-5", twin_but(21, 1)),
        ("bad-6", twin_but(22, 0x1E)),
        ("bad-7", twin_but(26, 4)),
        ("bad-8", twin_to(27, &[0; 4096])),
    ])
}

/// Runs in one folder.
pub struct Desk<'a> {
    pub report: &'a mut Report,
    files: Files,
    folder: Folder,
}

pub fn stated(report: &mut Report) {
    let mut files = boards();
    files.extend(refused_files());
    let mut desk = Desk::new(report, files);
    desk.answers();
    desk.weights();
    desk.refusals();
    desk.no_pairs();
    desk.no_answers();
    desk.long_names();
    desk.long_orders();
}

impl Desk<'_> {
    pub fn new(report: &mut Report, files: Files) -> Desk<'_> {
        let folder = Folder::new("stated", &files);
        Desk {
            report,
            files,
            folder,
        }
    }

    fn run(&mut self, words: &[Word], out: &str, err: impl AsRef<[u8]>) {
        let want = Outcome {
            out: word(out),
            err: word(err),
            files: self.files.clone(),
        };
        let case = Case::new(0, &[]).after(shown(words));
        compare(self.report, &case, &self.folder.run(words), &want);
    }

    /// An order that has an answer, which the enumeration gives too.
    pub fn answered(&mut self, board: &str, order: &[&str], out: &str) {
        let order = words(order);
        self.run(&command(board, &order, None), out, "");
        let text = due(&self.files, board, &order, None).out;
        let wrong = text != out.as_bytes();
        let said = || format!("the enumeration: {}", String::from_utf8_lossy(&text));
        self.report.count(0, wrong.then(said));
    }

    /// Words that get no answer.
    pub fn told(&mut self, words: &[Word], err: impl AsRef<[u8]>) {
        self.run(words, "", err);
    }

    fn answers(&mut self) {
        let gate =
            |gate, old, new, standing| format!("gate {gate} from {old} to {new}: {standing}\n");
        let one = gate("1", "0002", "0000", "open");
        let two = gate("2", "0002", "0000", "entry 1 is closed");
        let three = gate("3", "000e", "000c", "open");
        let (not_1, not_2) = (
            gate("1", "0002", "0001", "entry 0 is closed"),
            gate("2", "0002", "0001", "entry 0 is closed"),
        );
        let always = gate("1", "0002", "0003", "entry 0 is closed");
        let other = gate("3", "000e", "000a", "entry 2 is closed");
        let hidden = gate("2", "0002", "0000", "open");
        let at_0 = "no: output 0 changes at pattern 0, lines on: none\n";
        let at_1 = "no: output 0 changes at pattern 1, lines on: 0\n";
        for (board, order, lines) in [
            ("twin", "1=0", [OPEN, &one, ""]),
            ("twin", "2=0", [ALONE, &two, ""]),
            ("twin", "1=0 2=0", [at_1, &one, &two]),
            ("twin", "1=0 3=C", [OPEN, &one, &three]),
            ("twin", "2=0 3=c", [at_1, &two, &three]),
            ("twin", "2=0 3=a", [ALONE, &two, &other]),
            ("twin", "1=3", [at_0, &always, ""]),
            ("xor", "1=1", [at_0, &not_1, ""]),
            ("xor", "1=1 2=1", [ALONE, &not_1, &not_2]),
            ("twin-1", "1=0 2=0", [OPEN, &one, &hidden]),
        ] {
            let each: Vec<&str> = order.split(' ').collect();
            self.answered(board, &each, &lines.concat());
            // all in one word
            self.answered(board, &[order], &lines.concat());
        }
        let example = include_str!("../../../crates/order/stdout");
        self.answered("board", &["14=0", "22=0"], example);
        self.answered("board", &["\t14=0\r\n", "", " 22=0 "], example);
        let typed = example.replace("gate 14", "gate 0014");
        self.answered("board", &["0014=0000", "22=0000000000000000"], &typed);
    }

    /// The pattern with the fewest lines on, and the smaller number of two with as many.
    fn weights(&mut self) {
        for (table, pattern, lines, entry) in [
            ("18", 4, "2", 3),
            ("28", 3, "0 1", 3),
            ("60", 5, "0 2", 5),
            ("81", 0, "none", 0),
        ] {
            let first = format!("no: output 0 changes at pattern {pattern}, lines on: {lines}\n");
            let pair = format!("gate 3 from 0000 to 00{table}: entry {entry} is closed\n");
            let order = format!("3={table}");
            self.answered("three", &[&order], &(first + &pair));
        }
    }

    fn refusals(&mut self) {
        for (reason, k) in REASONS.iter().zip(1..) {
            let line = format!("refused {k}: {reason}\n");
            self.answered(&format!("bad-{k}"), &["0=0"], &line);
        }
        for (order, line) in [
            ("0=0", "refused 11: 0 is no gate\n"),
            ("4=0", "refused 11: 4 is no gate\n"),
            ("1=0 1=0", "refused 16: gate 1 is named twice\n"),
            ("1=0 01=0", "refused 16: gate 01 is named twice\n"),
            ("1=4", "refused 12: the table of gate 1 is too wide\n"),
            (
                "1=ffffffffffffffff",
                "refused 12: the table of gate 1 is too wide\n",
            ),
            ("1=4 1=0", "refused 12: the table of gate 1 is too wide\n"),
            ("1=0 1=4", "refused 16: gate 1 is named twice\n"),
            ("2=0 1=0 0=9", "refused 11: 0 is no gate\n"),
            ("abc=0", "refused 11: abc is no gate\n"),
            ("00001=0", "refused 11: 00001 is no gate\n"),
            ("+1=0", "refused 11: +1 is no gate\n"),
            ("1=2=0", "refused 11: 1=2 is no gate\n"),
            ("==0", "refused 11: = is no gate\n"),
        ] {
            self.answered("twin", &[order], line);
        }
    }

    fn no_pairs(&mut self) {
        let told = |w: &[u8]| [w, b" is not GATE=TABLE\n", USAGE.as_bytes()].concat();
        let wide = format!("1={}", "0".repeat(17));
        for bad in ["1", "1=", "=0", "1=g", "1=0x0", &wide, "1=0=", "--help"] {
            self.told(&words(&["twin", "1=0", bad, "2"]), told(bad.as_bytes()));
        }
        for bad in [&b"1\x7F=0"[..], b"1\x01=0", b"\xC3\xA9=0", b"\xFF=0"] {
            self.told(&[word("twin"), word(bad)], told(bad));
        }
        // -o that is not the last word but one, behind a word of the order
        for line in ["-o new", "1=0 -o", "-o 1=0 new", "1=0 -o new 2=0"] {
            let order: Vec<Word> = line.split(' ').map(word).collect();
            self.told(&command("twin", &order, None), told(b"-o"));
        }
        // before the board is looked for
        self.told(&words(&["none", "1=g"]), told(b"1=g"));
    }

    fn no_answers(&mut self) {
        for few in [&[][..], &["-h"], &["--help"], &["twin"]] {
            self.told(&words(few), HELP);
        }
        for blank in [
            &["twin", ""][..],
            &["twin", " \t\r\n", ""],
            &["twin", "", "-o", "new"],
            &["twin", "1=0", "-o", ""],
            &["none", " "],
            &["none", "1", "-o", ""],
        ] {
            self.told(&words(blank), USAGE);
        }
        for (board, why) in [
            ("none", "No such file or directory"),
            ("", "No such file or directory"),
            (".", "Is a directory"),
            ("twin/none", "Not a directory"),
        ] {
            let told = format!("{board}: {why}\n");
            self.told(&words(&[board, "1=0"]), &told);
            self.told(&words(&[board, "1=0", "-o", "new"]), &told);
        }
    }

    /// A name past 4,096 bytes is not there whole, so its word stands for it.
    fn long_names(&mut self) {
        let name = |length| "a".repeat(length);
        let (most, past) = (name(4096), name(4097));
        self.told(
            &words(&[&past, "1", "-o", &past]),
            "BOARD: File name too long\n",
        );
        self.told(
            &words(&[&most, "1=0"]),
            format!("{most}: File name too long\n"),
        );
        self.told(
            &words(&["none", &name(1025), "-o", &past]),
            "NEW: File name too long\n",
        );
        let yes = format!("{OPEN}gate 1 from 0002 to 0000: open\n");
        let told = format!("{most}: File name too long\n");
        self.run(&words(&["twin", "1=0", "-o", &most]), &yes, told);
    }

    /// 1,024 bytes, a space before each word counted, and one more.
    fn long_orders(&mut self) {
        let name = "a".repeat(1021);
        let (most, past) = (format!("{name}=0"), format!("a{name}=0"));
        let line = format!("refused 11: {name} is no gate\n");
        self.answered("twin", &[&most], &line);
        let repeated = "refused 16: gate 1 is named twice\n";
        self.answered("twin", &["1=0"; 256], repeated);
        let mut blanks = ["1=0"].to_vec();
        blanks.resize(1021, "");
        let yes = format!("{OPEN}gate 1 from 0002 to 0000: open\n");
        self.answered("twin", &blanks, &yes);
        blanks.push("");
        for order in [&[&past[..]][..], &[&most, ""], &["1=0"; 257], &blanks] {
            self.told(&command("none", &words(order), None), TOO_LONG);
        }
    }
}
