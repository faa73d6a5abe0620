//! What the binding's refusals say in words, each as an error that a refused call gave. 9 and 15 are made by hand: the
//! binding's own buffers are long enough, and its list is of pairs.

use crate::files::{twin_but, twin_to};
use crate::report::Report;
use std::error::Error;
use tusqirma::{Refusal, Session, SESSION_WORDS};

fn load(file: &[u8]) -> Result<(), Refusal> {
    Session::load(file).map(|_| ())
}

fn read_blif(text: &[u8]) -> Result<(), Refusal> {
    Session::read_blif(text).map(|_| ())
}

pub fn compare(report: &mut Report) {
    let file = include_bytes!("../../examples/board.net");
    let mut board = Session::load(file).expect("the example's board loads");
    board.exchange(14, 0).expect("the example's order");
    let none = Session::from_words([0; SESSION_WORDS]);
    #[rustfmt::skip]
    let answers = [
        (load(&twin_to(26, &[])), "the file ends where a record is due or inside one"),
        (load(&twin_but(0, 0)), "the file has a mark that is not due there"),
        (load(&twin_but(2, 11)), "the network has n, m, p or k outside its bounds"),
        (load(&twin_but(14, 2)), "the file has a fan-in that is not an earlier signal"),
        (load(&twin_but(21, 1)), "the file lists a fan-in twice in one gate"),
        (load(&twin_but(9, 4)), "the file has a bit past the end of a table or excluded set"),
        (load(&twin_but(26, 4)), "the file has an output that is not a signal"),
        (load(&twin_to(27, &[0])), "the file has bytes after its last record"),
        (Err(Refusal::BufferTooShort), "a buffer is too short"),
        (none.verdict(&[(14, 0)]), "the session's words hold no network"),
        (board.verdict(&[(9, 0)]), "no gate has that signal number"),
        (board.verdict(&[(14, 16)]), "the table has a bit past the gate's last entry"),
        (board.exchange(22, 0), "the exchange alters entry 3, which is closed"),
        (board.verdict(&[(22, 0)]), "the replacement changes output 2 at pattern 7"),
        (Err(Refusal::ListsUnequal), "there are not as many gates as tables"),
        (board.verdict(&[(14, 0), (22, 0), (14, 0)]), "a gate is named a second time"),
        (read_blif(b".model board\n"), "the text has a line outside the subset, or ends before .end"),
        (read_blif(b".model board\n.inputs a a\n"), "the text has a name that is unknown, or stands twice"),
    ];
    for (answer, want) in answers {
        let error = answer.err().map(Box::<dyn Error>::from);
        let got = error.map(|e| e.to_string());
        let wrong = got.as_deref() != Some(want);
        report.count(0, wrong.then(|| format!("want {want:?}, got {got:?}")));
    }
}
