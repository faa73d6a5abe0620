//! Request Five's promise to what was there before: a file that loaded loads to the same session, one that was refused with another
//! number than 2 is refused with that number, and a network without wide gates is written and listed with the same bytes.

use crate::call::{Call, Lent};
use crate::engine::RAW;
use crate::reference::{old_format, Network, State};
use crate::report::{Case, Report};

/// What the library answers a file, held against what was answered before.
pub fn loads(report: &mut Report, case: &Case) {
    let before = old_format::load(&case.file);
    let mut lent = Lent::file(&Call::Load, &case.file);
    let number = (RAW.run)(&Call::Load, &mut lent);
    let after = match number {
        0 => State::read(&lent.session).map(|s| [s.loaded, s.current]),
        number => Err(number),
    };
    report.see(match before {
        Err(2) if number != 2 => "before 2, now another answer".into(),
        _ => format!("before {}", before.as_ref().err().unwrap_or(&0)),
    });
    let wrong = before != Err(2) && after != before.clone().map(|s| [s.clone(), s]);
    let text = || format!("{case}before {before:?}, now {after:?}");
    report.count(case.size(), wrong.then(text));
}

/// Files with these answers, and others that have a wide gate, have to have been met.
pub fn require(report: &mut Report, answers: impl IntoIterator<Item = u64>) {
    for number in answers {
        report.require_seen(&format!("before {number}"));
    }
    report.require_seen("before 2, now another answer");
}

/// The file and the listing of a network, where no gate is wide, are the bytes that they were.
pub fn same_bytes(report: &mut Report, case: &Case, s: &Network, session: &[u64]) {
    if s.is_wide() {
        return;
    }
    report.see("a network written and listed as before");
    let write = Lent::session(&Call::Write, session);
    same(report, case, &Call::Write, write, &old_format::write(s));
    let list = Lent::file(&Call::Listing, &case.file);
    let text = old_format::listing(s);
    same(report, case, &Call::Listing, list, text.as_bytes());
}

fn same(report: &mut Report, case: &Case, call: &Call, mut lent: Lent, before: &[u8]) {
    let number = (RAW.run)(call, &mut lent);
    let wrong = number != 0 || lent.bytes.get(..lent.out[0] as usize) != Some(before);
    let text = || format!("{case}{call:?}: not the bytes that were before");
    report.count(case.size(), wrong.then(text));
}
