//! Request Six: the pattern that a harm verdict names has the fewest lines on, the smaller number among equals. Stated verdicts, and
//! ones that change the outputs at chosen patterns alone, where the order shows.

mod chosen;

use crate::call::{Call, Lent};
use crate::engine::{ways, RAW};
use crate::files::loaded;
use crate::random::Random;
use crate::reference::{weight, write, State};
use crate::report::{Case, Report};
use crate::wide::answered;
use chosen::Chosen;

/// One gate over three lines, which is always 0; and with pattern 4 excluded.
pub const THREE: &[u8] = b"NI\x03\x01\x01NG\x03\x00\x01\x02\x00\x00NO\x03";
const THREE_BUT_4: &[u8] = b"NI\x03\x01\x01NX\x10NG\x03\x00\x01\x02\x00\x00NO\x03";

/// Two such gates and outputs.
const TWO_OUTPUTS: &[u8] =
    b"NI\x03\x02\x02NG\x03\x00\x01\x02\x00\x00NG\x03\x00\x01\x02\x00\x00NO\x03NO\x04";

/// The gate over lines 0, 1 and the last of seven or ten, whose patterns fill two words or sixteen.
const SEVEN: &[u8] = b"NI\x07\x01\x01NG\x03\x00\x01\x06\x00\x00NO\x07";
const TEN: &[u8] = b"NI\x0A\x01\x01NG\x03\x00\x01\x09\x00\x00NO\x0A";

/// The OR of two gates that are always 0: 6 over lines 0 to 2, 7 over lines 2 to 5.
const EITHER: &[u8] = b"NI\x06\x03\x01NG\x03\x00\x01\x02\x00\x00\
    NG\x04\x02\x03\x04\x05\x00\x00NG\x02\x06\x07\x0E\x00NO\x08";

/// The AND of ten lines, by three gates.
const AND_TEN: &[u8] = b"NI\x0A\x03\x01NG\x04\x00\x01\x02\x03\x00\x80\
    NG\x04\x04\x05\x06\x07\x00\x80NG\x04\x0A\x0B\x08\x09\x00\x80NO\x0C";

/// A file, a verdict's gates with their tables, and what it answers and names.
type Stated = (&'static [u8], &'static [(u64, u64)], &'static [u64]);

#[rustfmt::skip]
const STATED: [Stated; 14] = [
    (THREE, &[(3, 0x18)], &[14, 4, 0]),
    (THREE, &[(3, 0x28)], &[14, 3, 0]),
    (THREE, &[(3, 0x60)], &[14, 5, 0]),
    (THREE, &[(3, 0x81)], &[14, 0, 0]),
    (THREE_BUT_4, &[(3, 0x38)], &[14, 3, 0]),
    (THREE_BUT_4, &[(3, 0x10)], &[0]),
    // the lowest output at that pattern, not of all
    (TWO_OUTPUTS, &[(3, 0x08), (4, 0x10)], &[14, 4, 1]),
    (TWO_OUTPUTS, &[(3, 0x18), (4, 0x10)], &[14, 4, 0]),
    (SEVEN, &[(7, 0x18)], &[14, 64, 0]),
    // 3 and 65 are of the same weight
    (SEVEN, &[(7, 0x28)], &[14, 3, 0]),
    (TEN, &[(10, 0x18)], &[14, 512, 0]),
    (EITHER, &[(6, 0x80), (7, 0x1008)], &[14, 12, 0]),
    (AND_TEN, &[(12, 0)], &[14, 1023, 0]),
    (AND_TEN, &[(12, 0x8000)], &[0]),
];

fn verdict(pairs: &[(u64, u64)]) -> Call {
    let (gates, tables) = pairs.iter().copied().unzip();
    Call::Verdict { gates, tables }
}

pub fn stated(report: &mut Report) {
    for (file, pairs, due) in STATED {
        let case = Case::new(0, file);
        let session = loaded(report, file);
        let due = (due[0], &due[1..]);
        answered(report, &case, &verdict(pairs), &session, due);
    }
}

pub fn compare(report: &mut Report, seed: u64, cases: usize) {
    report.cases(cases, |report, i| {
        let mut rng = Random::new(seed, report.name(), i);
        let chosen = Chosen::new(&mut rng, i % 10 + 1);
        compare_chosen(report, i, &chosen);
        see(report, &chosen);
    });
    report.require_answers([0, 14]);
    for n in 1..=10 {
        report.require_seen(&format!("{PASSED_OVER} at n {n}"));
        report.require_seen(&format!("{LOWER_OUTPUT} at n {n}"));
    }
    for n in 2..=10 {
        report.require_seen(&format!("{EQUAL} at n {n}"));
    }
    // of one line or two, weights and numbers are in the same order
    for n in 3..=10 {
        report.require_seen(&format!("{NOT_SMALLEST} at n {n}"));
    }
    for n in 7..=10 {
        report.require_seen(&format!("{LATER_WORD} at n {n}"));
    }
    for what in KINDS {
        report.note_seen(what);
    }
}

/// The verdict by the enumeration, and by what was chosen.
fn compare_chosen(report: &mut Report, i: usize, chosen: &Chosen) {
    let case = Case::new(i, &write(&chosen.network));
    let session = fresh(report, &case, chosen);
    let call = verdict(&chosen.pairs);
    let lent = Lent::session(&call, &session);
    let (number, after) = report.compare(ways(&call), &call, &lent, &case);
    let named = (number == 14).then(|| (after.out[0] as usize, after.out[1] as usize));
    let due = chosen.harm();
    let wrong = named != due;
    let text = || format!("{case}{call:?}: chosen {due:?}, got {number} {named:?}");
    report.count(case.size(), wrong.then(text));
}

/// The session of the library's load, which has to hold the network. No verdict looks at its open tables.
fn fresh(report: &mut Report, case: &Case, chosen: &Chosen) -> Vec<u64> {
    let mut lent = Lent::file(&Call::Load, &case.file);
    (RAW.run)(&Call::Load, &mut lent);
    let held = State::read(&lent.session).map(|s| [s.loaded, s.current]);
    let wrong = held != Ok([chosen.network.clone(), chosen.network.clone()]);
    let text = || format!("{case}another network is loaded");
    report.count(case.size(), wrong.then(text));
    lent.session
}

const NOT_SMALLEST: &str = "the named pattern is not the smallest number";
const LATER_WORD: &str = "a smaller number is in an earlier word";
const EQUAL: &str = "a larger number is of the same weight";
const PASSED_OVER: &str = "a lighter pattern is excluded";
const LOWER_OUTPUT: &str = "a lower output changes elsewhere";

const KINDS: [&str; 5] = [NOT_SMALLEST, LATER_WORD, EQUAL, PASSED_OVER, LOWER_OUTPUT];

/// Notes in what the order shows, over all n and at this one.
fn see(report: &mut Report, chosen: &Chosen) {
    let Some((x, i)) = chosen.harm() else {
        return;
    };
    let (harmed, excluded) = chosen.parted();
    let lower = |&y: &usize| chosen.lowest_output(y) < Some(i);
    let kinds = [
        harmed.iter().any(|&y| y < x),
        harmed.iter().any(|&y| y / 64 < x / 64),
        harmed.iter().any(|&y| y > x && weight(y) == weight(x)),
        excluded.iter().any(|&y| weight(y) < weight(x)),
        harmed.iter().any(lower),
    ];
    for (what, _) in KINDS.iter().zip(kinds).filter(|(_, shows)| *shows) {
        report.see(*what);
        report.see(format!("{what} at n {}", chosen.network.n));
    }
}
