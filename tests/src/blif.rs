//! Request Four: BLIF texts in free layout and damaged ones, and sessions out and back.

mod damage;
mod faults;
mod lines;
mod stated;
mod trips;
mod written;

pub use stated::texts_stated;
pub use trips::trips;
pub use written::{longest_in_blif, row_of, written_stated, BOARD, BOARD_BLIF};

use crate::call::{Call, Lent};
use crate::damage::any;
use crate::engine::{BINDING, RAW};
use crate::networks::{require_counts, see_counts};
use crate::random::{self, Random};
use crate::reference::{self, Network};
use crate::report::{Case, Report};
use damage::{Damage, DAMAGES};
use faults::foreign;
use lines::{laid_out, lines_of, sayable, Line};

/// Reads the text by each way. One that reads has to give what loading its network's file gives, word for word.
fn compare_text(report: &mut Report, case: &Case) -> u64 {
    let text = Lent::file(&Call::ReadBlif, &case.file);
    let (number, after) = report.compare(&[RAW, BINDING], &Call::ReadBlif, &text, case);
    if let Ok(network) = reference::read_blif(&case.file) {
        let mut loaded = Lent::file(&Call::Load, &reference::write(&network));
        (RAW.run)(&Call::Load, &mut loaded);
        let wrong = loaded.session != after.session;
        let text = || format!("{case}the network's file loads as another session");
        report.count(case.size(), wrong.then(text));
    }
    number
}

/// A text that has to be answered with this number, by the request's words and by the enumeration.
fn answered(report: &mut Report, case: &Case, number: u64) {
    let got = (RAW.run)(
        &Call::ReadBlif,
        &mut Lent::file(&Call::ReadBlif, &case.file),
    );
    let wrong = got != number;
    let text = || format!("{case}want {number}, got {got}");
    report.count(case.size(), wrong.then(text));
    compare_text(report, case);
}

/// The network of a file as a text can say it, and the lines that do.
fn said(rng: &mut Random, file: &[u8]) -> (Network, Vec<Line>) {
    let loaded = reference::load(file).expect("a random network loads");
    let network = sayable(rng, &loaded);
    let lines = lines_of(rng, &network);
    (network, lines)
}

/// A text of the file's network.
pub fn text(rng: &mut Random, file: &[u8]) -> Vec<u8> {
    let lines = said(rng, file).1;
    laid_out(rng, &lines)
}

/// The same, damaged for that refusal; nothing where the network has no place for the damage.
pub fn refused_text(rng: &mut Random, file: &[u8], number: u64) -> Option<Vec<u8>> {
    let mut lines = said(rng, file).1;
    let for_it = |how: &&Damage| how.refused == Some(number);
    let damages: Vec<&Damage> = DAMAGES.iter().filter(for_it).collect();
    (rng.pick(&damages).damage)(rng, &mut lines)?;
    Some(laid_out(rng, &lines))
}

/// Random networks under any names, with any covers, in any layout.
pub fn texts(report: &mut Report, seed: u64, cases: usize) {
    report.cases(cases, |report, i| {
        let mut rng = Random::new(seed, report.name(), i);
        let file = random::network(&mut rng, i);
        let (network, lines) = said(&mut rng, &file);
        let case = Case::text(i, &laid_out(&mut rng, &lines));
        see_counts(report, &network);
        let read = reference::read_blif(&case.file);
        let wrong = read.as_ref() != Ok(&network);
        let text = || format!("{case}want {network:?}, got {read:?}");
        report.count(case.size(), wrong.then(text));
        compare_text(report, &case);
    });
    require_counts(report);
}

/// Each damage of the lines, the same with a byte that is not printing before it, and damages of any bytes.
pub fn damaged(report: &mut Report, seed: u64, cases: usize) {
    report.cases(cases, |report, i| {
        let mut rng = Random::new(seed, report.name(), i);
        let file = random::small_network(&mut rng);
        let lines = said(&mut rng, &file).1;
        let text = laid_out(&mut rng, &lines);
        compare_text(report, &Case::text(i, &any(&mut rng, &text)));
        damaged_lines(report, rng, i, lines);
    });
    DAMAGES.iter().for_each(|how| report.require_seen(how.what));
    report.require_answers([0, 3, 17, 18]);
}

fn damaged_lines(report: &mut Report, mut rng: Random, i: usize, lines: Vec<Line>) {
    let how = &DAMAGES[i % DAMAGES.len()];
    let mut bad = lines.clone();
    if (how.damage)(&mut rng, &mut bad).is_none() {
        return;
    }
    report.see(how.what);
    let text = laid_out(&mut rng, &bad);
    let case = Case::text(i, &text).after(how.what);
    if let Some(number) = how.refused {
        answered(report, &case, number);
    } else {
        compare_text(report, &case);
    }
    if !text.is_empty() {
        compare_text(report, &Case::text(i, &any(&mut rng, &text)));
    }
    let first = (0..bad.len()).find(|&at| lines.get(at) != Some(&bad[at]));
    if let Some(at) = first.filter(|_| how.refused.is_some()) {
        foreign(&mut rng, &mut bad[at]);
        let case = Case::text(i, &laid_out(&mut rng, &bad)).after(how.what);
        answered(report, &case, 17);
    }
}

const FIRST: [&str; 5] = [
    ".model t",
    ".inputs a b",
    ".outputs f",
    ".names a b f",
    "11 1",
];

/// The first lines of a text, and behind them random lines of few words.
pub fn random_lines(report: &mut Report, seed: u64, cases: usize) {
    report.cases(cases, |report, i| {
        let mut rng = Random::new(seed, report.name(), i);
        let (kept, count) = (rng.within(2, 5), rng.within(0, 5));
        let first = FIRST[..kept].iter().map(|line| line.to_string());
        let others = (0..count).map(|_| random_line(&mut rng));
        let lines: Vec<String> = first.chain(others).chain([".end".into()]).collect();
        compare_text(report, &Case::text(i, lines.join("\n").as_bytes()));
    });
    report.require_answers([0, 3, 17, 18]);
}

/// A block's first line, a row, or one that is mostly out of order.
fn random_line(rng: &mut Random) -> String {
    let kinds: [(&[&str], &[&str], usize); 3] = [
        (&[".names"], &["a", "b", "c", "f", "g", "h"], 4),
        (
            &["1", "0", "-", "11", "1-", "-0", "110"],
            &["1", "1", "0"],
            1,
        ),
        (&[".outputs", ".end", "a", "\\", "\x7F"], &["f", "a"], 2),
    ];
    let (first, others, most) = *rng.pick(&kinds);
    let (first, count) = (*rng.pick(first), rng.within(1, most));
    let others = (0..count).map(|_| *rng.pick(others));
    [first]
        .into_iter()
        .chain(others)
        .collect::<Vec<&str>>()
        .join(" ")
}

/// Texts cut at every byte.
pub fn cuts(report: &mut Report, seed: u64, cases: usize) {
    report.cases(cases, |report, i| {
        let mut rng = Random::new(seed, report.name(), i);
        let (n, m) = (rng.within(1, 4), rng.within(1, 4));
        let file = random::network_of(&mut rng, n, m);
        let whole = text(&mut rng, &file);
        for end in 0..=whole.len() {
            compare_text(report, &Case::text(i, &whole[..end]));
        }
    });
    report.require_answers([0, 3, 17, 18]);
}
