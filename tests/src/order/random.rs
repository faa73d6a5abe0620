//! Random orders on random boards, and chains of them.

use super::{command, compare, due, shown, Files, Folder, Outcome, Word};
use crate::damage;
use crate::random::{network, small_network, Random};
use crate::reference::{load, State};
use crate::report::{Case, Report};
use crate::users::User;

/// A number as one may type it: now and then with zeros in front, its digits in either case.
fn typed(rng: &mut Random, number: String, most: usize) -> String {
    let zeros = if rng.chance(3) {
        rng.within(0, most.saturating_sub(number.len()))
    } else {
        0
    };
    let number = if rng.chance(2) {
        number.to_uppercase()
    } else {
        number
    };
    "0".repeat(zeros) + &number
}

/// The words of an order on these pairs, parted in any way; now and then a gate has a name that is no gate's.
fn order_of(rng: &mut Random, pairs: &[(u64, u64)]) -> Vec<Word> {
    let mut words: Vec<Word> = Vec::new();
    for (gate, table) in pairs {
        let mut name = typed(rng, gate.to_string(), 4);
        if rng.chance(60) {
            name = rng.pick(&["abc", "00012", "=", "1=2", "-1"]).to_string();
        }
        let pair = format!("{name}={}", typed(rng, format!("{table:x}"), 16));
        let gap = *rng.pick(&[" ", "\t", "\r\n", "  "]);
        match words.last_mut().filter(|_| rng.chance(4)) {
            Some(last) => last.extend([gap, &pair].concat().bytes()),
            None => words.push(pair.into()),
        }
    }
    words
}

/// An order that stays inside open tables, inside full tables, or in neither.
fn order_on(rng: &mut Random, file: &[u8], kind: usize) -> Vec<Word> {
    let fresh = State::fresh(load(file).expect("a board that loads"));
    let pairs = User::new(rng, &fresh).order([1, 7, 0][kind % 3]);
    order_of(rng, &pairs)
}

/// The kind of an answer: yes with its kind, no, or refused with its number.
fn see(report: &mut Report, outcome: &Outcome) {
    let text = String::from_utf8_lossy(&outcome.out);
    let words: Vec<&str> = text.split([' ', ':', ',']).collect();
    match words[..] {
        ["yes", "", kind, ..] => report.see(format!("yes: {kind}")),
        ["refused", number, ..] => report.see(format!("refused {number}")),
        [first, ..] => report.see(first),
        [] => {}
    }
}

/// Random networks and orders, damaged files among them; half of the runs name a target.
pub fn orders(report: &mut Report, seed: u64, cases: usize) {
    report.cases(cases, |report, i| {
        let mut rng = Random::new(seed, report.name(), i);
        let mut file = network(&mut rng, i);
        let order = order_on(&mut rng, &file, i);
        if rng.chance(6) {
            let number = rng.within(1, 8) as u64;
            file = damage::targeted(&mut rng, &file, number).unwrap_or(file);
        }
        let files = Files::from([("board".into(), file.clone())]);
        let folder = Folder::new(&format!("order-{i}"), &files);
        let target = rng.chance(2).then_some("new");
        let want = due(&files, "board", &order, target);
        let words = command("board", &order, target);
        let case = Case::new(i, &file).after(shown(&words));
        compare(report, &case, &folder.run(&words), &want);
        see(report, &want);
    });
    for kind in ["yes: open", "yes: alone", "no"] {
        report.require_seen(kind);
    }
    for number in (1..=8).chain([11, 12, 16]) {
        report.require_seen(&format!("refused {number}"));
    }
}

/// Five orders, each on the board that the last granted one gave: the last board has every output of the first.
pub fn chains(report: &mut Report, seed: u64, cases: usize) {
    report.cases(cases, |report, i| {
        let mut rng = Random::new(seed, report.name(), i);
        let first = small_network(&mut rng);
        let mut files = Files::from([("0".into(), first.clone())]);
        let folder = Folder::new(&format!("chain-{i}"), &files);
        let (mut board, mut case) = ("0".to_string(), Case::new(i, &first));
        for step in 1..=5 {
            let order = order_on(&mut rng, &files[&board], i + step);
            let target = step.to_string();
            let want = due(&files, &board, &order, Some(&target));
            let words = command(&board, &order, Some(&target));
            case = case.after(shown(&words));
            let got = folder.run(&words);
            compare(report, &case, &got, &want);
            files = got.files;
            if files.contains_key(&target) {
                board = target;
            }
        }
        report.count(
            case.size(),
            changed(&first, &files[&board]).map(|d| format!("{case}{d}")),
        );
        report.see(format!("{} granted", files.len() - 1));
    });
    for granted in 1..=5 {
        report.require_seen(&format!("{granted} granted"));
    }
}

/// An output of the last board that is not the first's, on a pattern not excluded.
fn changed(first: &[u8], last: &[u8]) -> Option<String> {
    let Ok(last) = load(last) else {
        return Some("the last board does not load".into());
    };
    let harm = load(first).expect("a random network loads").harm(&last);
    harm.map(|(x, i)| format!("output {i} changed at pattern {x}"))
}
