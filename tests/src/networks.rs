//! Random networks over all bounds: every table, pattern-set word, count, written byte and listing.

use crate::call::{Call, Lent};
use crate::engine::{BINDING, PROGRAM, RAW};
use crate::old_files::same_bytes;
use crate::random::{self, Random};
use crate::reference::{self, Network, State};
use crate::report::{Case, Report};

pub fn compare(report: &mut Report, seed: u64, cases: usize) {
    report.cases(cases, |report, i| {
        let file = random::network(&mut Random::new(seed, report.name(), i), i);
        let loaded = reference::load(&file).expect("a random network loads");
        see_counts(report, &loaded);
        see_excluded(report, &loaded);
        compare_file(report, &Case::new(i, &file));
    });
    require_counts(report);
    require_excluded(report);
    report.require_seen("a network written and listed as before");
}

fn compare_file(report: &mut Report, case: &Case) {
    let file = |call| Lent::file(call, &case.file);
    let (load, list) = (Call::Load, Call::Listing);
    let (_, fresh) = report.compare(&[RAW, BINDING], &load, &file(&load), case);
    report.compare(&[RAW, BINDING, PROGRAM], &list, &file(&list), case);
    let state = State::read(&fresh.session).expect("fresh from a load");
    same_bytes(report, case, &state.loaded, &fresh.session);
    let gates = state.loaded.n..state.loaded.n + state.loaded.m();
    let each = gates.map(|gate| Call::Tables { gate });
    let all = [
        Call::AllTables,
        Call::PatternSets,
        Call::Hidden,
        Call::Write,
        Call::WriteBlif,
    ];
    for call in each.chain(all) {
        let session = Lent::session(&call, &fresh.session);
        report.compare(&[RAW, BINDING], &call, &session, case);
    }
}

/// Notes the network's counts.
pub fn see_counts(report: &mut Report, s: &Network) {
    let m = s.m();
    report.see(format!("n {}", s.n));
    report.see(format!("m {m}"));
    report.see(format!("p {}", s.outputs.len()));
    s.fanins
        .iter()
        .for_each(|f| report.see(format!("k {}", f.len())));
    if s.n == 10 && m == 40 {
        report.see("n 10 and m 40");
    }
    report.see(match (s.is_wide(), s.fanins.iter().all(|f| f.len() > 4)) {
        (false, _) => "narrow gates only",
        (true, false) => "narrow and wide gates",
        (true, true) => "wide gates only",
    });
}

/// Notes the kind of the excluded set, and whether the CDC of a gate shows it.
fn see_excluded(report: &mut Report, s: &Network) {
    let excluded = s.excluded.iter().filter(|&&one| one).count();
    match (excluded, excluded * 4 / s.patterns()) {
        (0, _) => return report.see("an empty excluded set"),
        (_, 0) => report.see("a sparse excluded set"),
        (_, 3) => report.see("a dense excluded set"),
        (_, 4) => report.see("a full excluded set"),
        _ => {}
    }
    let whole = |word: &[bool]| word.iter().all(|&one| one == word[0]);
    if excluded < s.patterns() && s.excluded.chunks(64).all(whole) {
        report.see("whole words in an excluded set");
    }
    let excluded = vec![false; s.patterns()];
    let all_come = Network {
        excluded,
        ..s.clone()
    };
    if (0..s.m()).any(|g| s.cdc(g) != all_come.cdc(g)) {
        report.see("an entry that excluded patterns alone give");
    }
}

fn require_each(report: &mut Report, name: &str, most: usize) {
    (1..=most).for_each(|c| report.require_seen(&format!("{name} {c}")));
}

/// Gates of every number of fan-ins have to have been met.
pub fn require_arities(report: &mut Report) {
    require_each(report, "k", 6);
}

/// Each number of inputs, outputs and fan-ins, one gate and forty, and each mixture of gates have to have been met.
pub fn require_counts(report: &mut Report) {
    require_each(report, "n", 10);
    require_each(report, "p", 8);
    require_arities(report);
    for what in [
        "m 1",
        "m 40",
        "n 10 and m 40",
        "narrow gates only",
        "narrow and wide gates",
        "wide gates only",
    ] {
        report.require_seen(what);
    }
}

/// Each kind of excluded set too.
fn require_excluded(report: &mut Report) {
    for what in [
        "an empty excluded set",
        "a sparse excluded set",
        "a dense excluded set",
        "a full excluded set",
        "whole words in an excluded set",
        "an entry that excluded patterns alone give",
    ] {
        report.require_seen(what);
    }
}
