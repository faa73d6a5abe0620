//! Sessions of exchanges written as BLIF, read again and written again.

use super::compare_text;
use crate::call::{Call, Lent, Way, MOST_BLIF};
use crate::engine::{BINDING, RAW};
use crate::networks::{require_arities, see_counts};
use crate::random::{self, Random};
use crate::reference::{outgoing, Network, State, WORDS};
use crate::report::{Case, Report};
use crate::users::User;

pub fn trips(report: &mut Report, seed: u64, cases: usize) {
    report.cases(cases, |report, i| {
        let mut rng = Random::new(seed, report.name(), i);
        let file = network(&mut rng, i);
        let words = exchanged(&mut rng, &file);
        out(report, &Case::new(i, &file), &words);
    });
    report.require_answers([0, 3]);
    require_arities(report);
    for what in [
        "no copy",
        "all outputs copied",
        "40 gates with copies",
        "41 gates with copies",
        "48 gates with copies",
    ] {
        report.require_seen(what);
    }
}

/// Every other network has so many gates that copies may be too many.
fn network(rng: &mut Random, case: usize) -> Vec<u8> {
    if case % 2 == 0 {
        return random::network(rng, case / 2);
    }
    let (n, m) = (rng.within(1, 4), *rng.pick(&[33, 36, 38, 39, 40]));
    let mut file = random::network_of(rng, n, m);
    let kept = file.len() - 3 * file[4] as usize;
    if rng.chance(4) {
        // eight outputs that are one input
        file.truncate(kept);
        file.extend([0x4E, 0x4F, rng.within(0, n - 1) as u8].repeat(8));
        file[4] = 8;
    }
    file
}

/// The session after a load and some exchanges, as the library runs them.
fn exchanged(rng: &mut Random, file: &[u8]) -> Vec<u64> {
    let mut lent = Lent::file(&Call::Load, file);
    (RAW.run)(&Call::Load, &mut lent);
    let fresh = State::read(&lent.session).expect("a random network loads");
    let count = rng.within(0, 20);
    let mut user = User::new(rng, &fresh);
    for _ in 0..count {
        (RAW.run)(&user.exchange(), &mut lent);
    }
    lent.session.truncate(WORDS);
    lent.session
}

fn see(report: &mut Report, now: &Network, sent: &Network) {
    let copies = sent.m() - now.m();
    if copies == 0 {
        report.see("no copy");
    }
    if copies == now.outputs.len() {
        report.see("all outputs copied");
    }
    report.see(format!("{} gates with copies", sent.m()));
}

/// Written, and back where the copies leave at most 40 gates; else 3, whatever room there is.
fn out(report: &mut Report, case: &Case, words: &[u64]) {
    let now = State::read(words).expect("what exchanges leave").current;
    let sent = outgoing(&now);
    see(report, &now, &sent);
    if sent.m() <= 40 {
        see_counts(report, &now);
        let lent = Lent::session(&Call::WriteBlif, words);
        let text = written(report, case, &lent, 0);
        back(report, case, &now, &text);
        return;
    }
    for (bytes, out) in [(MOST_BLIF, 1), (MOST_BLIF, 0), (0, 1), (0, 0)] {
        written(report, case, &Lent::new(words, &[], bytes, out), 3);
    }
}

/// The text that goes out, where the answer is as stated.
fn written(report: &mut Report, case: &Case, lent: &Lent, due: u64) -> Vec<u8> {
    let ways: &[Way] = match lent.bytes.len().min(lent.out.len()) {
        0 => &[RAW],
        _ => &[RAW, BINDING],
    };
    let (number, after) = report.compare(ways, &Call::WriteBlif, lent, case);
    let wrong = number != due;
    let text = || format!("{case}want {due}, got {number}");
    report.count(case.size(), wrong.then(text));
    let length = if number == 0 { after.out[0] } else { 0 };
    after.bytes[..length as usize].to_vec()
}

/// Read again, the network has all that it had; written again, it is the same text.
fn back(report: &mut Report, case: &Case, now: &Network, text: &[u8]) {
    compare_text(report, &Case::text(case.number, text));
    let mut read = Lent::file(&Call::ReadBlif, text);
    (RAW.run)(&Call::ReadBlif, &mut read);
    let lost = match State::read(&read.session) {
        Ok(state) => lost(now, &state.loaded),
        Err(number) => Some(format!("{number}: what was written does not read")),
    };
    report.count(case.size(), lost.map(|d| format!("{case}{d}")));
    let mut again = Lent::session(&Call::WriteBlif, &read.session);
    (RAW.run)(&Call::WriteBlif, &mut again);
    let wrong = !again.bytes.starts_with(text) || again.out[0] != text.len() as u64;
    let text = || format!("{case}written again, another text");
    report.count(case.size(), wrong.then(text));
}

/// What the network that came back lacks.
fn lost(now: &Network, back: &Network) -> Option<String> {
    let m = now.m();
    if back.n != now.n || back.m() < m {
        return Some("signals are lost".into());
    }
    if back.fanins[..m] != now.fanins || back.tables[..m] != now.tables {
        return Some("a gate has another function".into());
    }
    if back.excluded.contains(&true) {
        return Some("a pattern is excluded".into());
    }
    let differs = |&x: &usize| back.outputs_at(x, None) != now.outputs_at(x, None);
    let pattern = (0..now.patterns()).find(differs);
    pattern.map(|x| format!("an output has another value at pattern {x}"))
}
