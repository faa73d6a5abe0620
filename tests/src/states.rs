//! Session words made by hand: what each call answers, and that a refused one leaves all that is lent as it was.

use crate::alterations::{Alteration, ALTERATIONS};
use crate::call::{Call, Lent};
use crate::engine::{ways, RAW};
use crate::networks::{require_arities, see_counts};
use crate::random::{self, Random};
use crate::reference::{load, State};
use crate::report::{Case, Report};
use crate::users::User;

pub fn compare(report: &mut Report, seed: u64, cases: usize) {
    let kinds = ALTERATIONS.len();
    report.cases(cases, |report, i| {
        let mut rng = Random::new(seed, report.name(), i);
        let file = match rng.within(0, 7) {
            0 => random::network(&mut rng, i / kinds),
            _ => random::small_network(&mut rng),
        };
        compare_altered(report, rng, &ALTERATIONS[i % kinds], Case::new(i, &file));
    });
    ALTERATIONS
        .iter()
        .for_each(|how| report.require_seen(how.what));
    report.require_answers([0].into_iter().chain(9..=16));
    report.require_seen("no gate: 14");
    require_arities(report);
}

/// The calls on the case's session, altered, where it has a place for that.
fn compare_altered(report: &mut Report, mut rng: Random, how: &Alteration, case: Case) {
    let state = State::fresh(load(&case.file).expect("a random network loads"));
    let mut words = state.words();
    if !(how.alter)(&mut rng, &state, &mut words) {
        return;
    }
    report.see(how.what);
    if let Ok(made) = State::read(&words) {
        see_counts(report, &made.loaded);
    }
    let changed = changes(&state.words(), &words);
    let case = case.after(format!("{}: {changed}", how.what));
    for call in &calls(&mut rng, &state) {
        let room = Lent::session(call, &words);
        let bytes = rng.within(0, room.bytes.len());
        let scarce = Lent::new(&words, &[], bytes, rng.within(0, 6));
        let answers = [
            report.compare(ways(call), call, &room, &case).0,
            report.compare(&[RAW], call, &scarce, &case).0,
        ];
        report.see_verdict(call, answers[0], state.loaded.m());
        let due = |answer: &u64| how.refused.is_none_or(|r| r == (*answer == 10));
        let wrong = !answers.iter().all(due);
        let text = || format!("{case}{call:?}: {answers:?}");
        report.count(case.size(), wrong.then(text));
    }
}

/// Which words were altered, and to what.
fn changes(before: &[u64], after: &[u64]) -> String {
    let places = (0..before.len()).filter(|&at| before[at] != after[at]);
    let texts: Vec<String> = places
        .map(|at| format!("[{at}] = {:#x}", after[at]))
        .collect();
    texts.join(", ")
}

/// Every call on a session, with numbers that it may refuse too.
pub fn calls(rng: &mut Random, state: &State) -> Vec<Call> {
    let mut user = User::new(rng, state);
    vec![
        Call::Tables { gate: user.gate() },
        Call::AllTables,
        Call::PatternSets,
        Call::Hidden,
        user.verdict(),
        user.exchange(),
        Call::Write,
        Call::WriteBlif,
    ]
}
