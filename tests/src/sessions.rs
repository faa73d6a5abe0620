//! Lists of exchanges, refused ones included, with verdicts and other calls between them: every answer, every word of the
//! session after it, and what 01 says of the whole list, as the library runs it.

use crate::call::{Call, Lent};
use crate::engine::{ways, BINDING, RAW};
use crate::random::{self, Random};
use crate::reference::{self, old_format, State, WORDS};
use crate::report::{differs, outcome, Case, Report};
use crate::users::{calls, User};

pub fn compare(report: &mut Report, seed: u64, cases: usize) {
    report.cases(cases, |report, i| {
        let mut rng = Random::new(seed, report.name(), i);
        let case = Case::new(i, &random::network(&mut rng, i));
        compare_list(report, rng, case);
    });
    report.require_answers([0].into_iter().chain(11..=16));
    for size in ["one gate", "some gates", "all gates"] {
        report.require_seen(&format!("{size}: 0"));
        report.require_seen(&format!("{size}: 14"));
    }
    for k in 1..=6 {
        report.require_seen(&format!("exchange at k {k}: 0"));
        report.require_seen(&format!("exchange at k {k}: 13"));
    }
    for k in 1..=5 {
        report.require_seen(&format!("exchange at k {k}: 12"));
    }
    report.require_seen("no gate: 0");
    report.require_seen("more pairs than gates: 16");
}

/// A random list of calls on the case's network.
fn compare_list(report: &mut Report, mut rng: Random, mut case: Case) {
    let file = Lent::file(&Call::Load, &case.file);
    let (_, loaded) = report.compare(&[RAW, BINDING], &Call::Load, &file, &case);
    let fresh = State::read(&loaded.session).expect("a random network loads");
    let list = calls(&mut rng, &fresh);
    let acceptable = User::new(&mut rng, &fresh).acceptable();
    let start = Start {
        file: &case.file,
        fresh: &fresh,
        acceptable,
    };
    let course = Course::run(&start, &list);
    report.passed += course.passed;
    for (call, &answer) in list.iter().zip(&course.answers) {
        report.meet(answer);
        report.see_verdict(call, answer, fresh.loaded.m());
        see_exchange(report, call, answer, &fresh);
    }
    if let Some(fault) = course.fault {
        let (list, fault) = match report.smaller(case.size()) {
            true => shrunk(&start, list, fault),
            false => (list, fault),
        };
        case.before = list.iter().map(|call| format!("{call:?}")).collect();
        report.count(case.size(), Some(format!("{case}{fault}")));
    }
}

/// Notes the fan-ins of the gate that an exchange is at, and its answer.
fn see_exchange(report: &mut Report, call: &Call, answer: u64, fresh: &State) {
    let place = gate_of(call).map(|gate| fresh.place(gate));
    if let Some(Ok(g)) = place {
        let k = fresh.loaded.fanins[g].len();
        report.see(format!("exchange at k {k}: {answer}"));
    }
}

/// What a list of calls starts from, and pairs that exchanges would accept, with a part of them.
struct Start<'a> {
    file: &'a [u8],
    fresh: &'a State,
    acceptable: [Vec<(u64, u64)>; 2],
}

/// How a list of calls went, up to the first thing that is wrong.
#[derive(Default)]
struct Course {
    passed: u64,
    answers: Vec<u64>,
    fault: Option<String>,
}

impl Course {
    fn run(start: &Start, list: &[Call]) -> Course {
        let mut course = Course::default();
        let step = |words: Vec<u64>, call: &Call| course.step(&words, call);
        list.iter().fold(start.fresh.words(), step);
        if course.fault.is_none() {
            course.whole(start, list);
        }
        course
    }

    /// One call by each way. Gives the session after it by 01.
    fn step(&mut self, words: &[u64], call: &Call) -> Vec<u64> {
        let lent = Lent::session(call, words);
        let (number, after) = outcome(call, &lent);
        for way in ways(call) {
            self.note(differs(way, call, &lent, number, &after));
        }
        self.answers.push(number);
        after.session
    }

    /// What 01 says of the whole list, held against the library's own run of it.
    fn whole(&mut self, start: &Start, list: &[Call]) {
        let run = Run::new(start.file, list);
        self.note(outputs_kept(start.fresh, &run));
        self.note(last_accepted(start.fresh, list, &run));
        self.note(written_again(&run));
        self.note(swapped(start.file, list));
        let [all, part] = &start.acceptable;
        for pairs in [&all[..], part, &[]] {
            self.note(harmless_together(pairs, &run));
        }
    }

    fn note(&mut self, difference: Option<String>) {
        match difference {
            None => self.passed += 1,
            Some(_) if self.fault.is_some() => {}
            found => self.fault = found,
        }
    }
}

/// The library's run of a list: the answers, each with `out`, and the session's words after the list.
struct Run {
    answers: Vec<(u64, Vec<u64>)>,
    words: Vec<u64>,
}

impl Run {
    /// Loads the file; then each call gets the session that the one before left.
    fn new(file: &[u8], list: &[Call]) -> Run {
        let mut loaded = Lent::file(&Call::Load, file);
        (RAW.run)(&Call::Load, &mut loaded);
        let mut words = loaded.session[..WORDS].to_vec();
        let mut answers = Vec::new();
        for call in list {
            let mut lent = Lent::session(call, &words);
            let number = (RAW.run)(call, &mut lent);
            answers.push((number, lent.out));
            words = lent.session;
        }
        Run { answers, words }
    }
}

/// The list without the calls that its fault does not need.
fn shrunk(start: &Start, mut list: Vec<Call>, mut fault: String) -> (Vec<Call>, String) {
    for at in (0..list.len()).rev() {
        let mut shorter = list.clone();
        shorter.remove(at);
        if let Some(other) = Course::run(start, &shorter).fault {
            (list, fault) = (shorter, other);
        }
    }
    (list, fault)
}

/// Every output on every pattern not excluded is that of the loaded network.
fn outputs_kept(fresh: &State, run: &Run) -> Option<String> {
    let Ok(now) = State::read(&run.words) else {
        return Some("the words left hold no network".into());
    };
    let harm = fresh.loaded.harm(&now.current);
    harm.map(|(x, i)| format!("output {i} changed at pattern {x}"))
}

/// Each gate has the table of its last accepted exchange, or the loaded one; all else is as loaded.
fn last_accepted(fresh: &State, list: &[Call], run: &Run) -> Option<String> {
    let mut due = fresh.clone();
    for (call, (number, _)) in list.iter().zip(&run.answers) {
        if let (Call::Exchange { gate, table }, 0) = (call, number) {
            due.current.tables[gate - fresh.loaded.n] = *table;
        }
    }
    (due.words() != run.words).then(|| "not the tables last accepted".into())
}

/// The network, written and loaded again, is the same network; without wide gates its file is the one that was written before them.
fn written_again(run: &Run) -> Option<String> {
    let now = State::read(&run.words).map(|s| s.current);
    let mut lent = Lent::session(&Call::Write, &run.words);
    (RAW.run)(&Call::Write, &mut lent);
    let file = &lent.bytes[..lent.out[0] as usize];
    let mut again = Lent::file(&Call::Load, file);
    (RAW.run)(&Call::Load, &mut again);
    let read = State::read(&again.session).map(|s| s.loaded);
    let same = reference::load(file) == now && read == now;
    let as_before = now.is_ok_and(|s| s.is_wide() || old_format::write(&s) == file);
    match (same, as_before) {
        (false, _) => Some("written and loaded again, another network".into()),
        (true, false) => Some("not written as before wide gates".into()),
        (true, true) => None,
    }
}

/// Pairs that exchanges would accept, each for itself, are harmless on one verdict.
fn harmless_together(pairs: &[(u64, u64)], run: &Run) -> Option<String> {
    let (gates, tables) = pairs.iter().copied().unzip();
    let call = Call::Verdict { gates, tables };
    let number = (RAW.run)(&call, &mut Lent::session(&call, &run.words));
    (number != 0).then(|| format!("{call:?}: {number}"))
}

/// Exchanges that follow each other at different gates may be swapped: each has the same answer, and the session is the same.
fn swapped(file: &[u8], list: &[Call]) -> Option<String> {
    let is_exchange = |call: &Call| gate_of(call).is_some();
    let exchanges: Vec<Call> = list.iter().filter(|c| is_exchange(c)).cloned().collect();
    let mut places: Vec<usize> = (0..exchanges.len()).collect();
    for at in (1..exchanges.len()).step_by(2) {
        if gate_of(&exchanges[at]) != gate_of(&exchanges[at - 1]) {
            places.swap(at - 1, at);
        }
    }
    let other: Vec<Call> = places.iter().map(|&at| exchanges[at].clone()).collect();
    let (one, two) = (Run::new(file, &exchanges), Run::new(file, &other));
    let moved: Vec<_> = places.iter().map(|&at| one.answers[at].clone()).collect();
    let same = moved == two.answers && one.words == two.words;
    (!same).then(|| "swapped exchanges differ".into())
}

fn gate_of(call: &Call) -> Option<usize> {
    match call {
        Call::Exchange { gate, .. } => Some(*gate),
        _ => None,
    }
}
