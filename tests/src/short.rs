//! Buffers that are too short: for every call and every buffer the lengths from none to one short, then as long as needed
//! and longer. Every word and byte of every buffer is compared.

use crate::blif;
use crate::call::{filling, Call, Lent};
use crate::damage;
use crate::engine::RAW;
use crate::networks::{require_arities, see_counts};
use crate::random::{self, Random};
use crate::reference::{self, State, WORDS};
use crate::report::{differs, outcome, Case, Report};
use crate::states::calls;

pub fn compare(report: &mut Report, seed: u64, cases: usize) {
    let words = [tusqirma::raw::session_words(), tusqirma::SESSION_WORDS];
    report.require("427 words", words == [WORDS; 2]);
    report.cases(cases, |report, i| {
        let mut rng = Random::new(seed, report.name(), i);
        let every = i % 4 > 0;
        let file = match every {
            true => random::network_of(&mut rng, i % 4, 3),
            false => random::network(&mut rng, i / 4),
        };
        let case = Case::new(i, &file);
        let mut short = Short {
            report,
            rng,
            case,
            every,
        };
        short.compare();
    });
    report.require_answers((0..=9).chain(11..=18));
    require_arities(report);
}

/// Verdicts and exchanges, whose answers differ most.
fn judges(call: &Call) -> bool {
    matches!(call, Call::Verdict { .. } | Call::Exchange { .. })
}

/// The bytes and the words that a call needs, beside the session.
fn needed(call: &Call, s: &State, file: &[u8]) -> (usize, usize) {
    let (m, patterns) = (s.loaded.m(), s.loaded.patterns());
    match call {
        Call::Load | Call::ReadBlif => (0, 0),
        Call::Tables { .. } => (0, 5),
        Call::AllTables => (0, 5 * m),
        Call::PatternSets => (0, 2 * m * (patterns / 64).max(1)),
        Call::Hidden => (0, m),
        Call::Verdict { .. } => (0, 2),
        Call::Exchange { .. } => (0, 1),
        Call::Write => (reference::write(&s.current).len(), 1),
        Call::WriteBlif => {
            let text = reference::write_blif(&s.current);
            text.map_or((0, 0), |text| (text.len(), 1))
        }
        Call::Listing => (reference::listing(file).len(), 1),
    }
}

/// The buffers of one case: every length, as of a small network, or some.
struct Short<'a> {
    report: &'a mut Report,
    rng: Random,
    case: Case,
    every: bool,
}

impl Short<'_> {
    fn compare(&mut self) {
        let file = self.case.file.clone();
        let state = State::fresh(reference::load(&file).expect("a random network loads"));
        see_counts(self.report, &state.loaded);
        let list = calls(&mut self.rng, &state);
        let more = (0..8).flat_map(|_| calls(&mut self.rng, &state));
        let more: Vec<Call> = more.filter(judges).collect();
        let words = state.words();
        list.iter().for_each(|call| self.session(call, &state));
        for call in list.iter().chain(&more) {
            self.others(call, &Lent::session(call, &words), &state);
        }
        let lent = Lent::file(&Call::Listing, &file);
        self.others(&Call::Listing, &lent, &state);
        self.fresh(&Call::Load, &file);
        let text = blif::text(&mut self.rng, &file);
        self.fresh(&Call::ReadBlif, &text);
        self.damaged(&file);
    }

    /// The lengths to try of a buffer that needs so many elements.
    fn lengths(&mut self, needed: usize) -> Vec<usize> {
        let mut lengths: Vec<usize> = if self.every || needed < 3 {
            (0..needed).collect()
        } else {
            vec![0, 1, self.rng.within(2, needed - 1), needed - 1]
        };
        lengths.extend([needed, needed + 1, needed + 9]);
        lengths
    }

    /// Compares, and holds the answer to be 9 exactly where `short` says so.
    fn expect(&mut self, call: &Call, lent: &Lent, short: bool) {
        let (answer, after) = outcome(call, lent);
        let wrong = short != (answer == 9);
        let difference = differs(&RAW, call, lent, answer, &after)
            .or_else(|| wrong.then(|| format!("{call:?}: {answer}")));
        let lengths = (lent.session.len(), lent.bytes.len(), lent.out.len());
        let text = |d| format!("{}lengths {lengths:?}\n{d}", self.case);
        self.report.meet(answer);
        self.report.count(self.case.size(), difference.map(text));
    }

    /// `out` and `bytes`, one at a time.
    fn others(&mut self, call: &Call, lent: &Lent, s: &State) {
        let (bytes, out) = needed(call, s, &lent.file);
        let with = |bytes, out| Lent::new(&lent.session, &lent.file, bytes, out);
        let lengths = self.lengths(out).into_iter();
        lengths.for_each(|length| self.expect(call, &with(bytes + 9, length), length < out));
        let lengths = self.lengths(bytes).into_iter();
        lengths.for_each(|length| self.expect(call, &with(length, out), length < bytes));
    }

    /// A session cut short is 9, whatever it holds and however short the others are; words behind it stay.
    fn session(&mut self, call: &Call, s: &State) {
        let words = [s.words(), filling(9)].concat();
        let room = call.room();
        for length in self.lengths(WORDS) {
            let short = length < WORDS;
            let (bytes, out) = if short {
                *self.rng.pick(&[(0, 0), (1, 1), room])
            } else {
                room
            };
            let session = match short && self.rng.chance(2) {
                true => filling(length),
                false => words[..length].to_vec(),
            };
            self.expect(call, &Lent::new(&session, &[], bytes, out), short);
        }
    }

    /// A call that makes a session of a file or a text.
    fn fresh(&mut self, call: &Call, bytes: &[u8]) {
        for length in self.lengths(WORDS) {
            let lent = Lent::new(&filling(length), bytes, 0, 0);
            self.expect(call, &lent, length < WORDS);
        }
    }

    /// The file or the text is tested first, then the session's length.
    fn damaged(&mut self, file: &[u8]) {
        for number in 1..=8 {
            let bad = damage::targeted(&mut self.rng, file, number);
            self.refused(&Call::Load, bad);
        }
        for number in [3, 17, 18] {
            let bad = blif::refused_text(&mut self.rng, file, number);
            self.refused(&Call::ReadBlif, bad);
        }
    }

    fn refused(&mut self, call: &Call, bytes: Option<Vec<u8>>) {
        let length = self.rng.within(0, WORDS - 1);
        if let Some(bytes) = bytes {
            self.expect(call, &Lent::new(&filling(length), &bytes, 0, 0), false);
        }
    }
}
