//! Counts of what passed and failed, the smallest failed case of each part, and which answers were met.

use crate::call::{Call, Lent, Way};
use crate::reference;
use std::collections::BTreeMap;
use std::sync::atomic::{AtomicUsize, Ordering};
use std::thread;
use std::time::Instant;

#[derive(Default)]
pub struct Report {
    part: &'static str,
    pub passed: u64,
    pub failed: u64,
    smallest: Option<(usize, String)>,
    met: BTreeMap<u64, u64>,
    seen: BTreeMap<String, u64>,
    notes: Vec<String>,
}

impl Report {
    fn of(part: &'static str) -> Report {
        Report {
            part,
            ..Report::default()
        }
    }

    /// Runs one part, and prints its counts, its answers, its notes and its smallest failed case.
    pub fn part(&mut self, name: &'static str, compare: impl FnOnce(&mut Report)) {
        let began = Instant::now();
        let mut part = Report::of(name);
        compare(&mut part);
        let seconds = began.elapsed().as_secs_f64();
        let (passed, failed) = (part.passed, part.failed);
        println!("{name}: {passed} passed, {failed} failed, {seconds:.1} s");
        let met: Vec<String> = part.met.iter().map(|(k, c)| format!("{k}: {c}")).collect();
        if !met.is_empty() {
            println!("    answers {}", met.join(", "));
        }
        part.notes.iter().for_each(|note| println!("    {note}"));
        if let Some((_, text)) = &part.smallest {
            println!("smallest failed case of {name}:\n{text}");
        }
        self.passed += part.passed;
        self.failed += part.failed;
    }

    /// The cases below `count`, each taken by whichever of as many threads as there are processors is free.
    pub fn cases(&mut self, count: usize, compare: impl Fn(&mut Report, usize) + Sync) {
        let (name, next) = (self.part, AtomicUsize::new(0));
        let share = || {
            let mut report = Report::of(name);
            let take = || Some(next.fetch_add(1, Ordering::Relaxed)).filter(|&i| i < count);
            std::iter::from_fn(take).for_each(|i| compare(&mut report, i));
            report
        };
        let processors = thread::available_parallelism().map_or(1, usize::from);
        thread::scope(|scope| {
            let threads: Vec<_> = (0..processors).map(|_| scope.spawn(share)).collect();
            for thread in threads {
                self.add(thread.join().expect("its cases are compared"));
            }
        });
    }

    fn add(&mut self, other: Report) {
        self.passed += other.passed;
        self.failed += other.failed;
        if let Some((size, text)) = other.smallest.filter(|(size, _)| self.smaller(*size)) {
            self.smallest = Some((size, text));
        }
        for (answer, count) in other.met {
            *self.met.entry(answer).or_default() += count;
        }
        for (what, count) in other.seen {
            *self.seen.entry(what).or_default() += count;
        }
    }

    pub fn name(&self) -> &'static str {
        self.part
    }

    /// One comparison: passed where nothing differs. `size` orders the failed ones.
    pub fn count(&mut self, size: usize, difference: Option<String>) {
        let Some(text) = difference else {
            self.passed += 1;
            return;
        };
        self.failed += 1;
        if self.smaller(size) {
            self.smallest = Some((size, text));
        }
    }

    /// No failed case so far is as small.
    pub fn smaller(&self, size: usize) -> bool {
        self.smallest.as_ref().is_none_or(|(s, _)| size < *s)
    }

    pub fn meet(&mut self, answer: u64) {
        *self.met.entry(answer).or_default() += 1;
    }

    /// Notes that a case was of this kind.
    pub fn see(&mut self, what: impl Into<String>) {
        *self.seen.entry(what.into()).or_default() += 1;
    }

    /// Has it printed how many cases were of this kind.
    pub fn note_seen(&mut self, what: &str) {
        let count = self.seen.get(what).unwrap_or(&0);
        self.notes.push(format!("{what}: {count}"));
    }

    /// Notes how many gates a verdict was on, and its answer.
    pub fn see_verdict(&mut self, call: &Call, answer: u64, m: usize) {
        if let Call::Verdict { gates, .. } = call {
            let size = match gates.len() {
                0 => "no gate",
                1 => "one gate",
                count if count < m => "some gates",
                count if count == m => "all gates",
                _ => "more pairs than gates",
            };
            self.see(format!("{size}: {answer}"));
        }
    }

    /// Some case has to have been of this kind, so that it cannot pass unseen.
    pub fn require_seen(&mut self, what: &str) {
        self.require(what, self.seen.contains_key(what));
    }

    /// What has to have been met in this part.
    pub fn require(&mut self, what: &str, met: bool) {
        self.count(0, (!met).then(|| format!("{what} was never met")));
    }

    pub fn require_answers(&mut self, answers: impl IntoIterator<Item = u64>) {
        for answer in answers {
            let met = self.met.contains_key(&answer);
            self.require(&format!("answer {answer}"), met);
        }
    }

    /// Compares each line that a program prints with the one that is due.
    pub fn lines(&mut self, program: &str, got: &str, want: &str) {
        let (mut lines, mut due) = (got.lines(), want.lines());
        loop {
            let (line, want) = (lines.next(), due.next());
            if line.is_none() && want.is_none() {
                break;
            }
            let wrong = line != want;
            let text = || format!("{program}: want {want:?}, got {line:?}");
            self.count(0, wrong.then(text));
        }
    }

    /// Compares a call's whole outcome by each way: the answer, and each word and byte lent. Gives the outcome by 01.
    pub fn compare(&mut self, ways: &[Way], call: &Call, lent: &Lent, case: &Case) -> (u64, Lent) {
        let (number, after) = outcome(call, lent);
        self.meet(number);
        for way in ways {
            let difference = differs(way, call, lent, number, &after);
            self.count(case.size(), difference.map(|d| format!("{case}{d}")));
        }
        (number, after)
    }
}

/// What 01 says of a call: the answer, and the buffers afterwards.
pub fn outcome(call: &Call, lent: &Lent) -> (u64, Lent) {
    let mut after = lent.clone();
    (reference::call(call, &mut after), after)
}

/// How the outcome of a call differs from the one that is due.
pub fn differs(way: &Way, call: &Call, lent: &Lent, number: u64, after: &Lent) -> Option<String> {
    let mut got = lent.clone();
    let answer = (way.run)(call, &mut got);
    if number == answer && *after == got {
        return None;
    }
    let mut text = format!("{call:?} by {}: want {number}, got {answer}\n", way.name);
    text += &first_difference("session", &after.session, &got.session);
    text += &first_difference("file", &after.file, &got.file);
    text += &first_difference("bytes", &after.bytes, &got.bytes);
    text += &first_difference("out", &after.out, &got.out);
    Some(text)
}

/// Where two buffers differ first, or nothing.
fn first_difference<T: PartialEq + std::fmt::LowerHex>(
    name: &str,
    want: &[T],
    got: &[T],
) -> String {
    if want.len() != got.len() {
        return format!("{name}: written past its end\n");
    }
    let place = (0..want.len()).find(|&i| want[i] != got[i]);
    place.map_or(String::new(), |i| {
        format!("{name}[{i}]: want {:x}, got {:x}\n", want[i], got[i])
    })
}

/// What led to a call: the seed's case, the file or the text, and what was done before.
#[derive(Clone, Default)]
pub struct Case {
    pub number: usize,
    pub file: Vec<u8>,
    pub before: Vec<String>,
    is_text: bool,
}

impl Case {
    pub fn new(number: usize, file: &[u8]) -> Case {
        Case {
            number,
            file: file.to_vec(),
            ..Case::default()
        }
    }

    pub fn text(number: usize, text: &[u8]) -> Case {
        Case {
            is_text: true,
            ..Case::new(number, text)
        }
    }

    pub fn after(&self, what: impl Into<String>) -> Case {
        let mut case = self.clone();
        case.before.push(what.into());
        case
    }

    pub fn size(&self) -> usize {
        self.file.len() + self.before.len()
    }
}

impl std::fmt::Display for Case {
    fn fmt(&self, f: &mut std::fmt::Formatter<'_>) -> std::fmt::Result {
        if self.is_text {
            writeln!(f, "case {}, text {}", self.number, self.file.escape_ascii())?;
        } else {
            let bytes: Vec<String> = self.file.iter().map(|b| format!("{b:02X}")).collect();
            writeln!(f, "case {}, file {}", self.number, bytes.join(" "))?;
        }
        self.before
            .iter()
            .try_for_each(|what| writeln!(f, "{what}"))
    }
}
