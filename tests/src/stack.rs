//! The stack that the header grants a call: every call on the largest networks, in a thread that has no more. One that takes
//! more ends this program.

use crate::blif;
use crate::call::{Call, Lent};
use crate::engine::RAW;
use crate::networks::{require_arities, see_counts};
use crate::random::{self, Random};
use crate::reference::{load, State};
use crate::report::{differs, outcome, Case, Report};
use crate::states::calls;
use std::thread::{self, Builder};

const STACK: usize = 64_000;

pub fn compare(report: &mut Report, seed: u64) {
    for i in 0..10 {
        let mut rng = Random::new(seed, report.name(), i);
        let file = random::network_of(&mut rng, 10, 40);
        let case = Case::new(i, &file);
        let state = State::fresh(load(&file).expect("a random network loads"));
        see_counts(report, &state.loaded);
        for call in calls(&mut rng, &state).iter().chain(&verdicts(&state)) {
            compare_call(report, call, &Lent::session(call, &state.words()), &case);
        }
        for call in [Call::Load, Call::Listing] {
            compare_call(report, &call, &Lent::file(&call, &file), &case);
        }
        let text = Lent::file(&Call::ReadBlif, &blif::text(&mut rng, &file));
        compare_call(report, &Call::ReadBlif, &text, &case);
    }
    report.require_answers([0, 15, 16]);
    require_arities(report);
}

/// All gates at once, with their first entries altered; a table less than gates; and a gate named again.
fn verdicts(state: &State) -> [Call; 3] {
    let gates: Vec<u64> = (10..50).chain([10]).collect();
    let table = |gate: &u64| state.loaded.tables[*gate as usize - 10] ^ 1;
    let tables: Vec<u64> = gates.iter().map(table).collect();
    [(40, 40), (40, 39), (41, 41)].map(|(g, t)| Call::Verdict {
        gates: gates[..g].to_vec(),
        tables: tables[..t].to_vec(),
    })
}

fn compare_call(report: &mut Report, call: &Call, lent: &Lent, case: &Case) {
    let (number, after) = outcome(call, lent);
    let difference = thread::scope(|scope| {
        let thread = Builder::new().name(format!("{STACK} bytes for {call:?}"));
        let run = || differs(&RAW, call, lent, number, &after);
        let started = thread.stack_size(STACK).spawn_scoped(scope, run);
        started.expect("a thread starts").join().expect("it ends")
    });
    report.meet(number);
    report.count(case.size(), difference.map(|d| format!("{case}{d}")));
}
