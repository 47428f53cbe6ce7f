//! A schedule, run on the proved library.

use crate::causes;
use crate::changes;
use crate::difference::{difference, Change};
use crate::ledger::Ledger;
use crate::schedule::{tablet, Schedule};
use crate::state::{state, State};
use crate::words;
use gemandrolo::inspect::View;
use gemandrolo::{Outcome, Sizes, Store, MAX_PAIRS, PAIR_BYTES};

/// What `stepshow` lends to its steps: room for every list.
pub const OUTPUT: usize = MAX_PAIRS * PAIR_BYTES;

#[derive(Clone, Debug)]
pub struct Story {
    pub sizes: Sizes,
    /// The newly opened store.
    pub start: State,
    pub moments: Vec<Moment>,
}

/// A step with what came of it.
#[derive(Clone, Debug)]
pub struct Moment {
    pub step: [u64; 6],
    pub outcome: Outcome,
    pub words: String,
    /// What can be seen of an abort's cause.
    pub causes: Vec<String>,
    pub difference: Vec<Change>,
    /// The changes in words.
    pub changes: Vec<String>,
}

pub fn tell(schedule: &Schedule) -> Story {
    let mut store = Store::new(schedule.sizes).expect("sizes that the schedule's reader accepted");
    let mut output = [0; OUTPUT];
    let mut ledger = Ledger::default();
    let start = seen(&mut store, &ledger);
    let mut before = start.clone();
    let mut moments = Vec::new();
    for step in &schedule.steps {
        let given = tablet(*step).and_then(|client| ledger.last_given(client));
        let outcome = store.step_words_into(*step, &mut output);
        ledger.note(*step, outcome, &output);
        let after = seen(&mut store, &ledger);
        let difference = difference(&before, &after);
        moments.push(Moment {
            step: *step,
            outcome,
            words: words::sentence(schedule.sizes, *step, outcome, given, [&before, &after]),
            causes: causes::words(*step, outcome, given, &before, &difference),
            changes: changes::words(tablet(*step), &difference),
            difference,
        });
        before = after;
    }
    Story {
        sizes: schedule.sizes,
        start,
        moments,
    }
}

fn seen(store: &mut Store<Vec<u8>>, ledger: &Ledger) -> State {
    let view = View::of(store.memory()).expect("a store that was opened");
    state(&view, ledger)
}
