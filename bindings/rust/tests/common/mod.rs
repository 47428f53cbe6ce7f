//! What the tests share: random numbers, the map that 01 asks for, schedules of steps that mostly fit, and single steps on damaged memory.
#![allow(dead_code)]

pub mod layout;
pub mod ledger;
pub mod player;
pub mod stage;

use gemandrolo::inspect::View;
use gemandrolo::{Operation, Outcome, Store, MAX_PAIRS, PAIR_BYTES};

/// The bytes of the longest list.
pub const LONGEST: usize = MAX_PAIRS * PAIR_BYTES;

/// Random numbers that are the same in every run (SplitMix64).
pub struct Random(pub u64);

impl Random {
    pub fn next(&mut self) -> u64 {
        self.0 = self.0.wrapping_add(0x9e37_79b9_7f4a_7c15);
        let z = (self.0 ^ (self.0 >> 30)).wrapping_mul(0xbf58_476d_1ce4_e5b9);
        let z = (z ^ (z >> 27)).wrapping_mul(0x94d0_49bb_1331_11eb);
        z ^ (z >> 31)
    }

    pub fn below(&mut self, n: u64) -> u64 {
        self.next() % n
    }

    pub fn index(&mut self, n: usize) -> usize {
        self.below(n as u64) as usize
    }

    pub fn percent(&mut self, p: u64) -> bool {
        self.below(100) < p
    }

    pub fn pick<T: Copy>(&mut self, of: &[T]) -> T {
        of[self.index(of.len())]
    }
}

/// How many inputs to try: `usual`, or as many times that as GEMANDROLO_TIMES says.
pub fn inputs(usual: usize) -> usize {
    let times = std::env::var("GEMANDROLO_TIMES")
        .ok()
        .and_then(|t| t.parse::<f64>().ok());
    (usual as f64 * times.unwrap_or(1.0)).ceil() as usize
}

/// A step that is lent an output: what changes there is the pairs of a list that it answers, and nothing else.
pub fn stepped<B: AsMut<[u8]>>(store: &mut Store<B>, output: &mut [u8], step: [u64; 6]) -> Outcome {
    let before = output.to_vec();
    let listing = lists(store.memory(), step[1]);
    let outcome = store.step_words_into(step, output);
    let written = match outcome {
        Outcome::Answered(answer) if listing => PAIR_BYTES * answer.a as usize,
        _ => 0,
    };
    assert!(
        before[written..] == output[written..],
        "{step:?} changed more of its output than {written} bytes"
    );
    outcome
}

/// Whether a list of the client waits.
fn lists(memory: &[u8], client: u64) -> bool {
    let waiting = View::of(memory)
        .ok()
        .and_then(|view| view.client(client as usize))
        .map(|client| client.waiting());
    matches!(waiting, Some(Ok(Some(Operation::List { .. }))))
}

/// A step on memory that may be damaged: what is refused changes nothing. Outcomes that 01 doesn't have fail in `Outcome`'s making.
pub fn tried(memory: &mut [u8], output: &mut [u8], step: [u64; 6]) -> Option<Outcome> {
    let before = memory.to_vec();
    let outcome = match Store::resume(&mut *memory) {
        Ok(mut store) => Some(stepped(&mut store, output, step)),
        Err(_) => None,
    };
    if matches!(outcome, None | Some(Outcome::Refused(_))) {
        assert!(before == memory, "a refused step changed a byte: {step:?}");
    }
    outcome
}
