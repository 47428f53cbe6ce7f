//! What a change of the servers costs, and what it takes to retire one.

use crate::ours::Ours;
use crate::workload::fill;
use gemandrolo::{Sizes, Step};
use std::time::{Duration, Instant};

/// Each change is made this often, and the shortest time counts.
const ROUNDS: usize = 50;
/// A server is retired this often, each time in a store of its own, and the shortest time counts.
const RETIRED: usize = 5;

/// Times at a number of slots on each server.
pub struct Changes {
    pub slots: usize,
    pub add: Duration,
    pub close: Duration,
    pub remove: Duration,
    pub retire: Duration,
    /// How many nodes were moved off the retired server.
    pub moved: usize,
}

/// Two servers that hold `keys_a_slot` keys a slot of theirs, and room for more.
pub fn changes(slots: usize, keys_a_slot: u64) -> Changes {
    let sizes = Sizes {
        servers: 2,
        slots,
        clients: 1,
    };
    let keys = keys_a_slot * 2 * slots as u64;
    let [add, close, remove] = kinds(sizes, keys);
    let retired = (0..RETIRED).map(|_| retire(sizes, keys));
    let (retire, moved) = retired.min().expect("there are runs");
    Changes {
        slots,
        add,
        close,
        remove,
        retire,
        moved,
    }
}

/// A third server comes and goes: the times of an add, a close and a remove.
fn kinds(sizes: Sizes, keys: u64) -> [Duration; 3] {
    let mut store = Ours::new(sizes);
    fill(&mut store, keys);
    let server = 2;
    let steps = [
        Step::AddServer { server },
        Step::CloseServer { server },
        Step::RemoveServer { server },
    ];
    let mut least = [Duration::MAX; 3];
    for _ in 0..ROUNDS {
        for (least, step) in least.iter_mut().zip(steps) {
            *least = timed(|| store.change(step)).0.min(*least);
        }
    }
    least
}

/// A third server is added and the second retired: the time, and how many nodes were moved.
fn retire(sizes: Sizes, keys: u64) -> (Duration, usize) {
    let mut store = Ours::new(sizes);
    fill(&mut store, keys);
    store.change(Step::AddServer { server: 2 });
    timed(|| store.retire(1))
}

fn timed<T>(run: impl FnOnce() -> T) -> (Duration, T) {
    let start = Instant::now();
    let result = run();
    (start.elapsed(), result)
}
