//! The store itself, its steps counted.

use crate::workload::{sum_of, Operation, Rival, LISTED};
use gemandrolo::{Failure, Fetched, Outcome, Sizes, Step, Store, Transaction};
use std::cell::Cell;
use std::rc::Rc;

/// Memory that counts how often it is lent: once a step.
struct Counted {
    memory: Vec<u8>,
    steps: Rc<Cell<u64>>,
}

impl AsMut<[u8]> for Counted {
    fn as_mut(&mut self) -> &mut [u8] {
        self.steps.set(self.steps.get() + 1);
        &mut self.memory
    }
}

pub struct Ours {
    store: Store<Counted>,
    sizes: Sizes,
    turn: usize,
    steps: Rc<Cell<u64>>,
}

impl Ours {
    pub fn new(sizes: Sizes) -> Ours {
        let memory = vec![0; sizes.length().expect("allowed sizes")];
        let steps = Rc::new(Cell::new(0));
        let store = Store::create(
            Counted {
                memory,
                steps: steps.clone(),
            },
            sizes,
        )
        .expect("allowed sizes");
        Ours {
            store,
            sizes,
            turn: 0,
            steps,
        }
    }

    /// A step that is no client's: a change of the servers.
    pub fn change(&mut self, step: Step) {
        assert_eq!(self.store.step(step), Outcome::Done, "{step:?}");
    }

    /// Retires a server: how many nodes were moved off.
    pub fn retire(&mut self, server: u64) -> usize {
        let mut most = 0;
        self.store
            .retire(0, server, |_, taken| most = most.max(taken))
            .expect("there is room");
        most
    }

    /// The level of the root: a client without copies fetches one node more than that on its way to a leaf.
    pub fn height(&mut self) -> u64 {
        let client = 0;
        self.store.step(Step::Lost { client });
        self.store.step(Step::Begin { client });
        self.store.step(Step::Give {
            client,
            operation: gemandrolo::Operation::Lookup { key: 0 },
        });
        let mut nodes = 0;
        while let Outcome::Fetched(what) = self.store.step(Step::Work { client }) {
            nodes += matches!(what, Fetched::Node(_)) as u64;
        }
        self.store.step(Step::GiveUp { client });
        nodes - 1
    }
}

impl Rival for Ours {
    fn steps(&mut self) -> u64 {
        self.steps.replace(0)
    }

    /// The clients take turns, a transaction each.
    fn transaction(&mut self, operations: &[Operation]) -> u64 {
        let client = self.turn as u64;
        self.turn = (self.turn + 1) % self.sizes.clients;
        self.store
            .transaction(client, 100, |t| perform(t, operations))
            .expect("it passes")
    }
}

fn perform(t: &mut Transaction<Counted>, operations: &[Operation]) -> Result<u64, Failure> {
    let mut sum = 0u64;
    for operation in operations {
        let answer = match *operation {
            Operation::Lookup(key) => t.lookup(key)?.unwrap_or(0),
            Operation::Next(key) => t.next(key)?.unwrap_or(0),
            Operation::List(key) => sum_of(t.list(key, LISTED)?.into_iter()),
            Operation::Insert(key, value) => t.insert(key, value).map(|_| 0)?,
            Operation::Delete(key) => t.delete(key).map(|_| 0)?,
        };
        sum = sum.wrapping_add(answer);
    }
    Ok(sum)
}
