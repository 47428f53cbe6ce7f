//! One transaction with a function of its own for each kind of step, so that callgrind can tell them apart.

use crate::workload::{Operation, Workload, LISTED};
use gemandrolo::{Outcome, Sizes, Step, Store, PAIR_BYTES};

type Memory = Store<Vec<u8>>;

#[inline(never)]
fn begin(store: &mut Memory) -> Outcome {
    store.step(Step::Begin { client: 0 })
}

#[inline(never)]
fn give(store: &mut Memory, operation: gemandrolo::Operation) -> Outcome {
    store.step(Step::Give {
        client: 0,
        operation,
    })
}

#[inline(never)]
fn work(store: &mut Memory, output: &mut [u8]) -> Outcome {
    store.step_into(Step::Work { client: 0 }, output)
}

#[inline(never)]
fn commit(store: &mut Memory) -> Outcome {
    store.step(Step::Commit { client: 0 })
}

#[inline(never)]
fn prepare(store: &mut Memory, server: u64) -> Outcome {
    store.step(Step::Prepare { client: 0, server })
}

/// Fills a store as the rates' small stores are, and runs n transactions whose nodes all lie on server 0.
pub fn run(workload: Workload, keys: u64, n: u64) {
    let sizes = Sizes {
        servers: 2,
        slots: 64,
        clients: 1,
    };
    let mut store = Store::new(sizes).expect("allowed sizes");
    for key in 0..keys {
        store
            .transaction(0, 9, |t| t.insert(key, key))
            .expect("it fits");
    }
    let mut operations = Vec::new();
    for i in 0..n {
        workload.transaction(i, keys, &mut operations);
        transaction(&mut store, &operations);
    }
}

fn transaction(store: &mut Memory, operations: &[Operation]) {
    let mut output = [0; LISTED * PAIR_BYTES];
    begin(store);
    for operation in operations {
        give(store, named(*operation));
        while let Outcome::Fetched(_) = work(store, &mut output) {}
    }
    commit(store);
    assert_eq!(prepare(store, 0), Outcome::Committed);
}

fn named(operation: Operation) -> gemandrolo::Operation {
    match operation {
        Operation::Lookup(key) => gemandrolo::Operation::Lookup { key },
        Operation::Next(key) => gemandrolo::Operation::Next { key },
        Operation::List(key) => gemandrolo::Operation::List {
            key,
            count: LISTED as u64,
        },
        Operation::Insert(key, value) => gemandrolo::Operation::Insert { key, value },
        Operation::Delete(key) => gemandrolo::Operation::Delete { key },
    }
}
