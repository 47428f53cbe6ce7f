//! Transactions and steps a second, beside a BTreeMap, SQLite and LMDB in the same run; and how a step's cost grows.
//!
//! `bench FOLDER` writes FOLDER/BENCHMARKS.md and FOLDER/step-cost.svg. To be counted, `bench count STORE WORKLOAD N` runs N transactions,
//! `bench kinds WORKLOAD N` does so with a function for each kind of step, and `bench places WAY NODES N` asks N times for the place of a key.

mod btreemap;
mod growth;
mod kinds;
mod lmdb;
mod measure;
mod ours;
mod places;
mod plot;
mod report;
mod servers;
mod sqlite;
mod workload;

use gemandrolo::Sizes;
use measure::{rival, run_some};
use places::{Questions, WAYS};
use workload::Workload;

fn main() {
    let words: Vec<String> = std::env::args().skip(1).collect();
    let words: Vec<&str> = words.iter().map(String::as_str).collect();
    match words[..] {
        [folder] => report::write(folder),
        ["count", store, workload, n] => count(store, named(workload), number(n)),
        ["kinds", workload, n] => kinds::run(named(workload), measure::SMALL_KEYS, number(n)),
        ["places", way, nodes, n] => places(way, nodes, number(n)),
        _ => eprintln!(
            "usage: bench FOLDER, bench count STORE WORKLOAD N, bench kinds WORKLOAD N, bench places WAY NODES N"
        ),
    }
}

fn named(workload: &str) -> Workload {
    Workload::of(workload).expect("lookup, next, list of 32, insert, delete, ears or mixed")
}

fn number(text: &str) -> u64 {
    text.parse().expect("a number")
}

/// Asks n times for a place, one of the ways, in nodes that are full or of any count.
fn places(way: &str, nodes: &str, n: u64) {
    let way = WAYS.iter().find(|w| w.name == way).expect("a way");
    let questions = Questions::new(nodes == "full");
    println!("{}", questions.answers(way, n));
}

/// Fills a small store and runs n transactions with warm copies.
fn count(store: &str, workload: Workload, n: u64) {
    let sizes = Sizes {
        servers: 2,
        slots: 64,
        clients: 1,
    };
    let mut store = rival(store, sizes);
    workload::fill(store.as_mut(), measure::SMALL_KEYS);
    run_some(store.as_mut(), workload, measure::SMALL_KEYS, 0, 200);
    run_some(store.as_mut(), workload, measure::SMALL_KEYS, 200, n);
}
