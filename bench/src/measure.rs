//! Stores are filled alike, run the same transactions, and must give the same answers.

use crate::btreemap::Map;
use crate::lmdb::Lmdb;
use crate::ours::Ours;
use crate::sqlite::Sqlite;
use crate::workload::{fill, Rival, Workload};
use gemandrolo::Sizes;
use std::collections::BTreeMap;
use std::time::{Duration, Instant};

pub const SMALL_KEYS: u64 = 100;
pub const OTHERS: [&str; 3] = ["btreemap", "sqlite", "lmdb"];

/// Each workload is run in each store this often, this long, and the best run counts: other programs only ever slow one down. Before it, it
/// is run once to warm up.
const RUNS: usize = 5;
const TIME: Duration = Duration::from_millis(40);

pub fn rival(name: &str, sizes: Sizes) -> Box<dyn Rival> {
    match name {
        "gemandrolo" => Box::new(Ours::new(sizes)),
        "btreemap" => Box::new(Map(BTreeMap::new())),
        "sqlite" => Box::new(Sqlite::new()),
        "lmdb" => Box::new(Lmdb::new()),
        _ => panic!("no store is called {name}"),
    }
}

/// Transactions `from` to `from + n - 1` of a workload: the sum of their answers.
pub fn run_some(store: &mut dyn Rival, workload: Workload, keys: u64, from: u64, n: u64) -> u64 {
    let mut operations = Vec::new();
    let mut sum = 0u64;
    for i in from..from + n {
        workload.transaction(i, keys, &mut operations);
        sum = sum.wrapping_add(store.transaction(&operations));
    }
    sum
}

/// Transactions and steps a second.
#[derive(Clone, Copy)]
pub struct Rate {
    pub transactions: f64,
    pub steps: f64,
}

/// The best of some runs of a workload.
pub fn rate(store: &mut dyn Rival, workload: Workload, keys: u64) -> Rate {
    let mut done = 0;
    run(store, workload, keys, &mut done);
    let runs = (0..RUNS).map(|_| run(store, workload, keys, &mut done));
    let best = runs.max_by(|a, b| a.transactions.total_cmp(&b.transactions));
    best.expect("there are runs")
}

/// Goes on with a workload for a while: an even number of transactions, so that every deleted key is back.
fn run(store: &mut dyn Rival, workload: Workload, keys: u64, done: &mut u64) -> Rate {
    const BATCH: u64 = 32;
    store.steps();
    let (start, first) = (Instant::now(), *done);
    while start.elapsed() < TIME {
        run_some(store, workload, keys, *done, BATCH);
        *done += BATCH;
    }
    let seconds = start.elapsed().as_secs_f64();
    Rate {
        transactions: (*done - first) as f64 / seconds,
        steps: store.steps() as f64 / seconds,
    }
}

/// A filled store; its answers to some transactions of each workload are those of the map.
pub fn filled(name: &str, sizes: Sizes, keys: u64) -> Box<dyn Rival> {
    let mut store = rival(name, sizes);
    let mut map = rival("btreemap", sizes);
    fill(store.as_mut(), keys);
    fill(map.as_mut(), keys);
    for workload in crate::workload::WORKLOADS {
        let sums = [&mut store, &mut map].map(|s| run_some(s.as_mut(), workload, keys, 0, 100));
        assert_eq!(sums[0], sums[1], "{name}: answers to {}", workload.name());
    }
    store
}
