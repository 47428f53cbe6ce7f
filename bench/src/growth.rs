//! How the cost of a step grows with slots, clients and the tree's height.

use crate::measure::rate;
use crate::ours::Ours;
use crate::workload::{fill, Workload};
use gemandrolo::Sizes;

/// Nanoseconds a step, of lookups and of both ears, at a size.
pub struct Point {
    pub at: f64,
    pub lookup: f64,
    pub ears: f64,
}

fn point(at: f64, sizes: Sizes, keys: u64) -> Point {
    let mut store = Ours::new(sizes);
    fill(&mut store, keys);
    let mut cost = |workload| 1e9 / rate(&mut store, workload, keys).steps;
    Point {
        at,
        lookup: cost(Workload::Lookup),
        ears: cost(Workload::Ears),
    }
}

/// One leaf; the number of slots grows.
pub fn by_slots() -> Vec<Point> {
    let slots = [1, 4, 16, 64, 256, 1024];
    slots
        .into_iter()
        .map(|n| {
            point(
                n as f64,
                Sizes {
                    servers: 2,
                    slots: n,
                    clients: 1,
                },
                10,
            )
        })
        .collect()
}

/// One leaf; the number of clients that take turns grows.
pub fn by_clients() -> Vec<Point> {
    let clients = [1, 2, 4, 8, 16];
    clients
        .into_iter()
        .map(|n| {
            point(
                n as f64,
                Sizes {
                    servers: 2,
                    slots: 64,
                    clients: n,
                },
                10,
            )
        })
        .collect()
}

/// The largest store; the number of keys, and with it the tree's height, grows.
pub fn by_height() -> Vec<Point> {
    let sizes = Sizes {
        servers: 8,
        slots: 1024,
        clients: 1,
    };
    let keys = [10, 70, 600, 5_000, 40_000];
    let points = keys.into_iter().map(|n| {
        let mut store = Ours::new(sizes);
        fill(&mut store, n);
        point(store.height() as f64, sizes, n)
    });
    points.collect()
}
