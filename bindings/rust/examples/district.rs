//! Servers come and go: a district adds a fifth server and retires its second, while a tablet goes on testing children.
//!
//! Run it by `cargo run --example district`; district.txt has what it prints.

use gemandrolo::inspect::View;
use gemandrolo::{Failure, Refusal, Sizes, Store};
use std::collections::BTreeMap;
use std::error::Error;

const CHILDREN: u64 = 80;

/// The clients: the tablet at the school, and the office, which moves nodes.
const TABLET: u64 = 0;
const OFFICE: u64 = 1;

type District = Store<Vec<u8>>;

/// The keys of a child's two ears.
fn ears(child: u64) -> (u64, u64) {
    (2 * child, 2 * child + 1)
}

/// Stores what the tablet measured, in dB: both ears or none.
fn record(store: &mut District, child: u64, db: (u64, u64)) -> Result<(), Failure> {
    let (left, right) = ears(child);
    store.transaction(TABLET, 10, |t| {
        t.insert(left, db.0)?;
        t.insert(right, db.1)?;
        Ok(())
    })
}

/// Both ears of a child as one reader sees them.
fn both(store: &mut District, child: u64) -> Result<String, Failure> {
    let (left, right) = ears(child);
    let db = store.transaction(TABLET, 10, |t| Ok(t.lookup(left)?.zip(t.lookup(right)?)))?;
    let words = |(left, right)| format!("left {left} dB, right {right} dB");
    Ok(db.map_or("nothing".into(), words))
}

/// The servers that are there, each with the number of its slots that are taken.
fn servers(store: &mut District) -> Result<String, Refusal> {
    let view = View::of(store.memory())?;
    let there = view.servers().filter(|server| server.is_there());
    let words = there.map(|server| format!("{}: {}", server.number(), server.taken().count()));
    let words: Vec<String> = words.collect();
    Ok(format!("slots taken, by server: {}", words.join(", ")))
}

/// All ears are read back: child by child, and in one list.
fn read_back(store: &mut District, say: &mut dyn FnMut(String)) -> Result<(), Failure> {
    let mut read = BTreeMap::new();
    for child in 0..CHILDREN {
        *read.entry(both(store, child)?).or_insert(0) += 1;
    }
    for (words, children) in read {
        say(format!("{children} children read back: {words}"));
    }
    let listed: Vec<(u64, u64)> = store.transaction(TABLET, 10, |t| t.range(..).collect())?;
    say(format!("ears in one list: {}", listed.len()));
    Ok(())
}

pub fn run(say: &mut dyn FnMut(String)) -> Result<(), Box<dyn Error>> {
    let mut store = Store::new(Sizes {
        servers: 4,
        slots: 8,
        clients: 2,
    })?;
    for child in 0..CHILDREN {
        record(&mut store, child, (20, 20))?;
    }
    say(format!("{CHILDREN} children stored, both ears at 20 dB"));
    say(servers(&mut store)?);

    store.add(4)?;
    say(format!("server 4 is {:?}", store.server_state(4)?));

    // Between two moves others go on: here the tablet tests a child again.
    let mut tested = 0;
    store.retire(OFFICE, 1, |store, taken| {
        say(format!("slots still taken on server 1: {taken}"));
        if record(store, tested, (30, 35)).is_ok() {
            tested += 1;
        }
    })?;
    say(format!("server 1 is {:?}", store.server_state(1)?));
    say(servers(&mut store)?);
    say(format!("tested again meanwhile: {tested} children"));
    read_back(&mut store, say)?;
    Ok(())
}

fn main() -> Result<(), Box<dyn Error>> {
    run(&mut |line| println!("{line}"))
}
