//! Both ears in one transaction: a child's left and right ear are two entries that change together or not at all.
//!
//! Two tablets test the same child at the same time. Whoever comes second is told so and starts again, so that both ears are always of one
//! test. Run it by `cargo run --example ears`; ears.txt has what it prints.

use gemandrolo::{Failure, Operation, Outcome, Sizes, Step, Store};

/// The keys of a child's two ears.
fn ears(child: u64) -> (u64, u64) {
    (2 * child, 2 * child + 1)
}

/// Stores what the tablet measured, in dB, and hands back what both ears were before.
fn record<B: AsMut<[u8]>>(
    store: &mut Store<B>,
    tablet: u64,
    child: u64,
    (left_db, right_db): (u64, u64),
) -> Result<(Option<u64>, Option<u64>), Failure> {
    let (left, right) = ears(child);
    store.transaction(tablet, 10, |t| {
        let before = (t.lookup(left)?, t.lookup(right)?);
        t.insert(left, left_db)?;
        t.insert(right, right_db)?;
        Ok(before)
    })
}

/// Both ears as one reader sees them.
fn both<B: AsMut<[u8]>>(
    store: &mut Store<B>,
    tablet: u64,
    child: u64,
) -> Result<(Option<u64>, Option<u64>), Failure> {
    let (left, right) = ears(child);
    store.transaction(tablet, 10, |t| Ok((t.lookup(left)?, t.lookup(right)?)))
}

/// Steps of one tablet until its operation is answered, or its transaction ends.
fn give<B: AsMut<[u8]>>(store: &mut Store<B>, client: u64, operation: Operation) -> Outcome {
    store.step(Step::Give { client, operation });
    loop {
        match store.step(Step::Work { client }) {
            Outcome::Fetched(_) => {}
            outcome => return outcome,
        }
    }
}

/// A store with 40 children, both ears at 20 dB.
fn stored() -> Result<Store<Vec<u8>>, Failure> {
    let mut store = Store::new(Sizes {
        servers: 2,
        slots: 64,
        clients: 2,
    })?;
    for child in 0..40 {
        record(&mut store, 0, child, (20, 20))?;
    }
    Ok(store)
}

pub fn run(say: &mut dyn FnMut(String)) -> Result<(), Failure> {
    let mut store = stored()?;
    say("40 children stored, both ears at 20 dB".into());

    // Tablet 0 has written the left ear in its transaction, and is not done: nobody sees it.
    let child = 17;
    let (left, right) = ears(child);
    let insert = |key, value| Operation::Insert { key, value };
    store.step(Step::Begin { client: 0 });
    give(&mut store, 0, insert(left, 45));
    let seen = both(&mut store, 1, child)?;
    say(format!(
        "tablet 0 has measured the left ear only; tablet 1 sees {seen:?}"
    ));

    // Tablet 1 tests the same child and is done first.
    record(&mut store, 1, child, (30, 35))?;
    let seen = both(&mut store, 1, child)?;
    say(format!("tablet 1 has stored both ears: {seen:?}"));

    // Tablet 0 goes on from what it read before, and is told that it has changed.
    let told = give(&mut store, 0, insert(right, 50));
    let seen = both(&mut store, 1, child)?;
    say(format!(
        "tablet 0 goes on with the right ear: {told:?}; still {seen:?}"
    ));

    // It starts again, and is now the second of the two.
    let before = record(&mut store, 0, child, (45, 50))?;
    let seen = both(&mut store, 1, child)?;
    say(format!("tablet 0 again: before {before:?}, now {seen:?}"));

    // The nurse at tablet 1 wants children 16 to 18 in order, both ears of each.
    let class = store.transaction(1, 10, |t| t.list(ears(16).0, 6))?;
    say(format!("class list from child 16 on: {class:?}"));
    Ok(())
}

fn main() -> Result<(), Failure> {
    run(&mut |line| println!("{line}"))
}
