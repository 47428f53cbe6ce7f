//! The helper that runs one transaction to its end.

use gemandrolo::{Failure, Migrated, Operation, Outcome, Reason, Refusal, Sizes, Step, Store};

fn store() -> Store<Vec<u8>> {
    Store::new(Sizes {
        servers: 2,
        slots: 16,
        clients: 2,
    })
    .expect("allowed sizes")
}

#[test]
fn answers() {
    let mut store = store();
    let told = store.transaction(0, 1, |t| {
        assert!(t.insert(5, 50)?);
        assert!(!t.insert(5, 51)?);
        t.insert(9, 90)?;
        assert_eq!((t.next(5)?, t.next(9)?), (Some(9), None));
        assert_eq!((t.previous(9)?, t.previous(5)?), (Some(5), None));
        assert!(t.delete(9)?);
        assert!(!t.delete(9)?);
        t.lookup(5)
    });
    assert_eq!(told, Ok(Some(51)));
    assert_eq!(
        store.transaction(1, 1, |t| Ok((t.lookup(5)?, t.lookup(9)?))),
        Ok((Some(51), None))
    );
}

#[test]
fn nothing_asked_is_committed() {
    assert_eq!(store().transaction(0, 1, |_| Ok(())), Ok(()));
}

#[test]
fn given_up() {
    let mut store = store();
    let told: Result<(), Failure> = store.transaction(0, 3, |t| {
        t.insert(1, 1)?;
        t.give_up()
    });
    assert_eq!(told, Err(Failure::Aborted(Reason::GivenUp)));
    assert_eq!(store.transaction(0, 1, |t| t.lookup(1)), Ok(None));
}

/// A client whose copies have grown old is run again, without them.
#[test]
fn run_again() {
    let mut store = store();
    let mut fill = |client, keys: std::ops::Range<u64>| {
        for key in keys {
            assert_eq!(
                store.transaction(client, 9, |t| t.insert(key, key)),
                Ok(true)
            );
        }
    };
    fill(0, 0..40);
    fill(1, 40..60);
    let mut runs = 0;
    let told = store.transaction(0, 5, |t| {
        runs += 1;
        t.lookup(55)
    });
    assert_eq!((told, runs), (Ok(Some(55)), 2));
}

/// A store goes on in the memory that it was left in.
#[test]
fn resumed() {
    let mut store = store();
    store.transaction(0, 1, |t| t.insert(1, 7)).expect("stored");
    let mut memory = store.into_memory();
    let mut again = Store::resume(&mut memory[..]).expect("a store");
    assert_eq!(again.transaction(1, 1, |t| t.lookup(1)), Ok(Some(7)));
}

/// Where another client is in the middle of its commit the transaction stays busy, for as many runs as are allowed.
#[test]
fn busy() {
    let mut store = store();
    store.step(Step::Begin { client: 1 });
    store.step(Step::Give {
        client: 1,
        operation: Operation::Insert { key: 1, value: 1 },
    });
    while let Outcome::Fetched(_) = store.step(Step::Work { client: 1 }) {}
    store.step(Step::Give {
        client: 1,
        operation: Operation::Migrate { node: 0, server: 1 },
    });
    while let Outcome::Fetched(_) = store.step(Step::Work { client: 1 }) {}
    assert_eq!(store.step(Step::Commit { client: 1 }), Outcome::Done);
    assert_eq!(
        store.step(Step::Prepare {
            client: 1,
            server: 0
        }),
        Outcome::Prepared(0)
    );
    let mut runs = 0;
    let told = store.transaction(0, 4, |t| {
        runs += 1;
        t.lookup(1)
    });
    assert_eq!((told, runs), (Err(Failure::Aborted(Reason::Busy)), 4));
    assert_eq!(
        store.step(Step::Prepare {
            client: 1,
            server: 1
        }),
        Outcome::Decided
    );
    assert_eq!(
        store.step(Step::Apply {
            client: 1,
            server: 0
        }),
        Outcome::Applied(0)
    );
    assert_eq!(
        store.step(Step::Apply {
            client: 1,
            server: 1
        }),
        Outcome::Committed
    );
    assert_eq!(store.transaction(0, 4, |t| t.lookup(1)), Ok(Some(1)));
}

#[test]
fn migrated() {
    let mut store = store();
    assert_eq!(
        store.transaction(0, 1, |t| t.migrate(0, 1)),
        Ok(Migrated::To(1025))
    );
    assert_eq!(
        store.transaction(0, 1, |t| t.migrate(1025, 1)),
        Ok(Migrated::There)
    );
    assert_eq!(
        store.transaction(0, 1, |t| t.migrate(0, 1)),
        Ok(Migrated::Free)
    );
    assert_eq!(
        store.transaction(0, 1, |t| t.migrate(1025, 8)),
        Err(Failure::Refused(Refusal::UnknownServer))
    );
    for name in [16, 8 * 1024] {
        assert_eq!(
            store.transaction(0, 1, |t| t.migrate(name, 1)),
            Err(Failure::Refused(Refusal::UnknownNode))
        );
    }
}

/// A store that is full says so, and keeps what it has.
#[test]
fn no_slot() {
    let mut store = Store::new(Sizes {
        servers: 1,
        slots: 1,
        clients: 1,
    })
    .expect("allowed sizes");
    for key in 0..14 {
        assert_eq!(store.transaction(0, 1, |t| t.insert(key, key)), Ok(true));
    }
    assert_eq!(
        store.transaction(0, 9, |t| t.insert(14, 14)),
        Err(Failure::Aborted(Reason::NoSlot))
    );
    assert_eq!(
        store.transaction(0, 1, |t| Ok((t.lookup(13)?, t.lookup(14)?))),
        Ok((Some(13), None))
    );
}

#[test]
fn a_client_that_is_not_there() {
    assert_eq!(
        store().transaction(2, 1, |t| t.lookup(1)),
        Err(Failure::Refused(Refusal::UnknownClient))
    );
}
