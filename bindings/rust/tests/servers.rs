//! Servers that come and go: they are added, closed and removed; what is refused; and what a transaction meets that knows them otherwise.

mod common;

use common::layout::{self, LAST_VERSION};
use common::stage::Stage;
use common::tried;
use gemandrolo::inspect::{NoTree, ServerState, View};
use gemandrolo::Operation::{Insert, Lookup, Migrate};
use gemandrolo::{
    Failure, Fetched, Migrated, Outcome, Reason, Refusal, Sizes, Step, Store, MAX_SERVERS,
};
use std::collections::BTreeSet;
use std::ops::Range;
use ServerState::{Absent, Closing, Open};

const DIFFERS: Outcome = Outcome::Aborted(Reason::Differs);
const NO_SLOT: Failure = Failure::Aborted(Reason::NoSlot);

const WORK: Step = Step::Work { client: 1 };

/// Of 12 slots each, so that a hundred keys need several servers.
fn store(servers: usize) -> Store<Vec<u8>> {
    let sizes = Sizes {
        servers,
        slots: 12,
        clients: 2,
    };
    Store::new(sizes).expect("allowed sizes")
}

fn insert(store: &mut Store<Vec<u8>>, keys: Range<u64>) {
    for key in keys {
        let told = store.transaction(0, 9, |t| t.insert(key, 1000 + key));
        assert_eq!(told, Ok(true));
    }
}

fn view(memory: &[u8]) -> View<'_> {
    View::of(memory).expect("a store")
}

fn states(memory: &[u8]) -> [ServerState; MAX_SERVERS] {
    let view = view(memory);
    [0, 1, 2, 3, 4, 5, 6, 7].map(|server| view.server(server).expect("a server").state())
}

/// How many slots of a server are taken.
fn taken(store: &mut Store<Vec<u8>>, server: usize) -> usize {
    let view = view(store.memory());
    let vector = view.server(server).expect("a server").vector();
    vector.taken().count()
}

/// Closes a server, moves its nodes to another, and removes it.
fn retire(store: &mut Store<Vec<u8>>, server: u64, to: u64) {
    assert_eq!(store.close(server), Ok(()));
    for slot in 0..store.sizes().slots as u64 {
        let told = store.transaction(0, 9, |t| t.migrate(1024 * server + slot, to));
        assert!(matches!(told, Ok(Migrated::To(_) | Migrated::Free)));
    }
    assert_eq!(store.remove(server), Ok(()));
}

fn changes(server: u64) -> [Step; 3] {
    [
        Step::AddServer { server },
        Step::CloseServer { server },
        Step::RemoveServer { server },
    ]
}

fn refused(number: Refusal) -> Outcome {
    Outcome::Refused(number)
}

// ---- what is done

/// The new metadata stands on all servers that are there, and on the one that was added or removed; the others keep theirs.
#[test]
fn added_closed_and_removed() {
    let mut store = store(2);
    let open = [Open, Open, Absent, Absent, Absent, Absent, Absent, Absent];
    assert_eq!(states(store.memory()), open);
    let done = |told: Result<(), Refusal>, memory: &[u8], due: [ServerState; 8], at: [u32; 8]| {
        assert_eq!(told, Ok(()));
        assert_eq!(states(memory), due);
        let newest = at.into_iter().max();
        for server in view(memory).servers() {
            let metadata = server.metadata();
            assert_eq!(metadata.version, Ok(at[server.number()]));
            assert_eq!(metadata.root.map(|root| root.number()), Ok(0));
            if Some(at[server.number()]) == newest {
                let told = metadata.states.expect("in range");
                let states = [0, 1, 2, 3, 4, 5, 6, 7].map(|s| told.server(s));
                assert_eq!(states, due, "by server {}", server.number());
            }
        }
    };
    let told = store.add(5);
    let due = [Open, Open, Absent, Absent, Absent, Open, Absent, Absent];
    done(told, store.memory(), due, [1, 1, 0, 0, 0, 1, 0, 0]);
    let told = store.close(1);
    let due = [Open, Closing, Absent, Absent, Absent, Open, Absent, Absent];
    done(told, store.memory(), due, [2, 2, 0, 0, 0, 2, 0, 0]);
    let told = store.remove(1);
    let due = [Open, Absent, Absent, Absent, Absent, Open, Absent, Absent];
    done(told, store.memory(), due, [3, 3, 0, 0, 0, 3, 0, 0]);
    let told = store.add(7);
    let due = [Open, Absent, Absent, Absent, Absent, Open, Absent, Open];
    done(told, store.memory(), due, [4, 3, 0, 0, 0, 4, 0, 4]);
    let told = store.add(1);
    let due = [Open, Open, Absent, Absent, Absent, Open, Absent, Open];
    done(told, store.memory(), due, [5, 5, 0, 0, 0, 5, 0, 5]);
}

/// A change stores version and states of the metadata on all servers that were or are there, and on an added one the table: the largest of its own
/// and of those of servers that were there. Nothing else.
#[test]
fn what_is_stored() {
    let mut store = store(3);
    insert(&mut store, 0..110);
    retire(&mut store, 1, 2);
    insert(&mut store, 110..130);
    let sizes = store.sizes();
    for (step, added) in [
        (Step::CloseServer { server: 0 }, None),
        (Step::AddServer { server: 1 }, Some(1)),
        (Step::AddServer { server: 6 }, Some(6)),
        (Step::CloseServer { server: 6 }, None),
        (Step::RemoveServer { server: 6 }, None),
    ] {
        let before = store.memory().to_vec();
        assert_eq!(store.step(step), Outcome::Done);
        let after = store.memory();
        let were = layout::present(&before, sizes);
        let told: BTreeSet<usize> = layout::present(after, sizes)
            .into_iter()
            .chain(were.clone())
            .collect();
        let words = [layout::METADATA_VERSION, layout::STATES];
        let metadata = told
            .iter()
            .flat_map(|server| words.map(|i| layout::server_at(sizes, *server) + i));
        let mut due: BTreeSet<(usize, u64)> = metadata
            .map(|place| (place, layout::word(after, place)))
            .collect();
        let tables = |server: usize| layout::table_at(sizes, server);
        for (i, place) in added
            .into_iter()
            .flat_map(|s| tables(s).into_iter().enumerate())
        {
            let version = |server: &usize| layout::word(&before, tables(*server)[i]);
            let largest = were
                .iter()
                .map(version)
                .chain([layout::word(&before, place)]);
            let largest = largest.max().expect("one at least");
            if largest != layout::word(&before, place) {
                due.insert((place, largest));
            }
        }
        let changed: BTreeSet<(usize, u64)> = (0..layout::words(sizes))
            .map(|place| (place, layout::word(after, place)))
            .filter(|(place, word)| *word != layout::word(&before, *place))
            .collect();
        assert_eq!(changed, due, "{step:?}");
        assert!(added.is_none() || changed.len() > 2 * told.len(), "a table");
    }
}

/// A district adds a fifth server and retires the second: what was stored is there, and nothing on the second. Added again, it takes nodes.
#[test]
fn retired() {
    let mut store = store(4);
    insert(&mut store, 0..250);
    assert!(taken(&mut store, 1) > 5);
    assert_eq!(store.add(4), Ok(()));
    retire(&mut store, 1, 4);
    assert_eq!(taken(&mut store, 1), 0);
    let pairs: Vec<(u64, u64)> = (0..250).map(|key| (key, 1000 + key)).collect();
    let stored = |store: &mut Store<Vec<u8>>| {
        let sizes = store.sizes();
        assert_eq!(view(store.memory()).pairs().as_ref(), Ok(&pairs));
        assert_eq!(layout::pairs(store.memory(), sizes), pairs);
    };
    stored(&mut store);
    for client in [0, 1] {
        for key in (0..250).step_by(30) {
            let told = store.transaction(client, 9, |t| t.lookup(key));
            assert_eq!(told, Ok(Some(1000 + key)));
        }
    }
    assert_eq!(store.add(1), Ok(()));
    let sizes = store.sizes();
    let leaf = layout::leaf_of(store.memory(), sizes, 100);
    let told = store.transaction(1, 9, |t| t.migrate(leaf, 1));
    assert!(matches!(told, Ok(Migrated::To(name)) if name / 1024 == 1));
    stored(&mut store);
}

/// A new node is placed on no server that is closing, by the order of servers else; what a closing one has stays in use.
#[test]
fn no_new_node_on_a_closing_server() {
    let mut store = store(3);
    assert_eq!(store.close(0), Ok(()));
    assert_eq!(store.close(1), Ok(()));
    insert(&mut store, 0..60);
    let slots = [0, 1, 2, 3].map(|server| taken(&mut store, server));
    assert_eq!((slots[0], slots[1], slots[3]), (1, 0, 0), "the root alone");
    assert!(slots[2] > 5);
    assert_eq!(store.add(3), Ok(()));
    insert(&mut store, 60..120);
    assert_eq!((taken(&mut store, 0), taken(&mut store, 1)), (1, 0));
    assert_eq!(taken(&mut store, 2), 12, "the nearer one is filled first");
    assert!(taken(&mut store, 3) > 0);
    assert_eq!(store.transaction(1, 9, |t| t.lookup(7)), Ok(Some(1007)));
}

// ---- what is refused

/// By state: an absent server is added, an open one closed, a closing one removed; and not the last open one.
#[test]
fn states_that_do_not_fit() {
    let mut stage = Stage::new(2, 4, 1);
    stage.step(Step::AddServer { server: 3 });
    stage.step(Step::CloseServer { server: 1 });
    for (server, fits) in [(0, 1), (1, 2), (2, 0)] {
        for (change, step) in changes(server).into_iter().enumerate() {
            let due = match change == fits {
                true => Outcome::Done,
                false => refused(Refusal::UnfitServer),
            };
            assert_eq!(stage.clone().tried(step), due, "{step:?}");
        }
    }
    for server in [8, 9, 1 << 32, u64::MAX] {
        for step in changes(server) {
            assert_eq!(stage.tried(step), refused(Refusal::UnknownServer));
        }
    }
    let last = Step::CloseServer { server: 3 };
    assert_eq!(stage.clone().tried(last), Outcome::Done);
    stage.step(Step::CloseServer { server: 0 });
    assert_eq!(stage.tried(last), refused(Refusal::UnfitServer));
    assert_eq!(
        Stage::new(1, 4, 1).tried(Step::CloseServer { server: 0 }),
        refused(Refusal::UnfitServer)
    );
}

/// The client, as the other fields but the server, is not looked at; kinds run to 10.
#[test]
fn fields_that_are_not_used() {
    let mut stage = Stage::new(2, 4, 1);
    for (kind, server) in [(8, 7), (9, 1), (10, 1)] {
        let step = [kind, 99, u64::MAX, u64::MAX, u64::MAX, server];
        let told = tried(&mut stage.memory, &mut stage.output, step);
        assert_eq!(told, Some(Outcome::Done));
    }
    for kind in [11, 12, u64::MAX] {
        let step = [kind, 99, 0, 0, 0, 8];
        let told = tried(&mut stage.memory, &mut stage.output, step);
        assert_eq!(told, Some(refused(Refusal::UnknownKind)));
    }
}

/// The root by server 0.
fn root(stage: &Stage) -> u64 {
    stage.word(layout::server_at(stage.sizes, 0) + layout::ROOT)
}

/// Client 1 has moved the root to server 1, all servers take part, and server 0 has prepared.
fn with_prepared(stage: &Stage) -> Stage {
    let mut stage = stage.clone();
    let node = root(&stage);
    stage.opened(1, &[Migrate { node, server: 1 }]);
    stage.prepared(1, &[0]);
    stage
}

/// The first that holds, of 13 or 14, 15, 9 and 10: each of them with all that come after it.
#[test]
fn refusals_in_order() {
    let mut open = Stage::new(3, 4, 3);
    open.transaction(0, &[Migrate { node: 0, server: 2 }]);
    let mut taken = open.clone();
    taken.step(Step::CloseServer { server: 2 });
    let mut empty = taken.clone();
    let node = root(&empty);
    empty.transaction(2, &[Migrate { node, server: 0 }]);
    let [add, close, remove] = changes(2);
    let cases = [
        (&open, remove, Some(Refusal::UnfitServer)),
        (&open, add, Some(Refusal::UnfitServer)),
        (&taken, close, Some(Refusal::UnfitServer)),
        (&taken, remove, Some(Refusal::SlotTaken)),
        (&empty, remove, None),
        (&open, close, None),
        (&open, Step::AddServer { server: 7 }, None),
    ];
    let version = layout::version_at(open.sizes, 0, layout::METADATA, true);
    let phase = open.field(2, layout::PHASE);
    let mut count = 0;
    for (stage, step, first) in cases {
        for holds in 0..8 {
            let [ended, unfit, damaged] = [1, 2, 4].map(|bit| holds & bit != 0);
            let mut stage = match unfit {
                true => with_prepared(stage),
                false => stage.clone(),
            };
            if ended {
                stage = stage.with(version, LAST_VERSION);
            }
            if damaged {
                stage = stage.with(phase, 4);
            }
            let due = first
                .or(ended.then_some(Refusal::LastMetadata))
                .or(unfit.then_some(Refusal::Unfit))
                .or(damaged.then_some(Refusal::Damaged));
            let due = due.map_or(Outcome::Done, Outcome::Refused);
            assert_eq!(stage.tried(step), due, "{step:?} where {holds:03b} hold");
            count += 1;
        }
    }
    println!("{count} changes with what refuses them");
}

/// Where a transaction is prepared at one server, or decided and not ended, nothing changes; open ones, and those that only commit, don't hinder.
#[test]
fn while_a_transaction_is_under_way() {
    let mut stage = Stage::new(2, 4, 2);
    let (client, server) = (1, 0);
    let unfit = refused(Refusal::Unfit);
    let check = |stage: &Stage, due: Outcome| {
        for step in [
            Step::AddServer { server: 7 },
            Step::CloseServer { server: 1 },
        ] {
            assert_eq!(stage.clone().tried(step), due, "{step:?}");
        }
        let unended = view(&stage.memory).unended();
        assert!(unended.iter().eq((due == unfit).then_some(1)));
    };
    stage.step(Step::Begin { client });
    check(&stage, Outcome::Done);
    stage.given(client, Migrate { node: 0, server: 1 });
    check(&stage, Outcome::Done);
    stage.before(client, None);
    stage.step(WORK);
    stage.prepared(client, &[]);
    check(&stage, Outcome::Done);
    assert_eq!(
        stage.step(Step::Prepare { client, server }),
        Outcome::Prepared(0)
    );
    check(&stage, unfit);
    let mut lost = stage.clone();
    lost.step(Step::Lost { client });
    check(&lost, Outcome::Done);
    let decided = stage.step(Step::Prepare { client, server: 1 });
    assert_eq!(decided, Outcome::Decided);
    check(&stage, unfit);
    stage.step(Step::Lost { client });
    check(&stage, unfit);
    assert_eq!(
        stage.step(Step::Apply { client, server }),
        Outcome::Applied(0)
    );
    check(&stage, unfit);
    let ended = stage.step(Step::Apply { client, server: 1 });
    assert_eq!(ended, Outcome::Committed);
    check(&stage, Outcome::Done);
}

// ---- what transactions meet

/// A transaction that is open while the servers change aborts by 1, and passes when it is run again.
#[test]
fn open_while_servers_change() {
    let mut store = store(2);
    insert(&mut store, 0..30);
    for (change, step) in [
        Step::AddServer { server: 2 },
        Step::CloseServer { server: 1 },
    ]
    .into_iter()
    .enumerate()
    {
        let key = 100 + change as u64;
        let client = 1;
        let operation = Insert { key, value: 5 };
        store.step(Step::Begin { client });
        store.step(Step::Give { client, operation });
        while let Outcome::Fetched(_) = store.step(WORK) {}
        assert_eq!(store.step(step), Outcome::Done);
        assert_eq!(store.step(Step::Commit { client }), Outcome::Done);
        let told = [0, 1].map(|server| store.step(Step::Prepare { client, server }));
        assert!(told.contains(&DIFFERS), "{told:?}");
        assert_eq!(store.transaction(client, 1, |t| t.insert(key, 5)), Ok(true));
    }
}

/// Keys on several servers, some of them on server 1; client 1 has copies of metadata and inner nodes, and the key that it will ask for is on
/// server 1.
fn with_copies() -> (Store<Vec<u8>>, u64) {
    let mut store = store(3);
    insert(&mut store, 0..150);
    let sizes = store.sizes();
    let home = |store: &mut Store<Vec<u8>>, key| layout::leaf_of(store.memory(), sizes, key) / 1024;
    let key = (0..150).find(|key| home(&mut store, *key) == 1);
    let key = key.expect("a key on server 1");
    assert_eq!(
        store.transaction(1, 1, |t| t.lookup(key)),
        Ok(Some(1000 + key))
    );
    (store, key)
}

/// Old copies lead to a server that is gone: the fetch there aborts by 1 and drops them, and the next run gets through.
#[test]
fn a_fetch_at_a_removed_server() {
    let (mut store, key) = with_copies();
    retire(&mut store, 1, 2);
    let mut again = Store::resume(store.memory().to_vec()).expect("a store");
    let mut runs = 0;
    let told = again.transaction(1, 5, |t| {
        runs += 1;
        t.lookup(key)
    });
    assert_eq!((told, runs), (Ok(Some(1000 + key)), 2));

    let client = 1;
    store.step(Step::Begin { client });
    let operation = Lookup { key };
    store.step(Step::Give { client, operation });
    assert_eq!(store.step(WORK), DIFFERS, "at its first fetch");
    let view = view(store.memory());
    let copies = view.client(1).expect("a client");
    assert_eq!(copies.metadata_copy(), None);
    assert_eq!(copies.node_copies().count(), 0);
}

/// So does a prepare.
#[test]
fn a_prepare_at_a_removed_server() {
    let (mut store, key) = with_copies();
    let client = 1;
    let operation = Insert { key, value: 7 };
    store.step(Step::Begin { client });
    store.step(Step::Give { client, operation });
    while let Outcome::Fetched(_) = store.step(WORK) {}
    assert_eq!(store.step(Step::Commit { client }), Outcome::Done);
    retire(&mut store, 1, 2);
    assert_eq!(store.step(Step::Prepare { client, server: 1 }), DIFFERS);
    assert_eq!(store.transaction(1, 1, |t| t.insert(key, 7)), Ok(false));
}

/// A node moves to open servers only: else 5, by the metadata that the transaction has read. A node that stays is answered.
#[test]
fn migrations_to_servers_that_are_not_open() {
    let mut store = store(3);
    insert(&mut store, 0..60);
    assert_eq!(store.close(1), Ok(()));
    for client in [0, 1] {
        for (node, server, due) in [
            (0, 1, Err(NO_SLOT)),
            (0, 7, Err(NO_SLOT)),
            (0, 0, Ok(Migrated::There)),
            (11, 1, Ok(Migrated::Free)),
            (11, 7, Ok(Migrated::Free)),
        ] {
            let told = store.transaction(client, 9, |t| t.migrate(node, server));
            assert_eq!(told, due, "node {node} to server {server}");
        }
    }
    let fresh = |store: &mut Store<Vec<u8>>| {
        let told = store.transaction(1, 9, |t| t.lookup(1));
        assert_eq!(told, Ok(Some(1001)));
    };
    // What client 1 knows as open has closed: its copy is found out, and the next run is told 5.
    fresh(&mut store);
    assert_eq!(store.close(2), Ok(()));
    let once = |store: &mut Store<Vec<u8>>| store.transaction(1, 1, |t| t.migrate(0, 2));
    assert_eq!(once(&mut store), Err(Failure::Aborted(Reason::Differs)));
    assert_eq!(once(&mut store), Err(NO_SLOT));
    // What it knows as absent has been added: 5 by its copy, which the abort drops.
    fresh(&mut store);
    assert_eq!(store.add(7), Ok(()));
    let once = |store: &mut Store<Vec<u8>>| store.transaction(1, 1, |t| t.migrate(0, 7));
    assert_eq!(once(&mut store), Err(NO_SLOT));
    assert!(matches!(once(&mut store), Ok(Migrated::To(_))));
}

// ---- where metadata comes from

/// From the first server that is not absent, counting up and round from the client's number modulo the servers opened: if the root by that one is
/// damaged, the fetch is refused, and by no other's.
#[test]
fn the_source_of_metadata() {
    let mut stage = Stage::new(3, 4, 5);
    let sources = |stage: &Stage, due: [usize; 5]| {
        for (client, due) in due.into_iter().enumerate() {
            let shown = view(&stage.memory).metadata_source(client);
            assert_eq!(shown.map(|server| server.number()), Some(due));
            for server in 0..MAX_SERVERS {
                let root = layout::server_at(stage.sizes, server) + layout::ROOT;
                let mut damaged = stage.with(root, 4);
                let client = client as u64;
                damaged.step(Step::Begin { client });
                damaged.given(client, Lookup { key: 1 });
                let told = damaged.tried(Step::Work { client });
                match server == due {
                    true => assert_eq!(told, refused(Refusal::Damaged)),
                    false => assert_eq!(told, Outcome::Fetched(Fetched::Metadata)),
                }
            }
        }
    };
    sources(&stage, [0, 1, 2, 0, 1]);
    stage.step(Step::CloseServer { server: 1 });
    sources(&stage, [0, 1, 2, 0, 1]);
    stage.step(Step::RemoveServer { server: 1 });
    sources(&stage, [0, 2, 2, 0, 2]);
    stage.step(Step::CloseServer { server: 2 });
    stage.step(Step::RemoveServer { server: 2 });
    sources(&stage, [0, 0, 0, 0, 0]);
    stage.step(Step::AddServer { server: 6 });
    sources(&stage, [0, 6, 6, 0, 6]);
}

// ---- damaged states

/// `stage` with the states words of all servers set to this one.
fn with_states(stage: &Stage, word: u64) -> Stage {
    let place = |server| layout::server_at(stage.sizes, server) + layout::STATES;
    (0..MAX_SERVERS).fold(stage.clone(), |stage, server| {
        stage.with(place(server), word)
    })
}

/// With no server left the metadata has no source: 10, for a fetch of it and for an add; 13 comes before it where one would be closed or removed.
#[test]
fn all_absent() {
    let mut stage = Stage::new(2, 4, 2);
    stage.transaction(0, &[Insert { key: 1, value: 1 }]);
    stage.step(Step::Begin { client: 1 });
    stage.given(1, Lookup { key: 1 });
    let mut fetched = stage.clone();
    fetched.step(WORK);
    let damaged = refused(Refusal::Damaged);
    for word in [0, 0xff00, 1 << 16, u64::MAX - 255] {
        let mut none = with_states(&stage, word);
        assert_eq!(states(&none.memory), [Absent; MAX_SERVERS]);
        assert_eq!(none.tried(WORK), damaged, "states {word:x}");
        for server in [0, 1, 7] {
            let [add, close, remove] = changes(server);
            assert_eq!(none.tried(add), damaged);
            assert_eq!(none.tried(close), refused(Refusal::UnfitServer));
            assert_eq!(none.tried(remove), refused(Refusal::UnfitServer));
        }
        let view = view(&none.memory);
        assert!(view.metadata_source(1).is_none());
        assert_eq!(view.pairs(), Err(NoTree::Roots));
        // A node's fetch needs its home alone, and that is absent.
        assert_eq!(with_states(&fetched, word).tried(WORK), DIFFERS);
    }
}

/// A server is what its own word says, bit by bit; whether the whole word is in range is asked where the metadata is read.
#[test]
fn one_server_with_damaged_states() {
    let mut stage = Stage::new(2, 4, 2);
    stage.transaction(0, &[Migrate { node: 0, server: 1 }]);
    let root = root(&stage);
    stage.transaction(1, &[Insert { key: 1, value: 1 }]);
    stage.step(Step::Begin { client: 1 });
    stage.given(1, Lookup { key: 1 });
    let mut lost = stage.clone();
    lost.step(Step::Lost { client: 1 });
    lost.step(Step::Begin { client: 1 });
    lost.given(1, Lookup { key: 1 });
    let place = |server| layout::server_at(stage.sizes, server) + layout::STATES;
    let fetched = [Fetched::Metadata, Fetched::Node(root)].map(Outcome::Fetched);
    let [unfit, damaged] = [Refusal::UnfitServer, Refusal::Damaged].map(Outcome::Refused);
    let taken = refused(Refusal::SlotTaken);
    // The root is on server 1, which client 1 fetches the metadata from.
    for (word, state, metadata, node, [close, remove]) in [
        (0x303, Open, fetched[0], fetched[1], [Outcome::Done, unfit]),
        (0x103, Closing, fetched[0], fetched[1], [unfit, taken]),
        (0x301, Absent, fetched[0], DIFFERS, [unfit, unfit]),
        (0x10303, Open, damaged, fetched[1], [Outcome::Done, unfit]),
        (
            1 << 63 | 0x103,
            Closing,
            damaged,
            fetched[1],
            [unfit, taken],
        ),
    ] {
        let by_server_1 = |stage: &Stage| stage.with(place(1), word);
        assert_eq!(states(&by_server_1(&stage).memory)[1], state);
        assert_eq!(by_server_1(&lost).tried(WORK), metadata, "{word:x}");
        assert_eq!(by_server_1(&stage).tried(WORK), node, "{word:x}");
        let [_, closing, removing] = changes(1);
        assert_eq!(by_server_1(&stage).tried(closing), close, "{word:x}");
        assert_eq!(by_server_1(&stage).tried(removing), remove, "{word:x}");
        // What server 0 calls it makes no difference.
        assert_eq!(stage.with(place(0), word & !2).tried(WORK), fetched[1]);
    }
}
