//! A server is retired by one call: its nodes move to the open servers, and everything that was stored is read as before.

mod common;

use common::player::{Player, Taste};
use common::{inputs, layout, Random};
use gemandrolo::inspect::View;
use gemandrolo::Operation::{Insert, Lookup, Migrate};
use gemandrolo::{
    Failure, Migrated, NotRetired, Operation, Outcome, Reason, Refusal, ServerState, Sizes, Step,
    Store, MAX_SERVERS,
};
use std::collections::BTreeMap;
use ServerState::{Absent, Closing, Open};

type Memory = Store<Vec<u8>>;
type Map = BTreeMap<u64, u64>;

/// The client that moves nodes, and one that goes on meanwhile.
const OFFICE: u64 = 0;
const TABLET: u64 = 1;

fn store(servers: usize, slots: usize) -> Memory {
    let clients = 2;
    Store::new(Sizes {
        servers,
        slots,
        clients,
    })
    .expect("allowed sizes")
}

/// A store with so many pairs, all put there by the tablet.
fn filled(servers: usize, slots: usize, pairs: u64) -> (Memory, Map) {
    let mut store = store(servers, slots);
    let map: Map = (0..pairs).map(|key| (key, 1000 + key)).collect();
    for (key, value) in &map {
        let told = store.transaction(TABLET, 9, |t| t.insert(*key, *value));
        assert_eq!(told, Ok(true));
    }
    (store, map)
}

/// Deletes the lowest keys, until there are so few.
fn delete_down_to(store: &mut Memory, map: &mut Map, pairs: usize) {
    while map.len() > pairs {
        let (key, _) = map.pop_first().expect("a pair");
        assert_eq!(store.transaction(TABLET, 9, |t| t.delete(key)), Ok(true));
    }
}

/// The pairs are these: by lookups, by a list, and by the tree as it stands in the memory.
fn holds(store: &mut Memory, map: &Map) {
    let due: Vec<(u64, u64)> = map.iter().map(|(key, value)| (*key, *value)).collect();
    for client in [OFFICE, TABLET] {
        for (key, value) in map {
            let told = store.transaction(client, 99, |t| t.lookup(*key));
            assert_eq!(told, Ok(Some(*value)), "key {key}, by client {client}");
        }
        let listed = store.transaction(client, 99, |t| t.range(..).collect::<Result<Vec<_>, _>>());
        assert_eq!(listed.as_ref(), Ok(&due));
    }
    let sizes = store.sizes();
    assert_eq!(layout::pairs(store.memory(), sizes), due);
}

fn view(store: &mut Memory) -> View<'_> {
    View::of(store.memory()).expect("a store")
}

/// How many slots of each server are taken.
fn taken(store: &mut Memory) -> [usize; MAX_SERVERS] {
    let view = view(store);
    [0, 1, 2, 3, 4, 5, 6, 7].map(|server| view.server(server).expect("a server").taken().count())
}

fn root(store: &mut Memory) -> u64 {
    let source = view(store).metadata_source(0).expect("a server is there");
    source.metadata().root.expect("a name").number()
}

/// Retires a server that nothing holds up: what progress was told.
fn retired(store: &mut Memory, server: u64) -> Vec<usize> {
    let mut told = Vec::new();
    let ended = store.retire(OFFICE, server, |_, taken| told.push(taken));
    assert_eq!(ended, Ok(()));
    assert_eq!(store.server_state(server), Ok(Absent));
    told
}

/// Gives the tablet's transaction an operation, and works until it is answered or has ended.
fn ask(store: &mut Memory, operation: Operation) -> Outcome {
    let client = TABLET;
    assert_eq!(store.step(Step::Give { client, operation }), Outcome::Done);
    loop {
        match store.step(Step::Work { client }) {
            Outcome::Fetched(_) => {}
            outcome => return outcome,
        }
    }
}

/// Opens a transaction of the tablet and has this operation answered.
fn open(store: &mut Memory, operation: Operation) {
    store.step(Step::Begin { client: TABLET });
    while matches!(ask(store, operation), Outcome::Aborted(Reason::Differs)) {
        store.step(Step::Begin { client: TABLET });
    }
}

/// The tablet moves the root to this server: all servers take part, and the lowest has prepared.
fn prepare(store: &mut Memory, to: u64) {
    let node = root(store);
    open(store, Migrate { node, server: to });
    let client = TABLET;
    assert_eq!(store.step(Step::Commit { client }), Outcome::Done);
    let lowest = (0..MAX_SERVERS as u64).find(|s| store.server_state(*s) != Ok(Absent));
    let server = lowest.expect("a server is there");
    let told = store.step(Step::Prepare { client, server });
    assert_eq!(told, Outcome::Prepared(server));
}

/// Prepares of the tablet at all servers that take part: its transaction is decided.
fn decide(store: &mut Memory) {
    let step = |server| Step::Prepare {
        client: TABLET,
        server,
    };
    let told = [0, 1, 2, 3, 4, 5, 6, 7].map(|server| store.step(step(server)));
    assert!(told.contains(&Outcome::Decided), "{told:?}");
}

/// Applies of the tablet at all servers that take part: its transaction has ended.
fn apply(store: &mut Memory) {
    let step = |server| Step::Apply {
        client: TABLET,
        server,
    };
    let told = [0, 1, 2, 3, 4, 5, 6, 7].map(|server| store.step(step(server)));
    assert!(told.contains(&Outcome::Committed), "{told:?}");
}

fn is_held_up_by_the_tablet(told: Result<(), NotRetired>) {
    match told {
        Err(NotRetired::Unended(clients)) => assert!(clients.iter().eq([TABLET as usize])),
        other => panic!("{other:?}"),
    }
}

// ---- what is done

/// A district adds a fifth server and retires the second, adds it again and retires it again.
#[test]
fn one_after_another() {
    let (mut store, map) = filled(4, 12, 250);
    assert_eq!(store.add(4), Ok(()));
    let before = taken(&mut store);
    assert!(before[1] > 5, "{before:?}");
    let told = retired(&mut store, 1);
    assert!(told.into_iter().eq((0..=before[1]).rev()));
    let after = taken(&mut store);
    assert_eq!(
        (after[1], after.iter().sum()),
        (0, before.iter().sum::<usize>())
    );
    holds(&mut store, &map);

    assert_eq!(store.add(1), Ok(()));
    assert_eq!(store.server_state(1), Ok(Open));
    let sizes = store.sizes();
    let leaf = layout::leaf_of(store.memory(), sizes, 100);
    let told = store.transaction(TABLET, 9, |t| t.migrate(leaf, 1));
    assert!(matches!(told, Ok(Migrated::To(name)) if name / 1024 == 1));
    holds(&mut store, &map);
    assert_eq!(retired(&mut store, 1), [1, 0]);
    holds(&mut store, &map);
}

/// The server with the root, and then every other one in turn: in the end all stands on a server that was not there at first.
#[test]
fn with_the_root() {
    let (mut store, map) = filled(3, 40, 250);
    assert_eq!((root(&mut store) / 1024, taken(&mut store)[0]), (0, 40));
    retired(&mut store, 0);
    assert_ne!(root(&mut store) / 1024, 0);
    holds(&mut store, &map);
    assert_eq!(store.add(7), Ok(()));
    assert_eq!(retired(&mut store, 1).last(), Some(&0));
    retired(&mut store, 2);
    assert_eq!(root(&mut store) / 1024, 7);
    holds(&mut store, &map);
}

/// Nothing is stored but an empty leaf.
#[test]
fn an_empty_store() {
    let mut store = store(2, 1);
    assert_eq!(retired(&mut store, 1), [0]);
    assert_eq!(store.add(5), Ok(()));
    assert_eq!(retired(&mut store, 0), [1, 0]);
    holds(&mut store, &Map::new());
}

/// Each node goes to the open server that has the most free slots then, the lower number at a tie.
#[test]
fn to_the_emptiest() {
    let (mut store, map) = filled(4, 20, 250);
    assert_eq!(store.add(6), Ok(()));
    assert_eq!(store.close(3), Ok(()));
    let mut before = taken(&mut store);
    let told = store.retire(OFFICE, 0, |store, left| {
        let mut due = before;
        if left < before[0] {
            let open = [1, 2, 6].into_iter();
            let emptiest = open.min_by_key(|server| before[*server]);
            due[emptiest.expect("an open one")] += 1;
            due[0] = left;
        }
        before = taken(store);
        assert_eq!(before, due);
    });
    assert_eq!(told, Ok(()));
    holds(&mut store, &map);
}

/// A client that knows an added server as absent still is told once that it isn't open. That is not the end, also where there is no other.
#[test]
fn an_old_copy_of_the_metadata() {
    let (mut store, map) = filled(1, 40, 100);
    let copies = |store: &mut Memory| store.transaction(OFFICE, 9, |t| t.lookup(1));
    assert_eq!(copies(&mut store), Ok(Some(1001)));
    assert_eq!(store.add(1), Ok(()));
    let (node, mut again) = (
        root(&mut store),
        Store::resume(store.memory().to_vec()).expect("a store"),
    );
    let told = again.transaction(OFFICE, 9, |t| t.migrate(node, 1));
    assert_eq!(told, Err(Failure::Aborted(Reason::NoSlot)));
    // The root is the first to move.
    assert_eq!(node, 0);
    retired(&mut store, 0);
    holds(&mut store, &map);
}

// ---- others meanwhile

/// Transactions that are open, or committing and not prepared, are not in the way. They abort by 1 and pass when they are run again.
#[test]
fn open_transactions() {
    let (mut store, mut map) = filled(3, 40, 250);
    let key = 100;
    let insert = Insert { key, value: 7 };
    for is_committing in [false, true] {
        let mut store = Store::resume(store.memory().to_vec()).expect("a store");
        open(&mut store, insert);
        let client = TABLET;
        if is_committing {
            assert_eq!(store.step(Step::Commit { client }), Outcome::Done);
        }
        retired(&mut store, 0);
        let told = match is_committing {
            true => store.step(Step::Prepare { client, server: 0 }),
            false => ask(&mut store, Lookup { key: 0 }),
        };
        assert_eq!(told, Outcome::Aborted(Reason::Differs));
        assert_eq!(
            store.transaction(client, 9, |t| t.insert(key, 7)),
            Ok(false)
        );
        let due = map.clone().into_iter().chain([(key, 7)]).collect();
        holds(&mut store, &due);
    }
    // They begin, and go on, between the moves too.
    let told = store.retire(OFFICE, 0, |store, taken| {
        let key = taken as u64;
        assert_eq!(
            store.transaction(TABLET, 99, |t| t.insert(key, 7)),
            Ok(false)
        );
        map.insert(key, 7);
    });
    assert_eq!(told, Ok(()));
    holds(&mut store, &map);
}

/// A node that others free meanwhile needs no move.
#[test]
fn freed_meanwhile() {
    let (mut store, mut map) = filled(2, 12, 60);
    let nodes = taken(&mut store)[0];
    let mut told = Vec::new();
    let ended = store.retire(OFFICE, 0, |store, taken| {
        told.push(taken);
        delete_down_to(store, &mut map, 3);
    });
    assert_eq!((ended, told), (Ok(()), vec![nodes, 0]), "the root alone");
    holds(&mut store, &map);
}

/// A transaction that is prepared, or decided and not ended, holds the closing up.
#[test]
fn held_up_at_the_closing() {
    let (mut store, map) = filled(3, 40, 100);
    prepare(&mut store, 2);
    let retire = |store: &mut Memory| store.retire(OFFICE, 1, |_, _| panic!("no progress"));
    is_held_up_by_the_tablet(retire(&mut store));
    decide(&mut store);
    is_held_up_by_the_tablet(retire(&mut store));
    assert_eq!(store.step(Step::Lost { client: TABLET }), Outcome::Done);
    is_held_up_by_the_tablet(retire(&mut store));
    assert_eq!(store.server_state(1), Ok(Open));
    apply(&mut store);
    retired(&mut store, 1);
    holds(&mut store, &map);
}

/// It holds a move up, and the removal; each time the retirement goes on from there.
#[test]
fn held_up_later() {
    let (mut store, map) = filled(3, 40, 250);
    let nodes = taken(&mut store)[0];
    let mut told = Vec::new();
    let held_up = store.retire(OFFICE, 0, |store, taken| {
        told.push(taken);
        if taken == nodes - 5 {
            prepare(store, 2);
            decide(store);
        }
    });
    is_held_up_by_the_tablet(held_up);
    assert!(told.into_iter().eq((nodes - 5..=nodes).rev()));
    assert_eq!(store.server_state(0), Ok(Closing));
    apply(&mut store);

    let mut told = Vec::new();
    let held_up = store.retire(OFFICE, 0, |store, taken| {
        told.push(taken);
        if taken == 0 {
            prepare(store, 1);
        }
    });
    is_held_up_by_the_tablet(held_up);
    assert!(told.into_iter().eq((0..=nodes - 5).rev()));
    assert_eq!(store.server_state(0), Ok(Closing));
    store.step(Step::GiveUp { client: TABLET });
    assert_eq!(retired(&mut store, 0), [0]);
    holds(&mut store, &map);
}

const SIZES: Sizes = Sizes {
    servers: 4,
    slots: 12,
    clients: 4,
};

/// Of the four clients three take steps at random; the fourth moves nodes.
const BUSY: usize = 3;

const TASTE: Taste = Taste {
    keys: 200,
    inserts: 35,
    deletes: 15,
    migrates: 5,
    lists: 5,
    noise: 0,
    changes: 0,
    length: 2,
};

/// Takes a client's transaction to its end, whichever it is.
fn end(player: &mut Player, store: &mut Memory, client: usize) {
    for kind in [4, 5] {
        for server in 0..MAX_SERVERS as u64 {
            player.take(store, [kind, client as u64, 0, 0, 0, server], 0);
        }
    }
}

/// A store in use, with a fifth server just added, and nobody in the middle of a commit.
fn in_use(random: &mut Random) -> (Memory, Player) {
    let sizes = Sizes {
        clients: BUSY,
        ..SIZES
    };
    let mut store = Store::new(SIZES).expect("allowed sizes");
    let mut player = Player::new(sizes, TASTE);
    for _ in 0..3000 {
        player.play(random, &mut store);
    }
    (0..BUSY).for_each(|client| end(&mut player, &mut store, client));
    let added = player.take(&mut store, [8, 0, 0, 0, 0, 4], 0);
    assert_eq!(added, Outcome::Done);
    (store, player)
}

/// A server is retired while others take steps: how often they held it up, and how many transactions they decided meanwhile.
fn under_load(seed: u64) -> [usize; 2] {
    let mut random = Random(seed);
    let (mut store, mut player) = in_use(&mut random);
    let (server, decided) = (random.below(4), player.ledger.decided);
    let (mut held_up, mut last) = (0, usize::MAX);
    loop {
        let told = store.retire(BUSY as u64, server, |store, taken| {
            assert!(taken <= last, "seed {seed}");
            last = taken;
            for _ in 0..random.index(100) {
                player.play(&mut random, store);
            }
        });
        match told {
            Err(NotRetired::Unended(clients)) => {
                held_up += 1;
                clients.iter().for_each(|c| end(&mut player, &mut store, c));
            }
            other => break assert_eq!((other, last), (Ok(()), 0), "seed {seed}"),
        }
        assert!(held_up < 1000, "seed {seed} comes to no end");
    }
    let decided = player.ledger.decided - decided;
    player.settle(&mut store);
    assert_eq!(store.server_state(server), Ok(Absent));
    is_the_map(&mut store, &player.ledger.map);
    [held_up, decided]
}

/// The pairs that a client finds which had no part in storing them.
fn is_the_map(store: &mut Memory, map: &Map) {
    let client = BUSY as u64;
    assert!(map.len() > 30, "{}", map.len());
    for key in 0..TASTE.keys {
        let told = store.transaction(client, 99, |t| t.lookup(key));
        assert_eq!(told, Ok(map.get(&key).copied()));
    }
    let listed = store.transaction(client, 99, |t| t.range(..).collect::<Result<Vec<_>, _>>());
    let due: Vec<(u64, u64)> = map.iter().map(|(key, value)| (*key, *value)).collect();
    assert_eq!(listed.as_ref(), Ok(&due));
    assert_eq!(layout::pairs(store.memory(), SIZES), due);
}

#[test]
fn any_load() {
    let seeds = inputs(300) as u64;
    let told: Vec<[usize; 2]> = (0..seeds).map(under_load).collect();
    let most = told.iter().map(|[held_up, _]| held_up).max().expect("one");
    let [held_up, decided] = [0, 1].map(|i| told.iter().map(|told| told[i]).sum::<usize>());
    println!("{seeds} servers retired, held up {held_up} times, one of them {most} times, with {decided} transactions decided meanwhile");
    assert!(held_up > told.len() / 2 && decided > 10 * told.len());
    assert!(told.iter().any(|[held_up, _]| *held_up == 0));
}

// ---- what is not done

/// A server whose nodes have no room elsewhere stays open. With room made it is retired.
#[test]
fn no_room_at_first() {
    let (mut store, mut map) = filled(2, 4, 49);
    assert_eq!(taken(&mut store)[..2], [4, 3]);
    for (server, taken, free) in [(0, 4, 1), (1, 3, 0)] {
        let told = store.retire(OFFICE, server, |_, _| panic!("no progress"));
        assert_eq!(told, Err(NotRetired::NoRoom { taken, free }));
        assert_eq!(store.server_state(server), Ok(Open));
    }
    delete_down_to(&mut store, &mut map, 28);
    let [here, there, ..] = taken(&mut store);
    assert!(here + there <= 4);
    assert_eq!(retired(&mut store, 0).first(), Some(&here));
    holds(&mut store, &map);
}

/// One that is closing already gives away what it can. With room made, by deleting or by a server more, the retirement goes on.
#[test]
fn no_room_later() {
    for adds in [false, true] {
        let (mut store, mut map) = filled(3, 4, 70);
        let [here, others @ ..] = taken(&mut store);
        let free = 8 - others.iter().sum::<usize>();
        assert!(0 < free && free < here, "{free} for {here}");
        assert_eq!(store.close(0), Ok(()));
        let mut told = Vec::new();
        let stopped = store.retire(OFFICE, 0, |_, taken| told.push(taken));
        let (taken, free) = (here - free, 0);
        assert_eq!(stopped, Err(NotRetired::NoRoom { taken, free }));
        assert!(told.into_iter().eq((taken..=here).rev()));
        assert_eq!(store.server_state(0), Ok(Closing));
        holds(&mut store, &map);
        match adds {
            true => assert_eq!(store.add(3), Ok(())),
            false => delete_down_to(&mut store, &mut map, 35),
        }
        assert!(retired(&mut store, 0)[0] <= taken);
        holds(&mut store, &map);
    }
}

/// Others take the room while nodes move.
#[test]
fn no_room_any_more() {
    let (mut store, mut map) = filled(2, 12, 60);
    let nodes = taken(&mut store)[0];
    let stopped = store.retire(OFFICE, 0, |store, taken| {
        let keys = 1000 * taken as u64..;
        let mut insert = |key| store.transaction(TABLET, 99, |t| t.insert(key, 7)).is_ok();
        map.extend(
            keys.take(30)
                .take_while(|key| insert(*key))
                .map(|key| (key, 7)),
        );
    });
    let Err(NotRetired::NoRoom { taken, free: 0 }) = stopped else {
        panic!("{stopped:?}")
    };
    assert!(0 < taken && taken < nodes);
    holds(&mut store, &map);
    assert_eq!(store.add(7), Ok(()));
    retired(&mut store, 0);
    holds(&mut store, &map);
}

/// An absent server, the last open one, a number that no server has; and a client that can't have a transaction.
#[test]
fn refused() {
    let (mut store, map) = filled(3, 12, 60);
    assert_eq!(retired(&mut store, 1).last(), Some(&0));
    let retire = |store: &mut Memory, client, server| {
        store.retire(client, server, |_, _| panic!("no progress"))
    };
    let refused = |refusal| Err(NotRetired::Refused(refusal));
    for server in [1, 7] {
        let told = retire(&mut store, OFFICE, server);
        assert_eq!(told, refused(Refusal::UnfitServer), "an absent one");
    }
    for server in [8, 1 << 32, u64::MAX] {
        assert_eq!(
            retire(&mut store, OFFICE, server),
            refused(Refusal::UnknownServer)
        );
        assert_eq!(store.server_state(server), Err(Refusal::UnknownServer));
    }
    let client = |refusal| Err(NotRetired::Client(Failure::Refused(refusal)));
    assert_eq!(retire(&mut store, 2, 0), client(Refusal::UnknownClient));
    store.step(Step::Begin { client: OFFICE });
    assert_eq!(retire(&mut store, OFFICE, 0), client(Refusal::Unfit));
    assert_eq!(store.server_state(0), Ok(Open));
    store.step(Step::GiveUp { client: OFFICE });

    holds(&mut store, &map);

    // The last open one, with nodes and without.
    let (mut store, _) = filled(1, 12, 60);
    assert_eq!(retire(&mut store, OFFICE, 0), refused(Refusal::UnfitServer));
    assert_eq!(store.add(1), Ok(()));
    assert_eq!(store.close(0), Ok(()));
    assert_eq!(retire(&mut store, OFFICE, 1), refused(Refusal::UnfitServer));
}

/// What is said of each.
#[test]
fn words() {
    let said = |why: NotRetired| why.to_string();
    let (mut store, _) = filled(2, 12, 30);
    prepare(&mut store, 1);
    let held_up = store.retire(OFFICE, 1, |_, _| ()).expect_err("held up");
    for (said, due) in [
        (
            said(held_up),
            "held up by a transaction that is prepared, or decided and not ended: client 1",
        ),
        (
            said(NotRetired::Client(Failure::Refused(Refusal::UnknownClient))),
            "the client can't move nodes: refused by 5: the client is not in the store",
        ),
        (
            said(NotRetired::Refused(Refusal::LastMetadata)),
            "the server is not retired: refused by 15: the metadata's version has come to its end",
        ),
        (
            said(NotRetired::NoRoom { taken: 9, free: 4 }),
            "9 slots are still taken, and the other open servers have 4 free",
        ),
        (
            said(NotRetired::Stuck {
                node: 1027,
                failure: Failure::Aborted(Reason::LastVersion),
            }),
            "node 1027 doesn't move: aborted by 8: a version has come to its end",
        ),
    ] {
        assert_eq!(said, due);
    }
}
