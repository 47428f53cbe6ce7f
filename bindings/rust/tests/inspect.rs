//! What `inspect` shows: over random schedules beside what steps tell, and on damaged memory.

mod common;

use common::player::{Player, Taste};
use common::{inputs, layout, Random, LONGEST};
use gemandrolo::inspect::{
    Body, Client, Field, Item, Lock, Metadata, Name, NoTree, Object, OutOfRange, Phase, Server,
    ServerState, View,
};
use gemandrolo::{Failure, Operation, Outcome, Reason, Sizes, Step, Store, MAX_SERVERS};
use std::collections::BTreeMap;

const SCHEDULES: usize = 1500;
const OUT: OutOfRange = OutOfRange(u64::MAX);

fn sizes(random: &mut Random) -> Sizes {
    Sizes {
        servers: random.pick(&[1, 2, 3, 8]),
        slots: random.pick(&[3, 12, 70]),
        clients: random.pick(&[2, 3, 5]),
    }
}

fn taste(random: &mut Random) -> Taste {
    let (inserts, deletes) = random.pick(&[(80, 5), (45, 35), (30, 10)]);
    Taste {
        keys: random.pick(&[30, 90, u64::MAX]),
        inserts,
        deletes,
        migrates: random.pick(&[0, 4]),
        lists: random.pick(&[0, 10]),
        noise: random.pick(&[0, 3]),
        changes: random.pick(&[0, 20]),
        length: random.pick(&[1, 3, 8]),
    }
}

fn view(memory: &[u8]) -> View<'_> {
    View::of(memory).expect("a store")
}

fn sound<T>(field: Field<T>) -> T {
    field.unwrap_or_else(|out| panic!("{out}"))
}

fn items(set: Field<Vec<Field<Item>>>) -> Vec<Item> {
    sound(set).into_iter().map(sound).collect()
}

fn copies(client: &Client) -> Vec<Item> {
    let metadata = client.metadata_copy().map(Item::Metadata);
    let nodes = client.node_copies().map(sound);
    metadata
        .into_iter()
        .chain(nodes.map(|(name, node)| Item::Node(name, node)))
        .collect()
}

/// What was seen: a test that saw nothing fails.
#[derive(Default, Debug)]
struct Seen {
    readers: usize,
    writers: usize,
    old: usize,
    current: usize,
    pairs: usize,
    passed: usize,
    aborted: usize,
}

impl Seen {
    fn all(&self) -> bool {
        let locks = [self.readers, self.writers];
        let copies = [self.old, self.current, self.passed, self.aborted];
        let seen = |n: &usize| *n > 0;
        locks.iter().all(seen) && copies.iter().all(seen) && self.pairs > 0
    }
}

/// Every lock shown is held by a client that has prepared here, has not applied here, and has read the object; a writer writes it.
fn locks_have_holders(view: &View, seen: &mut Seen) {
    for server in view.servers() {
        for (object, lock) in server.locks() {
            let lock = sound(lock);
            assert!(lock.holders().iter().count() > 0);
            for holder in lock.holders().iter() {
                let client = view.client(holder).expect("a client of the store");
                assert!(matches!(
                    client.phase(),
                    Ok(Phase::Committing | Phase::Decided)
                ));
                assert!(sound(client.prepared()).contains(server.number()));
                assert!(!sound(client.applied()).contains(server.number()));
                let has = |set| items(set).iter().any(|item| item.object() == object);
                assert!(has(client.reads()));
                assert!(has(client.writes()) || matches!(lock, Lock::Readers(_)));
            }
            match lock {
                Lock::Writer(_) => seen.writers += 1,
                _ => seen.readers += 1,
            }
        }
    }
}

/// The server that a client fetches the metadata from, by the words of the memory themselves.
fn source(memory: &[u8], client: usize) -> usize {
    let sizes = view(memory).sizes();
    let there = layout::present(memory, sizes);
    let first = client % sizes.servers;
    let mut round = (first..8).chain(0..first);
    round
        .find(|server| there.contains(server))
        .expect("one is there")
}

/// A copy or a thing read is marked old exactly when its version is behind the server's, or its flag another, by the words of the memory
/// themselves.
fn old_is_behind(memory: &[u8], seen: &mut Seen) {
    let view = view(memory);
    let sizes = view.sizes();
    let word = |at: usize| layout::word(memory, at);
    for client in view.clients() {
        for item in copies(&client).into_iter().chain(items(client.reads())) {
            let due = match &item {
                Item::Metadata(m) => {
                    let source = layout::server_at(sizes, source(memory, client.number()));
                    u64::from(sound(m.version)) < word(source + layout::METADATA_VERSION)
                }
                Item::Node(name, n) => {
                    let home = layout::node_at(sizes, name.number());
                    u64::from(sound(n.version)) < word(home + 2)
                }
                Item::Flag(name, taken) => {
                    let vector = layout::server_at(sizes, name.server()) + layout::VECTOR;
                    let flag = word(vector + name.slot() / 64) >> (name.slot() % 64) & 1;
                    u64::from(sound(*taken)) != flag
                }
            };
            assert_eq!(sound(client.is_old(&item)), due);
            match due {
                true => seen.old += 1,
                false => seen.current += 1,
            }
        }
    }
}

/// Metadata of one version is the same wherever it is: at servers that are there, read, and copied.
fn metadata_by_version(view: &View) {
    let mut seen = BTreeMap::new();
    let mut meet = |metadata: Metadata| {
        let version = sound(metadata.version);
        let first = seen.entry(version).or_insert(metadata.clone());
        assert_eq!(*first, metadata);
    };
    let servers = view.servers().filter(Server::is_there);
    servers.for_each(|server| meet(server.metadata()));
    for client in view.clients() {
        for item in copies(&client).into_iter().chain(items(client.reads())) {
            if let Item::Metadata(metadata) = item {
                meet(metadata);
            }
        }
    }
}

/// The operation that a step gives.
fn given([_, _, op, key, value, server]: [u64; 6]) -> Option<Operation> {
    match op {
        1 => Some(Operation::Insert { key, value }),
        2 => Some(Operation::Lookup { key }),
        3 => Some(Operation::Delete { key }),
        4 => Some(Operation::Next { key }),
        5 => Some(Operation::Previous { key }),
        6 => Some(Operation::Migrate { node: key, server }),
        7 => Some(Operation::List { key, count: value }),
        _ => None,
    }
}

/// What the client's part shows after a step of it, by the outcome alone.
fn follows(view: &View, step: [u64; 6], outcome: Outcome) {
    if let (8..=10, Outcome::Done) = (step[0], outcome) {
        return changed(view, step);
    }
    let Some(client) = view.client(step[1] as usize) else {
        return;
    };
    let phase = sound(client.phase());
    match (step[0], outcome) {
        (0, Outcome::Done) => assert_eq!(phase, Phase::Open),
        (1, Outcome::Done) => assert_eq!(sound(client.waiting()), given(step)),
        (_, Outcome::Fetched(_)) => assert!(sound(client.waiting()).is_some()),
        (_, Outcome::Answered(_)) => assert_eq!(sound(client.waiting()), None),
        (3, Outcome::Done) => {
            assert_eq!(phase, Phase::Committing);
            assert!(sound(client.participants()).iter().count() > 0);
        }
        (_, Outcome::Prepared(s)) => {
            assert!(sound(client.prepared()).contains(s as usize));
        }
        (_, Outcome::Decided) => {
            assert_eq!(phase, Phase::Decided);
            assert_eq!(client.prepared(), client.participants());
        }
        (_, Outcome::Applied(s)) => assert!(sound(client.applied()).contains(s as usize)),
        (_, Outcome::Committed | Outcome::Aborted(_)) => {
            assert_eq!(phase, Phase::Idle);
            let held = |lock: Lock| lock.holders().contains(client.number());
            let mut locks = view.servers().flat_map(|server| server.locks());
            assert!(!locks.any(|(_, lock)| held(sound(lock))));
        }
        _ => {}
    }
}

/// What is shown after a change of the servers, by each of them that is there.
fn changed(view: &View, [kind, .., number]: [u64; 6]) {
    let number = number as usize;
    let due = match kind {
        8 => ServerState::Open,
        9 => ServerState::Closing,
        _ => ServerState::Absent,
    };
    let changed = view.server(number).expect("a server");
    assert_eq!(changed.state(), due);
    let newest = changed.metadata();
    for server in view.servers().filter(Server::is_there) {
        assert_eq!(server.metadata(), newest);
        let states = sound(newest.states);
        assert_eq!(states.server(server.number()), server.state());
        assert!(states.present().contains(server.number()));
        let is_open = server.state() == ServerState::Open;
        assert_eq!(states.open().contains(server.number()), is_open);
    }
}

/// The store with no transaction under way, in memory of its own: undecided ones are given up, decided ones applied.
fn at_rest(memory: &[u8]) -> Store<Vec<u8>> {
    let mut store = Store::resume(memory.to_vec()).expect("a store");
    for client in 0..store.sizes().clients as u64 {
        store.step(Step::GiveUp { client });
        for server in 0..MAX_SERVERS as u64 {
            store.step(Step::Apply { client, server });
        }
    }
    store
}

/// The pairs are those that transactions find by next and lookup.
fn pairs_are_found(store: &mut Store<Vec<u8>>, seen: &mut Seen) {
    let pairs = view(store.memory()).pairs().expect("one tree");
    let mut found = Vec::new();
    let first = store.transaction(0, 9, |t| Ok(t.lookup(0)?.map(|_| 0)));
    let mut key = match first.expect("it passes") {
        Some(key) => Some(key),
        None => store.transaction(0, 9, |t| t.next(0)).expect("it passes"),
    };
    while let Some(at) = key {
        let asked = store.transaction(0, 9, |t| Ok((t.lookup(at)?, t.next(at)?)));
        let (value, next) = asked.expect("it passes");
        found.push((at, value.expect("a key that next found")));
        key = next;
    }
    assert_eq!(pairs, found);
    seen.pairs += pairs.len();
}

/// A client alone whose copies are all current passes at once; one whose copy of the root is old does not.
fn old_copies_abort(random: &mut Random, store: &mut Store<Vec<u8>>, keys: u64, seen: &mut Seen) {
    for number in 0..store.sizes().clients {
        let client = view(store.memory()).client(number).expect("a client");
        let old: Vec<Object> = copies(&client)
            .iter()
            .filter(|copy| sound(client.is_old(copy)))
            .map(Item::object)
            .collect();
        let root = client.metadata_copy().map(|m| Object::Node(sound(m.root)));
        let by_old_root = root.is_some_and(|root| old.contains(&root));
        let key = random.below(keys);
        match store.transaction(number as u64, 1, |t| t.lookup(key)) {
            Ok(_) => {
                assert!(!by_old_root);
                seen.passed += 1;
            }
            Err(Failure::Aborted(Reason::Differs | Reason::NoTree)) => {
                assert!(!old.is_empty());
                seen.aborted += 1;
            }
            Err(other) => panic!("{other}"),
        }
    }
}

#[test]
fn random_schedules() {
    let mut seen = Seen::default();
    for seed in 0..inputs(SCHEDULES) as u64 {
        let mut random = Random(seed);
        let sizes = sizes(&mut random);
        let mut player = Player::new(sizes, taste(&mut random));
        let mut store = Store::new(sizes).expect("allowed sizes");
        let steps = random.pick(&[100, 400, 1200]);
        for i in 0..steps {
            // Towards the end client 1 steps alone, and the others' copies grow old.
            let step = match i < steps / 2 {
                true => player.choose(&mut random),
                false => player.fitting(&mut random, 1),
            };
            let outcome = player.take(&mut store, step, LONGEST);
            follows(&view(store.memory()), step, outcome);
            if random.percent(5) {
                locks_have_holders(&view(store.memory()), &mut seen);
                old_is_behind(store.memory(), &mut seen);
                metadata_by_version(&view(store.memory()));
            }
        }
        let mut rested = at_rest(store.memory());
        pairs_are_found(&mut rested, &mut seen);
        let mut rested = at_rest(store.memory());
        old_copies_abort(&mut random, &mut rested, player.taste.keys, &mut seen);
    }
    println!("{} schedules: {seen:?}", inputs(SCHEDULES));
    assert!(seen.all(), "each case was met");
}

/// Reads everything there is to read.
fn look(view: &View) -> usize {
    let mut text = format!("{:?}", view.pairs());
    for server in view.servers() {
        text += &format!("{:?} {:?}", server.state(), server.metadata());
        text += &format!("{:?}", server.locks());
        text += &format!("{:?}", server.vector());
        for name in view.names() {
            text += &format!("{:?} {:?}", server.table(name), server.node(name.slot()));
        }
    }
    for client in view.clients() {
        text += &format!("{:?} {:?}", client.phase(), client.waiting());
        text += &format!("{:?} {:?}", client.participants(), client.prepared());
        text += &format!("{:?} {:?}", client.applied(), client.vectors_fetched());
        text += &format!("{:?} {:?}", client.is_lost(), client.metadata_copy());
        for set in [client.reads(), client.writes()] {
            let old = |item: Field<Item>| item.and_then(|item| client.is_old(&item));
            let old = |items: Vec<_>| items.into_iter().map(old).collect::<Vec<_>>();
            text += &format!("{:?} {:?}", set, set.clone().map(old));
        }
        text += &format!("{:?}", client.node_copies().collect::<Vec<_>>());
        let source = view.metadata_source(client.number());
        text += &format!("{:?}", source.map(|server| server.number()));
        for server in 0..=MAX_SERVERS {
            text += &format!("{:?}", client.vector_copy(server));
        }
    }
    text.len()
}

/// A store in the middle of its clients' transactions.
fn state(random: &mut Random) -> (Sizes, Vec<u8>) {
    let sizes = Sizes {
        servers: random.pick(&[1, 3]),
        slots: random.pick(&[4, 12]),
        clients: 2,
    };
    let mut player = Player::new(sizes, taste(random));
    let mut store = Store::new(sizes).expect("allowed sizes");
    for _ in 0..random.below(600) {
        player.play(random, &mut store);
    }
    (sizes, store.into_memory())
}

/// Flipped and random words, one or many: a look never fails.
#[test]
fn damaged_memory() {
    let mut random = Random(1);
    let mut read = 0;
    for _ in 0..inputs(300) {
        let (sizes, mut memory) = state(&mut random);
        for round in 0..40 {
            let target = 1 + random.index(layout::TARGETS.len() - 1);
            let place = layout::place(&mut random, sizes, target);
            let flipped = layout::word(&memory, place) ^ 1 << random.below(64);
            let damaged = random.pick(&[flipped, flipped, random.0, u64::MAX, 7]);
            layout::set_word(&mut memory, place, damaged);
            if round % 8 == 0 {
                read += look(&view(&memory));
            }
        }
        memory[64..].fill_with(|| random.next() as u8);
        read += look(&view(&memory));
    }
    assert!(read > 0);
}

/// Memory of every length, and any head: a view is had exactly where a step would not be refused by 1, 2 or 3, and by the same number.
#[test]
fn no_store() {
    let mut random = Random(2);
    let (_, memory) = state(&mut random);
    let refused = |memory: &[u8]| {
        let shown = View::of(memory).map(|view| view.sizes());
        let resumed = Store::resume(memory.to_vec()).map(|store| store.sizes());
        assert_eq!(shown, resumed);
        shown.is_err()
    };
    for bytes in (0..100).chain(memory.len() - 20..memory.len()) {
        assert!(refused(&memory[..bytes]));
    }
    assert!(!refused(&memory));
    for word in 0..3 {
        for size in [0, 1, 9, 17, 1025, u64::MAX] {
            let mut memory = memory.clone();
            layout::set_word(&mut memory, word, size);
            refused(&memory);
        }
    }
}

const LARGEST: Sizes = Sizes {
    servers: 8,
    slots: 1024,
    clients: 16,
};

/// A new store of the largest sizes with a word of all ones.
fn with_all_ones(word: usize) -> Vec<u8> {
    let mut memory = Store::new(LARGEST).expect("allowed sizes").into_memory();
    layout::set_word(&mut memory, word, u64::MAX);
    memory
}

/// A word of all ones in a server's part is shown as out of range; in a vector it is 64 taken slots.
#[test]
fn out_of_range_at_a_server() {
    let node = 3 * 1024 + 5;
    let part = layout::server_at(LARGEST, 3);
    let row = layout::node_at(LARGEST, node as u64);
    let shown = |word: usize, as_such: fn(Server, Name) -> bool| {
        let memory = with_all_ones(word);
        let view = view(&memory);
        let name = view.names().nth(node).expect("a name");
        assert!(as_such(view.server(3).expect("a server"), name), "{word}");
    };
    shown(part, |s, _| s.metadata().root == Err(OUT));
    shown(part + 1, |s, _| s.metadata().version == Err(OUT));
    shown(part + 2, |s, _| {
        s.metadata().states == Err(OUT) && s.state() == ServerState::Open
    });
    shown(part + 3, |s, _| s.locks() == [(Object::Metadata, Err(OUT))]);
    shown(part + 4, |s, _| s.is_taken(63) && !s.is_taken(64));
    shown(row, |s, n| {
        let body = s.node(n.slot()).map(|node| node.body);
        matches!(body, Some(Body::OutOfRange { kind: u64::MAX, .. }))
    });
    shown(row + 2, |s, n| {
        s.node(n.slot()).map(|node| node.version) == Some(Err(OUT))
    });
    shown(row + 33, |s, n| s.locks() == [(Object::Flag(n), Err(OUT))]);
    shown(row + 34 + 3, |s, n| s.table(n) == Some(Err(OUT)));
    shown(row + 42 + 3, |s, n| {
        s.locks() == [(Object::Node(n), Err(OUT))]
    });
}

/// The same in a client's part, up to the memory's last word, which is of a vector that is not there.
#[test]
fn out_of_range_at_a_client() {
    let part = layout::client_at(LARGEST, 15);
    let shown = |word: usize, as_such: fn(Client) -> bool| {
        let memory = with_all_ones(part + word);
        assert!(
            as_such(view(&memory).client(15).expect("a client")),
            "{word}"
        );
    };
    shown(0, |c| c.phase() == Err(OUT));
    shown(1, |c| c.waiting() == Err(OUT));
    shown(5, |c| c.participants() == Err(OUT));
    shown(6, |c| c.prepared() == Err(OUT));
    shown(7, |c| c.applied() == Err(OUT));
    shown(8, |c| c.vectors_fetched() == Err(OUT));
    shown(9, |c| c.is_lost() == Err(OUT));
    shown(10, |c| c.reads() == Err(OUT));
    shown(11, |c| c.writes() == Err(OUT));
    shown(12, |c| {
        c.metadata_copy().map(|copy| copy.states) == Some(Err(OUT))
    });
    shown(4911 + 63, |c| c.node_copies().eq([Err(OUT)]));
    shown(7087 + 17 * 7, |c| c.vector_copy(7) == Err(OUT));
    shown(7222, |c| c.vector_copy(7) == Ok(None));
}

/// A list that waits is shown with its count, and as out of range where that is not 1 to 32.
#[test]
fn a_list_that_waits() {
    let (op, count) = (1, 3);
    let part = layout::client_at(LARGEST, 15);
    let waiting = |asked: u64| {
        let mut memory = with_all_ones(part + count);
        layout::set_word(&mut memory, part + op, 7);
        layout::set_word(&mut memory, part + count, asked);
        view(&memory).client(15).expect("a client").waiting()
    };
    for count in [1, 32] {
        assert_eq!(waiting(count), Ok(Some(Operation::List { key: 0, count })));
    }
    for count in [0, 33, u64::MAX] {
        assert_eq!(waiting(count), Err(OutOfRange(count)));
    }
}

/// A root that servers do not agree on, that is none of the store, or that is free.
#[test]
fn no_tree() {
    let sizes = Sizes {
        servers: 2,
        slots: 4,
        clients: 1,
    };
    let memory = Store::new(sizes).expect("allowed sizes").into_memory();
    let pairs = |roots: [u64; 2]| {
        let mut memory = memory.clone();
        for (server, root) in roots.into_iter().enumerate() {
            layout::set_word(&mut memory, layout::server_at(sizes, server), root);
        }
        view(&memory).pairs()
    };
    assert_eq!(pairs([0, 0]), Ok(vec![]));
    assert_eq!(pairs([0, 1]), Err(NoTree::Roots));
    assert_eq!(pairs([4, 4]), Err(NoTree::Name(OutOfRange(4))));
    let free = view(&memory).names().nth(1).expect("a second slot");
    assert_eq!(pairs([1, 1]), Err(NoTree::Node(free)));
}

/// An absent server's root is not asked, whatever it names; a closing one's is.
#[test]
fn roots_of_servers_that_are_there() {
    let sizes = Sizes {
        servers: 3,
        slots: 4,
        clients: 1,
    };
    let mut store = Store::new(sizes).expect("allowed sizes");
    let pairs = |memory: &[u8]| {
        [0, 1, 2, 3].map(|server| {
            let mut memory = memory.to_vec();
            layout::set_word(&mut memory, layout::server_at(sizes, server), 1);
            view(&memory).pairs().is_ok()
        })
    };
    assert_eq!(pairs(store.memory()), [false, false, false, true]);
    store.close(1).expect("an open one");
    assert_eq!(pairs(store.memory()), [false, false, false, true]);
    store.remove(1).expect("a closing one");
    assert_eq!(pairs(store.memory()), [false, true, false, true]);
}

/// The servers' states in a server's metadata, in what is read of it and in the copy: out of range where no server is there, or a bit of none is set.
#[test]
fn states_in_metadata() {
    let sizes = Sizes {
        servers: 2,
        slots: 4,
        clients: 1,
    };
    let mut store = Store::new(sizes).expect("allowed sizes");
    let (client, operation) = (0, Operation::Lookup { key: 1 });
    store.step(Step::Begin { client });
    store.step(Step::Give { client, operation });
    store.step(Step::Work { client });
    let memory = store.into_memory();
    let read = layout::items(&memory, sizes, 0, layout::Set::Reads)[0];
    let places = [
        layout::server_at(sizes, 0) + layout::STATES,
        read.record + layout::SLOTS.start + 1,
        layout::client_at(sizes, 0) + layout::META_STATES,
    ];
    let shown = |word: u64| {
        let mut memory = memory.clone();
        for place in places {
            layout::set_word(&mut memory, place, word);
        }
        let view = view(&memory);
        let client = view.client(0).expect("a client");
        let [Item::Metadata(read)] = &items(client.reads())[..] else {
            panic!("the metadata is read");
        };
        let stored = view.server(0).expect("a server").metadata().states;
        let copied = client.metadata_copy().map(|copy| copy.states);
        assert_eq!(read.states, stored);
        assert_eq!(copied, (word != 0).then_some(stored));
        stored
    };
    use ServerState::{Absent, Closing, Open};
    for (word, due) in [
        (0x303, [Open, Open, Absent]),
        (0x103, [Open, Closing, Absent]),
        (0x301, [Open, Absent, Absent]),
        (0x007, [Closing, Closing, Closing]),
        (0x404, [Absent, Absent, Open]),
        (0xffff, [Open, Open, Open]),
    ] {
        let states = sound(shown(word));
        assert_eq!([0, 1, 2].map(|server| states.server(server)), due);
        assert_eq!(states.server(MAX_SERVERS), Absent);
    }
    for word in [0, 0x100, 0xff00, 0x10001, 1 << 63 | 0x303, u64::MAX] {
        assert_eq!(shown(word), Err(OutOfRange(word)));
    }
}

/// An inner root above a leaf: a tree only if it is one level higher.
#[test]
fn no_tree_by_levels() {
    let sizes = Sizes {
        servers: 1,
        slots: 2,
        clients: 1,
    };
    let root = layout::node_at(sizes, 0);
    let leaf = layout::node_at(sizes, 1);
    let pairs = |level: u64| {
        let mut memory = Store::new(sizes).expect("allowed sizes").into_memory();
        let words = [(root, 2), (root + 1, level), (root + 18, 1), (leaf, 1)];
        for (at, word) in words {
            layout::set_word(&mut memory, at, word);
        }
        view(&memory).pairs()
    };
    assert_eq!(pairs(1), Ok(vec![]));
    assert!(matches!(pairs(2), Err(NoTree::Node(name)) if name.number() == 1));
    assert!(matches!(pairs(5), Err(NoTree::Node(name)) if name.number() == 0));
}

/// The middle of one transaction, by hand: what it has read and would write, and what it has copied.
#[test]
fn a_transaction() {
    let sizes = Sizes {
        servers: 2,
        slots: 4,
        clients: 2,
    };
    let mut store = Store::new(sizes).expect("allowed sizes");
    store.step(Step::Begin { client: 1 });
    store.step(Step::Give {
        client: 1,
        operation: Operation::Insert { key: 40, value: 55 },
    });
    while let Outcome::Fetched(_) = store.step(Step::Work { client: 1 }) {}
    let view = view(store.memory());
    let client = view.client(1).expect("a client");
    let root = view.names().next().expect("node 0");
    let objects = |set| items(set).iter().map(Item::object).collect::<Vec<_>>();
    assert_eq!(
        objects(client.reads()),
        [Object::Metadata, Object::Node(root)]
    );
    let [Item::Node(name, written)] = &items(client.writes())[..] else {
        panic!("one node is written");
    };
    assert_eq!(*name, root);
    assert_eq!(
        written.body,
        Body::Leaf {
            pairs: vec![(40, 55)]
        }
    );
    assert_eq!(
        copies(&client).len(),
        1,
        "the metadata; leaves are not copied"
    );
    assert_eq!(view.pairs(), Ok(vec![]), "nothing is stored yet");
}
