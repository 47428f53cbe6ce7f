//! The layout of the memory as docs/DECISIONS.md, 8 has it: for reading the tree off, and for damaging one thing at a time.

use super::Random;
use gemandrolo::{Sizes, MAX_SERVERS};
use std::ops::Range;

const HEAD_WORDS: usize = 8;
const CLIENT_WORDS: usize = 7223;
const RECORD_WORDS: usize = 33;
const VECTORS: usize = 7087;

/// The words of a server's part before its rows, one row for each slot number.
pub const ROWS: usize = 20;
pub const ROW_WORDS: usize = 50;

/// The first words of a server's part.
pub const ROOT: usize = 0;
pub const METADATA_VERSION: usize = 1;
pub const STATES: usize = 2;
pub const METADATA_LOCK: usize = 3;
pub const VECTOR: usize = 4;

/// The fields of a client's part.
pub const PHASE: usize = 0;
pub const OP: usize = 1;
pub const OP_KEY: usize = 2;
pub const OP_VALUE: usize = 3;
pub const OP_SERVER: usize = 4;
pub const PARTICIPANTS: usize = 5;
pub const PREPARED: usize = 6;
pub const APPLIED: usize = 7;
pub const LOST: usize = 9;
pub const READS: usize = 10;
pub const WRITES: usize = 11;
pub const META_STATES: usize = 12;
pub const META_ROOT: usize = 13;
pub const META_VERSION: usize = 14;

/// How many there are.
pub const FIELDS: usize = 15;

/// The words of a record, in the form of a node.
pub const KIND: usize = 0;
pub const LEVEL: usize = 1;
pub const VERSION: usize = 2;
pub const COUNT: usize = 3;
pub const KEYS: Range<usize> = 4..18;
pub const SLOTS: Range<usize> = 18..33;

pub const LAST_VERSION: u64 = 4_294_967_295;

/// The sets of a client's part: the numbers of their objects side by side, then their records.
#[derive(Clone, Copy)]
pub enum Set {
    Reads,
    Writes,
    Copies,
}

impl Set {
    fn base(self) -> usize {
        [15, 3279, 4911][self as usize]
    }

    fn limit(self) -> usize {
        [96, 48, 64][self as usize]
    }

    /// Where in a client's part the number and the record of item i stand.
    fn number(self, i: usize) -> usize {
        self.base() + i
    }

    fn record(self, i: usize) -> usize {
        self.base() + self.limit() + RECORD_WORDS * i
    }
}

/// The objects' numbers: the metadata's, a node's, a flag's.
pub const METADATA: u64 = 0;

pub const fn node(name: u64) -> u64 {
    1 + name
}

pub const fn flag(name: u64) -> u64 {
    8193 + name
}

pub fn is_node(object: u64) -> bool {
    (1..=8192).contains(&object)
}

pub fn word(memory: &[u8], i: usize) -> u64 {
    u64::from_le_bytes(memory[8 * i..8 * i + 8].try_into().expect("eight bytes"))
}

pub fn set_word(memory: &mut [u8], i: usize, v: u64) {
    memory[8 * i..8 * i + 8].copy_from_slice(&v.to_le_bytes());
}

fn server_words(sizes: Sizes) -> usize {
    ROWS + ROW_WORDS * sizes.slots
}

pub fn server_at(sizes: Sizes, server: usize) -> usize {
    HEAD_WORDS + server * server_words(sizes)
}

pub fn client_at(sizes: Sizes, client: usize) -> usize {
    server_at(sizes, MAX_SERVERS) + CLIENT_WORDS * client
}

pub fn words(sizes: Sizes) -> usize {
    client_at(sizes, sizes.clients)
}

/// Whose word a word is, and which one of its part.
#[derive(Debug)]
pub enum Part {
    Head(usize),
    Server(usize, usize),
    Client(usize, usize),
}

pub fn part(sizes: Sizes, place: usize) -> Part {
    let (servers, clients) = (server_at(sizes, 0), client_at(sizes, 0));
    let split = |from: usize, words: usize| (from / words, from % words);
    if place < servers {
        Part::Head(place)
    } else if place < clients {
        let (server, i) = split(place - servers, server_words(sizes));
        Part::Server(server, i)
    } else {
        let (client, i) = split(place - clients, CLIENT_WORDS);
        Part::Client(client, i)
    }
}

/// What word i of a client's part is in a set: an object's number, or word j of the record of the object whose number stands at the place given.
pub enum Within {
    Number,
    Record { number: usize, j: usize },
}

/// None behind the sets.
pub fn within_set(i: usize) -> Option<Within> {
    let set = [Set::Copies, Set::Writes, Set::Reads]
        .into_iter()
        .find(|set| set.base() <= i)?;
    let records = set.record(0);
    if VECTORS <= i {
        return None;
    }
    Some(if i < records {
        Within::Number
    } else {
        let (item, j) = ((i - records) / RECORD_WORDS, (i - records) % RECORD_WORDS);
        Within::Record {
            number: set.number(item),
            j,
        }
    })
}

/// The home of a name.
fn home(name: u64) -> usize {
    (name / 1024) as usize
}

/// Where a server's part has what is in the row of a name's slot: the node, the flag's lock, the table, the nodes' locks.
fn row_at(sizes: Sizes, server: usize, name: u64) -> usize {
    server_at(sizes, server) + ROWS + ROW_WORDS * (name % 1024) as usize
}

pub fn node_at(sizes: Sizes, name: u64) -> usize {
    row_at(sizes, home(name), name)
}

/// The versions in a server's table, of all servers' nodes.
pub fn table_at(sizes: Sizes, server: usize) -> Vec<usize> {
    let row = |slot| row_at(sizes, server, slot as u64) + 34;
    let rows = (0..sizes.slots).map(row);
    rows.flat_map(|first| first..first + MAX_SERVERS).collect()
}

/// An object's lock at a server.
pub fn lock_at(sizes: Sizes, server: usize, object: u64) -> usize {
    match object {
        METADATA => server_at(sizes, server) + METADATA_LOCK,
        1..=8192 => row_at(sizes, server, object - 1) + 42 + home(object - 1),
        _ => row_at(sizes, server, object - 8193) + 33,
    }
}

/// The version that a server compares with the one read: the metadata's, an inner node's in the table, another node's own.
pub fn version_at(sizes: Sizes, server: usize, object: u64, inner: bool) -> usize {
    match object {
        METADATA => server_at(sizes, server) + METADATA_VERSION,
        _ if inner => row_at(sizes, server, object - 1) + 34 + home(object - 1),
        _ => node_at(sizes, object - 1) + VERSION,
    }
}

/// A client's copy of a server's vector: whether there is one, then its words.
pub fn vector_copy_at(sizes: Sizes, client: usize, server: usize) -> usize {
    client_at(sizes, client) + VECTORS + 17 * server
}

/// Where an item of a set stands: its object's number, and its record.
#[derive(Clone, Copy)]
pub struct Item {
    pub number: usize,
    pub record: usize,
}

/// The items that a set has, in order.
pub fn items(memory: &[u8], sizes: Sizes, client: usize, set: Set) -> Vec<Item> {
    let field = |i| word(memory, client_at(sizes, client) + i) as usize;
    let count = match set {
        Set::Reads => field(READS),
        Set::Writes => field(WRITES),
        Set::Copies => set.limit(),
    };
    let first = client_at(sizes, client);
    let item = |i| Item {
        number: first + set.number(i),
        record: first + set.record(i),
    };
    (0..count).map(item).collect()
}

/// The byte at which the clients' parts begin.
pub fn clients_from(sizes: Sizes) -> usize {
    8 * client_at(sizes, 0)
}

/// The states by a server's own metadata.
fn states(memory: &[u8], sizes: Sizes, server: usize) -> u64 {
    word(memory, server_at(sizes, server) + STATES)
}

/// The servers that their own metadata doesn't call absent.
pub fn present(memory: &[u8], sizes: Sizes) -> Vec<usize> {
    let is_there = |server: &usize| states(memory, sizes, *server) >> server & 1 == 1;
    (0..MAX_SERVERS).filter(is_there).collect()
}

/// Those of them that are open.
pub fn open(memory: &[u8], sizes: Sizes) -> Vec<usize> {
    let mut open = present(memory, sizes);
    open.retain(|server| states(memory, sizes, *server) >> (8 + server) & 1 == 1);
    open
}

/// The root that all servers that are there name.
fn root(memory: &[u8], sizes: Sizes) -> u64 {
    let by = |server: usize| word(memory, server_at(sizes, server) + ROOT);
    let servers = present(memory, sizes);
    for server in &servers {
        assert_eq!(by(*server), by(servers[0]), "the root by server {server}");
    }
    by(servers[0])
}

/// The pairs of the leaves, left to right, under that root. Fails where they are no B-tree.
pub fn pairs(memory: &[u8], sizes: Sizes) -> Vec<(u64, u64)> {
    let root = root(memory, sizes);
    let mut out = Vec::new();
    let level = word(memory, node_at(sizes, root) + 1);
    below(memory, sizes, root, level, true, &mut out);
    assert!(out.windows(2).all(|w| w[0].0 < w[1].0), "keys rise");
    out
}

/// The leaf that a key belongs to.
pub fn leaf_of(memory: &[u8], sizes: Sizes, key: u64) -> u64 {
    let mut name = root(memory, sizes);
    loop {
        let at = node_at(sizes, name);
        if word(memory, at + LEVEL) == 0 {
            return name;
        }
        let count = word(memory, at + COUNT) as usize;
        let keys = at + KEYS.start..at + KEYS.start + count;
        let place = keys.filter(|k| word(memory, *k) <= key).count();
        name = word(memory, at + SLOTS.start + place);
    }
}

fn below(
    memory: &[u8],
    sizes: Sizes,
    name: u64,
    level: u64,
    root: bool,
    out: &mut Vec<(u64, u64)>,
) {
    let at = node_at(sizes, name);
    let count = word(memory, at + 3) as usize;
    assert_eq!(
        word(memory, at),
        if level == 0 { 1 } else { 2 },
        "the kind of node {name}"
    );
    assert_eq!(word(memory, at + 1), level, "the level of node {name}");
    assert!(
        present(memory, sizes).contains(&home(name)),
        "node {name} is on a server that is there"
    );
    let least = if !root { 7 } else { (level > 0) as usize };
    assert!(
        (least..=14).contains(&count),
        "node {name} has {count} keys"
    );
    let key = |i: usize| word(memory, at + 4 + i);
    let slot = |i: usize| word(memory, at + 18 + i);
    if level == 0 {
        out.extend((0..count).map(|i| (key(i), slot(i))));
        return;
    }
    for i in 0..=count {
        below(memory, sizes, slot(i), level - 1, false, out);
    }
}

/// The things that damage is done to, each with a place of one word, chosen at random.
pub const TARGETS: [&str; 12] = [
    "the head",
    "metadata",
    "a vector",
    "a node",
    "a flag's lock",
    "a table",
    "a node's lock",
    "a client's state",
    "a read set",
    "a write set",
    "copies of nodes",
    "copies of vectors",
];

pub fn place(random: &mut Random, sizes: Sizes, target: usize) -> usize {
    let any = random.index(MAX_SERVERS);
    let opened = random.index(sizes.servers);
    let server = server_at(sizes, random.pick(&[opened, opened, any]));
    let row = server + ROWS + ROW_WORDS * low(random, sizes.slots);
    let client = client_at(sizes, random.index(sizes.clients));
    let within = |random: &mut Random, range: Range<usize>| range.start + random.index(range.len());
    let items = |random: &mut Random, set: Set| {
        let i = low(random, set.limit());
        match random.index(1 + RECORD_WORDS) {
            0 => set.number(i),
            j => set.record(i) + j - 1,
        }
    };
    match target {
        0 => random.index(HEAD_WORDS),
        1 => server + random.index(VECTOR),
        2 => server + VECTOR + random.index(sizes.slots.div_ceil(64)),
        3 => row + random.index(33),
        4 => row + 33,
        5 => row + 34 + random.index(MAX_SERVERS),
        6 => row + 42 + random.index(MAX_SERVERS),
        7 => client + random.index(15),
        8 => client + items(random, Set::Reads),
        9 => client + items(random, Set::Writes),
        10 => client + items(random, Set::Copies),
        _ => client + within(random, VECTORS..CLIENT_WORDS),
    }
}

/// An index below n, mostly a low one: that is where most is stored.
fn low(random: &mut Random, n: usize) -> usize {
    let bound = if random.percent(80) { n.min(8) } else { n };
    random.index(bound)
}
