//! A store's memory, looked at: servers with their state, metadata, nodes, tables, flags and locks; clients with their transactions and copies.
//!
//! Nothing is changed and nothing is trusted: what no step could have left there is shown as [`OutOfRange`], and no memory makes a look panic.
//! In the sources of this crate only this file knows the layout of docs/DECISIONS.md, 8.
//!
//! ```
//! use gemandrolo::{inspect::View, Sizes, Store};
//!
//! let mut store = Store::new(Sizes { servers: 2, slots: 8, clients: 1 }).unwrap();
//! store.transaction(0, 1, |t| t.insert(40, 55)).unwrap();
//! let view = View::of(store.memory()).unwrap();
//! assert_eq!(view.pairs(), Ok(vec![(40, 55)]));
//! ```

use crate::{Operation, Refusal, Sizes, MAX_PAIRS, MAX_SERVERS};
use std::fmt;

// ---- 8.6: the whole, in words of eight bytes

const HEAD_WORDS: usize = 8;

// ---- 8.5: a client's part

const CLIENT_WORDS: usize = 7223;
const PHASE: usize = 0;
/// Number, key, value, server.
const OPERATION: usize = 1;
const PARTICIPANTS: usize = 5;
const PREPARED: usize = 6;
const APPLIED: usize = 7;
const VECTORS_FETCHED: usize = 8;
const LOST: usize = 9;
/// The servers' states (0: there is none), root, version.
const METADATA_COPY: usize = 12;
/// Whether there is one, then its words; so for each server.
const VECTOR_COPIES: usize = 7087;
const VECTOR_COPY_WORDS: usize = 17;
const READ_SET: Places = Places {
    first: 15,
    room: 96,
};
const READ_COUNT: usize = 10;
const WRITE_SET: Places = Places {
    first: 3279,
    room: 48,
};
const WRITE_COUNT: usize = 11;
const NODE_COPIES: Places = Places {
    first: 4911,
    room: 64,
};

/// Places for objects: their numbers side by side, then their records.
#[derive(Clone, Copy)]
struct Places {
    first: usize,
    room: usize,
}

impl Places {
    fn number(self, place: usize) -> usize {
        self.first + place
    }

    fn record(self, place: usize) -> usize {
        self.first + self.room + RECORD_WORDS * place
    }
}

// ---- 8.1: a server's part

const ROOT: usize = 0;
const METADATA_VERSION: usize = 1;
const STATES: usize = 2;
const METADATA_LOCK: usize = 3;
const VECTOR: usize = 4;
const ROWS: usize = 20;
/// A row for each slot number: this server's node, its flag's lock, and for the nodes with that slot number of all servers versions and locks.
const ROW_WORDS: usize = 50;
const FLAG_LOCK: usize = 33;
const TABLE: usize = 34;
const NODE_LOCKS: usize = 42;

fn server_words(sizes: Sizes) -> usize {
    ROWS + ROW_WORDS * sizes.slots
}

// ---- a record, a node's form

const RECORD_WORDS: usize = 33;
const KIND: usize = 0;
const LEVEL: usize = 1;
const VERSION: usize = 2;
const COUNT: usize = 3;
const KEYS: usize = 4;
const MOST_KEYS: usize = 14;
/// Values or children. The root's name and a flag stand in the first, the servers' states in the second.
const SLOTS: usize = 18;

// ---- 8.7: the servers' states in one word, bit s for a server that is not absent, bit 8 + s for one that is open

const OPEN_BITS: u32 = 8;
const END_OF_STATES: u64 = 65_536;

// ---- 8.2 and 8.3: locks and objects as numbers

const FIRST_WRITER: u64 = 65_536;
const METADATA_NUMBER: u64 = 0;
const FIRST_NODE: u64 = 1;
const FIRST_FLAG: u64 = 8193;
const SLOTS_OF_A_NAME: u64 = 1024;

/// Words of the memory, or of a part of it.
#[derive(Clone, Copy, Debug)]
struct Words<'m>(&'m [[u8; 8]]);

impl<'m> Words<'m> {
    fn of(memory: &'m [u8]) -> Words<'m> {
        Words(memory.as_chunks().0)
    }

    /// One word. What is not there reads as all ones, which is out of range wherever there is a range.
    fn at(self, i: usize) -> u64 {
        self.0
            .get(i)
            .map_or(u64::MAX, |bytes| u64::from_le_bytes(*bytes))
    }

    fn part(self, first: usize, words: usize) -> Words<'m> {
        let behind = self.0.get(first..).unwrap_or_default();
        Words(behind.get(..words).unwrap_or(behind))
    }
}

/// The sizes that stand in the head, whatever they are.
pub(crate) fn sizes_in_head(memory: &[u8]) -> Sizes {
    let words = Words::of(memory);
    let size = |i| usize::try_from(words.at(i)).unwrap_or(usize::MAX);
    Sizes {
        servers: size(0),
        slots: size(1),
        clients: size(2),
    }
}

/// A word that no step could have left there.
#[derive(Clone, Copy, Debug, PartialEq, Eq, Hash, PartialOrd, Ord)]
pub struct OutOfRange(pub u64);

/// What a word says, or the word itself where it is out of range.
pub type Field<T> = Result<T, OutOfRange>;

/// A node's name: its home server and its slot there.
#[derive(Clone, Copy, Debug, PartialEq, Eq, Hash, PartialOrd, Ord)]
pub struct Name {
    server: usize,
    slot: usize,
}

impl Name {
    pub fn server(self) -> usize {
        self.server
    }

    pub fn slot(self) -> usize {
        self.slot
    }

    /// Server times 1,024 plus slot.
    pub fn number(self) -> u64 {
        SLOTS_OF_A_NAME * self.server as u64 + self.slot as u64
    }
}

/// What is read, checked, locked and written as one. The order is that of checking.
#[derive(Clone, Copy, Debug, PartialEq, Eq, Hash, PartialOrd, Ord)]
pub enum Object {
    Metadata,
    Node(Name),
    /// The taken flag of a node's slot.
    Flag(Name),
}

/// Servers or clients, by number.
#[derive(Clone, Copy, Debug, PartialEq, Eq, Hash)]
pub struct Members(u64);

impl Members {
    pub fn contains(self, number: usize) -> bool {
        number < 64 && self.0 >> number & 1 == 1
    }

    pub fn iter(self) -> impl Iterator<Item = usize> {
        (0..64).filter(move |i| self.contains(*i))
    }

    pub fn is_empty(self) -> bool {
        self.0 == 0
    }

    fn of(word: u64, among: usize) -> Field<Members> {
        let members = Members(word);
        match members.iter().all(|i| i < among) {
            true => Ok(members),
            false => Err(OutOfRange(word)),
        }
    }
}

/// What the metadata calls a server.
#[derive(Clone, Copy, Debug, PartialEq, Eq, Hash)]
pub enum ServerState {
    /// It takes part in nothing.
    Absent,
    Open,
    /// It gets no new nodes.
    Closing,
}

/// The state of each server, by one metadata.
#[derive(Clone, Copy, Debug, PartialEq, Eq, Hash)]
pub struct States(u64);

impl States {
    /// Those of a word in which one server at least is not absent.
    fn of(word: u64) -> Field<States> {
        let states = States(word);
        match word < END_OF_STATES && !states.present().is_empty() {
            true => Ok(states),
            false => Err(OutOfRange(word)),
        }
    }

    pub fn server(self, number: usize) -> ServerState {
        if self.open().contains(number) {
            ServerState::Open
        } else if self.present().contains(number) {
            ServerState::Closing
        } else {
            ServerState::Absent
        }
    }

    /// The servers that are not absent.
    pub fn present(self) -> Members {
        Members(self.0 % (1 << OPEN_BITS))
    }

    /// The servers that are open.
    pub fn open(self) -> Members {
        Members(self.present().0 & self.0 >> OPEN_BITS)
    }
}

/// Who may use an object: many readers, or one writer and nobody else.
#[derive(Clone, Copy, Debug, PartialEq, Eq, Hash)]
pub enum Lock {
    Free,
    Readers(Members),
    Writer(usize),
}

impl Lock {
    fn of(word: u64, clients: usize) -> Field<Lock> {
        match word.checked_sub(FIRST_WRITER) {
            Some(client) if client < clients as u64 => Ok(Lock::Writer(client as usize)),
            Some(_) => Err(OutOfRange(word)),
            None if word == 0 => Ok(Lock::Free),
            None => Members::of(word, clients).map(Lock::Readers),
        }
    }

    /// The clients that hold it.
    pub fn holders(self) -> Members {
        match self {
            Lock::Free => Members(0),
            Lock::Readers(clients) => clients,
            Lock::Writer(client) => Members(1 << (client & 63)),
        }
    }
}

/// Where the tree begins, and which servers there are.
#[derive(Clone, Debug, PartialEq, Eq)]
pub struct Metadata {
    pub root: Field<Name>,
    pub version: Field<u32>,
    pub states: Field<States>,
}

#[derive(Clone, Debug, PartialEq, Eq)]
pub struct Node {
    pub version: Field<u32>,
    pub body: Body,
}

#[derive(Clone, Debug, PartialEq, Eq)]
pub enum Body {
    Free,
    Leaf {
        pairs: Vec<(u64, u64)>,
    },
    /// One child more than keys.
    Inner {
        level: u64,
        keys: Vec<u64>,
        children: Vec<Field<Name>>,
    },
    /// Kind, level and count do not fit together.
    OutOfRange {
        kind: u64,
        level: u64,
        count: u64,
    },
}

impl Body {
    fn of(record: Words, sizes: Sizes) -> Body {
        let (kind, level, count) = (record.at(KIND), record.at(LEVEL), record.at(COUNT));
        let key = |i| record.at(KEYS + i);
        let slot = |i| record.at(SLOTS + i);
        match (kind, level, usize::try_from(count)) {
            (0, 0, Ok(0)) => Body::Free,
            (1, 0, Ok(count @ ..=MOST_KEYS)) => Body::Leaf {
                pairs: (0..count).map(|i| (key(i), slot(i))).collect(),
            },
            (2, 1..=4, Ok(count @ ..=MOST_KEYS)) => Body::Inner {
                level,
                keys: (0..count).map(key).collect(),
                children: (0..=count).map(|i| name(slot(i), sizes)).collect(),
            },
            _ => Body::OutOfRange { kind, level, count },
        }
    }
}

impl Node {
    fn of(record: Words, sizes: Sizes) -> Node {
        Node {
            version: version(record.at(VERSION)),
            body: Body::of(record, sizes),
        }
    }
}

fn name(word: u64, sizes: Sizes) -> Field<Name> {
    let (server, slot) = (word / SLOTS_OF_A_NAME, word % SLOTS_OF_A_NAME);
    match server < MAX_SERVERS as u64 && slot < sizes.slots as u64 {
        true => Ok(Name {
            server: server as usize,
            slot: slot as usize,
        }),
        false => Err(OutOfRange(word)),
    }
}

fn names(sizes: Sizes) -> impl Iterator<Item = Name> {
    let home = move |server| (0..sizes.slots).map(move |slot| Name { server, slot });
    (0..MAX_SERVERS).flat_map(home)
}

fn version(word: u64) -> Field<u32> {
    u32::try_from(word).map_err(|_| OutOfRange(word))
}

fn flag(word: u64) -> Field<bool> {
    match word {
        0 => Ok(false),
        1 => Ok(true),
        _ => Err(OutOfRange(word)),
    }
}

/// The flag of a slot in a vector's words.
fn bit(vector: Words, slot: usize) -> bool {
    vector.at(slot / 64) >> (slot % 64) & 1 == 1
}

/// A server's flags: which of its slots are taken.
#[derive(Clone, Debug, PartialEq, Eq)]
pub struct Vector(Vec<bool>);

impl Vector {
    fn of(words: Words, sizes: Sizes) -> Vector {
        Vector((0..sizes.slots).map(|slot| bit(words, slot)).collect())
    }

    pub fn is_taken(&self, slot: usize) -> bool {
        self.0.get(slot) == Some(&true)
    }

    /// The slots that are taken, rising.
    pub fn taken(&self) -> impl Iterator<Item = usize> + '_ {
        (0..self.0.len()).filter(|slot| self.is_taken(*slot))
    }
}

/// An object with its value. In a write set no version counts: the one written is the one read plus 1.
#[derive(Clone, Debug, PartialEq, Eq)]
pub enum Item {
    Metadata(Metadata),
    Node(Name, Node),
    /// Whether the slot is taken.
    Flag(Name, Field<bool>),
}

impl Item {
    pub fn object(&self) -> Object {
        match self {
            Item::Metadata(_) => Object::Metadata,
            Item::Node(name, _) => Object::Node(*name),
            Item::Flag(name, _) => Object::Flag(*name),
        }
    }

    fn of(number: u64, record: Words, sizes: Sizes) -> Field<Item> {
        let out = OutOfRange(number);
        let named = |first: u64| name(number.wrapping_sub(first), sizes).map_err(|_| out);
        match number {
            METADATA_NUMBER => Ok(Item::Metadata(Metadata {
                root: name(record.at(SLOTS), sizes),
                version: version(record.at(VERSION)),
                states: States::of(record.at(SLOTS + 1)),
            })),
            FIRST_NODE..FIRST_FLAG => Ok(Item::Node(named(FIRST_NODE)?, Node::of(record, sizes))),
            FIRST_FLAG.. => Ok(Item::Flag(named(FIRST_FLAG)?, flag(record.at(SLOTS)))),
        }
    }
}

/// Why the leaves under the root can't be read as those of one tree.
#[derive(Clone, Copy, Debug, PartialEq, Eq)]
pub enum NoTree {
    /// The servers that are there do not all name the same root, or there is none.
    Roots,
    /// A root's or child's name is none of the store.
    Name(OutOfRange),
    /// The root is free, or the node is not one level below its parent.
    Node(Name),
}

/// A look at a whole store.
#[derive(Clone, Copy, Debug)]
pub struct View<'m> {
    words: Words<'m>,
    sizes: Sizes,
}

impl<'m> View<'m> {
    /// The store in this memory, refused as a step on it would be: by 1, 2 or 3.
    pub fn of(memory: &'m [u8]) -> Result<View<'m>, Refusal> {
        let (words, sizes) = (Words::of(memory), sizes_in_head(memory));
        if words.0.len() < HEAD_WORDS {
            return Err(Refusal::NoHead);
        }
        match sizes.length() {
            None => Err(Refusal::Sizes),
            Some(bytes) if memory.len() < bytes => Err(Refusal::TooShort),
            Some(_) => Ok(View { words, sizes }),
        }
    }

    pub fn sizes(&self) -> Sizes {
        self.sizes
    }

    /// A server, 0 to 7. An absent one is shown too.
    pub fn server(&self, number: usize) -> Option<Server<'m>> {
        let (sizes, words) = (self.sizes, server_words(self.sizes));
        (number < MAX_SERVERS).then(|| Server {
            number,
            words: self.words.part(HEAD_WORDS + words * number, words),
            sizes,
        })
    }

    pub fn client(&self, number: usize) -> Option<Client<'m>> {
        let before = HEAD_WORDS + server_words(self.sizes) * MAX_SERVERS;
        (number < self.sizes.clients).then(|| Client {
            number,
            words: self
                .words
                .part(before + CLIENT_WORDS * number, CLIENT_WORDS),
            view: *self,
        })
    }

    /// All eight, absent ones too; [`Server::state`] tells which they are.
    pub fn servers(&self) -> impl Iterator<Item = Server<'m>> {
        let view = *self;
        (0..MAX_SERVERS).filter_map(move |number| view.server(number))
    }

    /// The server that a client fetches the metadata from: the first that is not absent, counting up and round from the client's number modulo
    /// the servers that the store was opened with.
    pub fn metadata_source(&self, client: usize) -> Option<Server<'m>> {
        let first = client % self.sizes.servers.max(1);
        let round = (first..first + MAX_SERVERS).map(|number| number % MAX_SERVERS);
        let view = *self;
        round
            .filter_map(|number| view.server(number))
            .find(Server::is_there)
    }

    pub fn clients(&self) -> impl Iterator<Item = Client<'m>> {
        let view = *self;
        (0..self.sizes.clients).filter_map(move |number| view.client(number))
    }

    /// The clients whose transaction is prepared at a server, or decided and not ended. While there is one, no server is added, closed or removed.
    pub fn unended(&self) -> Members {
        let unended = self.clients().filter(|client| match client.phase() {
            Ok(Phase::Committing) => client.prepared().is_ok_and(|servers| !servers.is_empty()),
            phase => phase == Ok(Phase::Decided),
        });
        Members(unended.fold(0, |clients, client| clients | 1 << client.number()))
    }

    /// All names of the store, rising: those of eight servers.
    pub fn names(&self) -> impl Iterator<Item = Name> {
        names(self.sizes)
    }

    /// The node of that name as its home has it.
    pub fn node(&self, name: Name) -> Option<Node> {
        self.server(name.server)?.node(name.slot)
    }

    /// The pairs of the leaves, left to right, under the root that all servers name that are there.
    pub fn pairs(&self) -> Result<Vec<(u64, u64)>, NoTree> {
        let there = self.servers().filter(Server::is_there);
        let mut roots = there.map(|server| server.metadata().root);
        let root = roots.next().ok_or(NoTree::Roots)?;
        if roots.any(|other| other != root) {
            return Err(NoTree::Roots);
        }
        let mut pairs = Vec::new();
        self.below(root, None, &mut pairs)?;
        Ok(pairs)
    }

    /// The pairs under a child; `above` is its parent's level. Levels fall, so this ends on any memory.
    fn below(
        &self,
        child: Field<Name>,
        above: Option<u64>,
        pairs: &mut Vec<(u64, u64)>,
    ) -> Result<(), NoTree> {
        let name = child.map_err(NoTree::Name)?;
        let fits = |level: u64| above.is_none_or(|above| above == level + 1);
        match self.node(name).map(|node| node.body) {
            Some(Body::Leaf { pairs: here }) if fits(0) => pairs.extend(here),
            Some(Body::Inner {
                level, children, ..
            }) if fits(level) => {
                for child in children {
                    self.below(child, Some(level), pairs)?;
                }
            }
            _ => return Err(NoTree::Node(name)),
        }
        Ok(())
    }
}

/// A look at one server's part.
#[derive(Clone, Copy, Debug)]
pub struct Server<'m> {
    number: usize,
    words: Words<'m>,
    sizes: Sizes,
}

impl<'m> Server<'m> {
    pub fn number(&self) -> usize {
        self.number
    }

    pub fn metadata(&self) -> Metadata {
        Metadata {
            root: name(self.words.at(ROOT), self.sizes),
            version: version(self.words.at(METADATA_VERSION)),
            states: States::of(self.words.at(STATES)),
        }
    }

    /// What its own metadata calls it, which is what it is. Steps go by these bits, whether or not the rest of the word is in range.
    pub fn state(&self) -> ServerState {
        States(self.words.at(STATES)).server(self.number)
    }

    /// Whether it is not absent.
    pub fn is_there(&self) -> bool {
        self.state() != ServerState::Absent
    }

    /// The flags of this server's slots.
    pub fn vector(&self) -> Vector {
        Vector::of(self.flags(), self.sizes)
    }

    /// The flag of one slot.
    pub fn is_taken(&self, slot: usize) -> bool {
        slot < self.sizes.slots && bit(self.flags(), slot)
    }

    /// The names of the slots that are taken, rising.
    pub fn taken(&self) -> impl Iterator<Item = Name> + 'm {
        let server = *self;
        let slots = (0..server.sizes.slots).filter(move |slot| server.is_taken(*slot));
        slots.map(move |slot| Name {
            server: server.number,
            slot,
        })
    }

    fn flags(&self) -> Words<'m> {
        self.words.part(VECTOR, ROWS - VECTOR)
    }

    /// The node in this server's slot.
    pub fn node(&self, slot: usize) -> Option<Node> {
        let row = self.row(slot)?;
        Some(Node::of(row.part(0, RECORD_WORDS), self.sizes))
    }

    /// The version that this server's table has for a node of any server. It is kept current for inner nodes only.
    pub fn table(&self, name: Name) -> Option<Field<u32>> {
        Some(version(self.row(name.slot)?.at(TABLE + name.server)))
    }

    /// The lock of an object at this server. Flags are locked at home only.
    pub fn lock(&self, object: Object) -> Field<Lock> {
        let row = |name: Name| self.row(name.slot).unwrap_or(Words(&[]));
        let word = match object {
            Object::Metadata => self.words.at(METADATA_LOCK),
            Object::Node(name) => row(name).at(NODE_LOCKS + name.server),
            Object::Flag(name) if name.server == self.number => row(name).at(FLAG_LOCK),
            Object::Flag(_) => 0,
        };
        Lock::of(word, self.sizes.clients)
    }

    /// The objects whose locks here are held or out of range, in the order of checking.
    pub fn locks(&self) -> Vec<(Object, Field<Lock>)> {
        let flags = names(self.sizes).filter(|name| name.server == self.number);
        std::iter::once(Object::Metadata)
            .chain(names(self.sizes).map(Object::Node))
            .chain(flags.map(Object::Flag))
            .map(|object| (object, self.lock(object)))
            .filter(|(_, lock)| *lock != Ok(Lock::Free))
            .collect()
    }

    fn row(&self, slot: usize) -> Option<Words<'m>> {
        let row = |slot| self.words.part(ROWS + ROW_WORDS * slot, ROW_WORDS);
        (slot < self.sizes.slots).then(|| row(slot))
    }
}

/// Where a client's transaction stands.
#[derive(Clone, Copy, Debug, PartialEq, Eq, Hash)]
pub enum Phase {
    /// There is none.
    Idle,
    Open,
    /// After the commit, before the decision.
    Committing,
    /// After the decision, before the last apply.
    Decided,
}

/// A look at one client's part.
#[derive(Clone, Copy, Debug)]
pub struct Client<'m> {
    number: usize,
    words: Words<'m>,
    view: View<'m>,
}

impl Client<'_> {
    pub fn number(&self) -> usize {
        self.number
    }

    pub fn phase(&self) -> Field<Phase> {
        match self.words.at(PHASE) {
            0 => Ok(Phase::Idle),
            1 => Ok(Phase::Open),
            2 => Ok(Phase::Committing),
            3 => Ok(Phase::Decided),
            word => Err(OutOfRange(word)),
        }
    }

    /// The operation that waits for its answer.
    pub fn waiting(&self) -> Field<Option<Operation>> {
        let [number, key, value, server] = [0, 1, 2, 3].map(|i| self.words.at(OPERATION + i));
        Ok(Some(match number {
            0 => return Ok(None),
            1 => Operation::Insert { key, value },
            2 => Operation::Lookup { key },
            3 => Operation::Delete { key },
            4 => Operation::Next { key },
            5 => Operation::Previous { key },
            6 => self.migrate(key, server)?,
            7 => list(key, value)?,
            _ => return Err(OutOfRange(number)),
        }))
    }

    fn migrate(&self, node: u64, server: u64) -> Field<Operation> {
        name(node, self.view.sizes)?;
        match server < MAX_SERVERS as u64 {
            true => Ok(Operation::Migrate { node, server }),
            false => Err(OutOfRange(server)),
        }
    }

    /// The servers that take part.
    pub fn participants(&self) -> Field<Members> {
        self.servers(PARTICIPANTS)
    }

    pub fn prepared(&self) -> Field<Members> {
        self.servers(PREPARED)
    }

    pub fn applied(&self) -> Field<Members> {
        self.servers(APPLIED)
    }

    /// The servers whose vectors this transaction has fetched.
    pub fn vectors_fetched(&self) -> Field<Members> {
        self.servers(VECTORS_FETCHED)
    }

    fn servers(&self, word: usize) -> Field<Members> {
        Members::of(self.words.at(word), MAX_SERVERS)
    }

    /// Whether the client was lost after its decision.
    pub fn is_lost(&self) -> Field<bool> {
        flag(self.words.at(LOST))
    }

    /// The read set, in the order of reading.
    pub fn reads(&self) -> Field<Vec<Field<Item>>> {
        self.set(READ_SET, READ_COUNT)
    }

    /// The write set.
    pub fn writes(&self) -> Field<Vec<Field<Item>>> {
        self.set(WRITE_SET, WRITE_COUNT)
    }

    fn set(&self, places: Places, count: usize) -> Field<Vec<Field<Item>>> {
        let word = self.words.at(count);
        match usize::try_from(word) {
            Ok(count) if count <= places.room => {
                Ok((0..count).map(|i| self.item(places, i)).collect())
            }
            _ => Err(OutOfRange(word)),
        }
    }

    fn item(&self, places: Places, place: usize) -> Field<Item> {
        let number = self.words.at(places.number(place));
        let record = self.words.part(places.record(place), RECORD_WORDS);
        Item::of(number, record, self.view.sizes)
    }

    /// The copy of the metadata.
    pub fn metadata_copy(&self) -> Option<Metadata> {
        let [states, root, at] = [0, 1, 2].map(|i| self.words.at(METADATA_COPY + i));
        (states != 0).then(|| Metadata {
            root: name(root, self.view.sizes),
            version: version(at),
            states: States::of(states),
        })
    }

    /// The copies of inner nodes.
    pub fn node_copies(&self) -> impl Iterator<Item = Field<(Name, Node)>> + '_ {
        let number = |place: usize| self.words.at(NODE_COPIES.number(place));
        let copy = move |place| match self.item(NODE_COPIES, place)? {
            Item::Node(name, node) => Ok((name, node)),
            _ => Err(OutOfRange(number(place))),
        };
        (0..NODE_COPIES.room)
            .filter(move |place| number(*place) != 0)
            .map(copy)
    }

    /// The copy of a server's vector.
    pub fn vector_copy(&self, server: usize) -> Field<Option<Vector>> {
        if server >= MAX_SERVERS {
            return Ok(None);
        }
        let words = VECTOR_COPIES + VECTOR_COPY_WORDS * server;
        let copy = self.words.part(words, VECTOR_COPY_WORDS);
        let flags = copy.part(1, VECTOR_COPY_WORDS - 1);
        Ok(flag(copy.at(0))?.then(|| Vector::of(flags, self.view.sizes)))
    }

    /// Whether what the client read or copied is behind the server that it fetches the object from: the version there is higher or, of a
    /// flag, the value another.
    pub fn is_old(&self, item: &Item) -> Field<bool> {
        match item {
            Item::Metadata(read) => {
                let source = self.view.metadata_source(self.number);
                behind(read.version, source.map(|s| s.metadata().version))
            }
            Item::Node(name, read) => {
                behind(read.version, self.view.node(*name).map(|n| n.version))
            }
            Item::Flag(name, read) => {
                let home = self.view.server(name.server);
                Ok((*read)? != home.is_some_and(|s| s.is_taken(name.slot)))
            }
        }
    }
}

fn list(key: u64, count: u64) -> Field<Operation> {
    match (1..=MAX_PAIRS as u64).contains(&count) {
        true => Ok(Operation::List { key, count }),
        false => Err(OutOfRange(count)),
    }
}

fn behind(read: Field<u32>, there: Option<Field<u32>>) -> Field<bool> {
    Ok(read? < there.unwrap_or(Err(OutOfRange(u64::MAX)))?)
}

impl fmt::Display for Name {
    fn fmt(&self, f: &mut fmt::Formatter) -> fmt::Result {
        self.number().fmt(f)
    }
}

impl fmt::Display for OutOfRange {
    fn fmt(&self, f: &mut fmt::Formatter) -> fmt::Result {
        write!(f, "out of range: {}", self.0)
    }
}
