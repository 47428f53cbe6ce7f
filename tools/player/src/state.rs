//! What there is to see of a store at one moment, as single things, each at a place of its own, so that a step's changes are the places where
//! two moments differ. What every new store has (free slots, free locks, versions 0 in tables) is left out.

use crate::ledger::{Asked, Ledger, Transaction};
use gemandrolo::inspect::{
    Body, Client, Field, Item, Lock, Members, Metadata, Name, Node, Object, Phase, Server, Vector,
    View,
};
use gemandrolo::Operation;
use std::collections::BTreeMap;
use std::rc::Rc;

pub type State = BTreeMap<Place, Content>;

#[derive(Clone, Copy, Debug, PartialEq, Eq, PartialOrd, Ord)]
pub enum Place {
    /// The metadata of a server that is not absent.
    Metadata(usize),
    /// A node at its home.
    Node(Name),
    /// The flag of a slot that is taken.
    Taken(Name),
    /// A lock at a server.
    Lock(usize, Object),
    /// A version in a server's table.
    Table(usize, Name),
    Client(usize),
    /// An operation of a client's transaction, by its turn.
    Asked(usize, usize),
    Read(usize, Object),
    Write(usize, Object),
    Copy(usize, Copied),
    /// A key of the map.
    Key(u64),
    /// A decided transaction, by its turn.
    Decided(usize),
}

/// What a client keeps copies of.
#[derive(Clone, Copy, Debug, PartialEq, Eq, PartialOrd, Ord)]
pub enum Copied {
    Metadata,
    Node(Name),
    /// A server's vector.
    Vector(usize),
}

#[derive(Clone, Debug, PartialEq)]
pub enum Content {
    Metadata(Metadata),
    Node(Node),
    Taken,
    Lock(Field<Lock>),
    Version(Field<u32>),
    Client(Standing),
    Asked(Asked),
    /// What was read or copied, and whether the server has a newer one by now.
    Held {
        item: Item,
        old: bool,
    },
    Write(Item),
    Vector {
        vector: Vector,
        old: bool,
    },
    Value(u64),
    Decided(Rc<Transaction>),
}

/// Where a client's transaction stands.
#[derive(Clone, Debug, PartialEq)]
pub struct Standing {
    pub phase: Field<Phase>,
    pub waiting: Field<Option<Operation>>,
    pub participants: Field<Members>,
    pub prepared: Field<Members>,
    pub applied: Field<Members>,
    pub lost: Field<bool>,
}

/// Whether a server is not absent.
pub fn is_there(state: &State, server: u64) -> bool {
    let number = usize::try_from(server).unwrap_or(usize::MAX);
    state.contains_key(&Place::Metadata(number))
}

pub fn state(view: &View, ledger: &Ledger) -> State {
    let mut state = State::new();
    for server in view.servers() {
        see_server(&mut state, view, &server);
    }
    for client in view.clients() {
        see_client(&mut state, view, &client);
    }
    see_ledger(&mut state, ledger);
    state
}

fn see_server(state: &mut State, view: &View, server: &Server) {
    let number = server.number();
    if server.is_there() {
        let metadata = Content::Metadata(server.metadata());
        state.insert(Place::Metadata(number), metadata);
    }
    for (object, lock) in server.locks() {
        state.insert(Place::Lock(number, object), Content::Lock(lock));
    }
    for name in view.names() {
        if let Some(version) = server.table(name).filter(|version| *version != Ok(0)) {
            state.insert(Place::Table(number, name), Content::Version(version));
        }
    }
    for name in view.names().filter(|name| name.server() == number) {
        let untouched = |node: &Node| node.body == Body::Free && node.version == Ok(0);
        if let Some(node) = server.node(name.slot()).filter(|node| !untouched(node)) {
            state.insert(Place::Node(name), Content::Node(node));
        }
        if server.is_taken(name.slot()) {
            state.insert(Place::Taken(name), Content::Taken);
        }
    }
}

fn see_client(state: &mut State, view: &View, client: &Client) {
    let number = client.number();
    let standing = Standing {
        phase: client.phase(),
        waiting: client.waiting(),
        participants: client.participants(),
        prepared: client.prepared(),
        applied: client.applied(),
        lost: client.is_lost(),
    };
    state.insert(Place::Client(number), Content::Client(standing));
    let decided = client.phase() == Ok(Phase::Decided);
    for item in client.reads().into_iter().flatten().flatten() {
        let place = Place::Read(number, item.object());
        // What a decided transaction read was current when that counted, and is then changed by its own applies.
        let old = !decided && client.is_old(&item) == Ok(true);
        state.insert(place, Content::Held { item, old });
    }
    for item in client.writes().into_iter().flatten().flatten() {
        let place = Place::Write(number, item.object());
        state.insert(place, Content::Write(item));
    }
    see_copies(state, view, client);
}

fn see_copies(state: &mut State, view: &View, client: &Client) {
    let mut keep = |copied, content| {
        state.insert(Place::Copy(client.number(), copied), content);
    };
    if let Some(metadata) = client.metadata_copy() {
        keep(Copied::Metadata, held(client, Item::Metadata(metadata)));
    }
    for (name, node) in client.node_copies().flatten() {
        keep(Copied::Node(name), held(client, Item::Node(name, node)));
    }
    for server in view.servers() {
        if let Ok(Some(vector)) = client.vector_copy(server.number()) {
            let old = vector != server.vector();
            keep(
                Copied::Vector(server.number()),
                Content::Vector { vector, old },
            );
        }
    }
}

fn held(client: &Client, item: Item) -> Content {
    let old = client.is_old(&item) == Ok(true);
    Content::Held { item, old }
}

fn see_ledger(state: &mut State, ledger: &Ledger) {
    for (client, asked) in &ledger.open {
        for (turn, asked) in asked.iter().enumerate() {
            let place = Place::Asked(*client as usize, turn);
            state.insert(place, Content::Asked(asked.clone()));
        }
    }
    for (key, value) in &ledger.map {
        state.insert(Place::Key(*key), Content::Value(*value));
    }
    for (turn, transaction) in ledger.decided.iter().enumerate() {
        state.insert(Place::Decided(turn), Content::Decided(transaction.clone()));
    }
}
