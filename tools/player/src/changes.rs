//! What a step changed, in words, a sentence for each doer and deed.

use crate::difference::Change;
use crate::state::{Content, Copied, Place};
use crate::words::{listed, servers};
use gemandrolo::inspect::{Body, Field, Lock, Metadata, Name, Node, Object, OutOfRange};
use std::fmt::Display;

/// The sentences for a step of this client, if it is one's.
pub fn words(client: Option<u64>, difference: &[Change]) -> Vec<String> {
    let mut told = Told::default();
    for change in difference {
        told.of(client.map(|client| client as usize), change);
    }
    told.sentences()
}

/// Things of which the same is said, in the order in which they were first met.
#[derive(Default)]
struct Told(Vec<Sentence>);

/// "head thing, thing and thing tail".
struct Sentence {
    head: String,
    things: Vec<String>,
    tail: String,
}

impl Told {
    fn add(&mut self, head: impl Into<String>, thing: String, tail: impl Into<String>) {
        let (head, tail) = (head.into(), tail.into());
        let same = |s: &&mut Sentence| s.head == head && s.tail == tail;
        match self.0.iter_mut().find(same) {
            Some(sentence) => sentence.things.push(thing),
            None => self.0.push(Sentence {
                head,
                things: vec![thing],
                tail,
            }),
        }
    }

    fn sentences(self) -> Vec<String> {
        let words = |s: Sentence| format!("{} {}{}.", s.head, listed(&s.things), s.tail);
        self.0.into_iter().map(words).collect()
    }

    /// What is to be said of one change, in a step of the client `acting`.
    fn of(&mut self, acting: Option<usize>, change: &Change) {
        match change.place {
            Place::Metadata(server) => self.metadata(server, change),
            Place::Node(name) => self.node(name, change),
            Place::Taken(name) => {
                let verb = if change.after.is_some() {
                    "takes"
                } else {
                    "frees"
                };
                let head = format!("Server {} {verb}", name.server());
                self.add(head, format!("slot {}", name.slot()), "");
            }
            Place::Lock(server, object) => self.lock(server, object, change),
            Place::Table(server, name) => self.table(server, name, change),
            Place::Read(client, object) => self.read(client, object, change),
            Place::Write(client, object) if change.after.is_some() => {
                self.add(format!("Tablet {client} would write"), named(object), "");
            }
            Place::Copy(client, copied) => self.copy(client, copied, acting, change),
            Place::Key(key) => {
                let is = match change.after {
                    Some(Content::Value(value)) => value.to_string(),
                    _ => "gone".into(),
                };
                self.add("In the map now:", format!("{key} is {is}"), "");
            }
            Place::Asked(..) => self.listed(change),
            Place::Write(..) | Place::Client(_) | Place::Decided(_) => {}
        }
    }

    fn listed(&mut self, change: &Change) {
        if let Some(Content::Asked(asked)) = &change.after {
            for (key, value) in &asked.pairs {
                self.add("Listed:", format!("{key} is {value}"), "");
            }
        }
    }

    fn metadata(&mut self, server: usize, change: &Change) {
        match (&change.before, &change.after) {
            (old, Some(Content::Metadata(new))) => {
                let states = match old {
                    Some(Content::Metadata(old)) if old.states == new.states => String::new(),
                    _ => format!(", {}", which_servers(new)),
                };
                let (root, version) = (shown(new.root), shown(new.version));
                let thing = format!("the root is node {root}, version {version}{states}");
                self.add(format!("Server {server} stores:"), thing, "");
            }
            _ => self.add("Absent from now on:", format!("server {server}"), ""),
        }
    }

    fn node(&mut self, name: Name, change: &Change) {
        if let Some(Content::Node(node)) = &change.after {
            let head = format!("Server {} stores", name.server());
            self.add(head, stored(name, node), "");
        }
    }

    fn table(&mut self, server: usize, name: Name, change: &Change) {
        if let Some(Content::Version(version)) = &change.after {
            let thing = format!("version {} of node {name}", shown(*version));
            self.add(format!("Server {server} notes in its table"), thing, "");
        }
    }

    fn lock(&mut self, server: usize, object: Object, change: &Change) {
        let (held, holding) = (holders(&change.before), holders(&change.after));
        let writes = matches!(change.after, Some(Content::Lock(Ok(Lock::Writer(_)))));
        let purpose = if writes { "write" } else { "read" };
        for client in holding.iter().filter(|client| !held.contains(client)) {
            let tail = format!(" for tablet {client} to {purpose}");
            self.add(format!("Server {server} locks"), named(object), tail);
        }
        for client in held.iter().filter(|client| !holding.contains(client)) {
            let head = format!("At server {server} tablet {client}'s locks end:");
            self.add(head, named(object), "");
        }
    }

    fn read(&mut self, client: usize, object: Object, change: &Change) {
        if change.before.is_none() {
            self.add(format!("Tablet {client} reads"), named(object), "");
        } else if is_old(&change.after) {
            let thing = format!("what tablet {client} read of {}", named(object));
            self.add("Old from now on:", thing, "");
        }
    }

    /// The copies of the client that applies grow old until its last apply renews them, which goes without saying.
    fn copy(&mut self, client: usize, copied: Copied, acting: Option<usize>, change: &Change) {
        let thing = match copied {
            Copied::Metadata => named(Object::Metadata),
            Copied::Node(name) => named(Object::Node(name)),
            Copied::Vector(server) => format!("server {server}'s vector"),
        };
        let head = |verb: &str| format!("Tablet {client} {verb}");
        match (&change.before, &change.after) {
            (None, _) => self.add(head("keeps a copy of"), thing, ""),
            (_, None) => self.add(head("drops its copy of"), thing, ""),
            (Some(before), Some(after)) if !same_but_for_age(before, after) => {
                self.add(head("renews its copy of"), thing, "");
            }
            _ if Some(client) == acting => {}
            _ => {
                let thing = format!("tablet {client}'s copy of {thing}");
                let old = is_old(&change.after);
                let head = if old {
                    "Old from now on:"
                } else {
                    "No longer old:"
                };
                self.add(head, thing, "");
            }
        }
    }
}

fn stored(name: Name, node: &Node) -> String {
    let version = shown(node.version);
    match &node.body {
        Body::Free => format!("node {name} (free, version {version})"),
        Body::Leaf { pairs } => {
            let count = pairs.len();
            format!("node {name} (a leaf of {count}, version {version})")
        }
        Body::Inner { .. } => format!("node {name} (an inner node, version {version})"),
        Body::OutOfRange { .. } => format!("node {name} (out of range)"),
    }
}

fn which_servers(metadata: &Metadata) -> String {
    match metadata.states {
        Ok(states) => servers(states),
        Err(OutOfRange(word)) => format!("the servers' states are out of range ({word})"),
    }
}

fn holders(lock: &Option<Content>) -> Vec<usize> {
    match lock {
        Some(Content::Lock(Ok(lock))) => lock.holders().iter().collect(),
        _ => Vec::new(),
    }
}

fn is_old(content: &Option<Content>) -> bool {
    matches!(
        content,
        Some(Content::Held { old: true, .. } | Content::Vector { old: true, .. })
    )
}

fn same_but_for_age(x: &Content, y: &Content) -> bool {
    match (x, y) {
        (Content::Held { item: x, .. }, Content::Held { item: y, .. }) => x == y,
        (Content::Vector { vector: x, .. }, Content::Vector { vector: y, .. }) => x == y,
        _ => false,
    }
}

/// An object's name in words.
pub fn named(object: Object) -> String {
    match object {
        Object::Metadata => "the metadata".into(),
        Object::Node(name) => format!("node {name}"),
        Object::Flag(name) => format!("flag {name}"),
    }
}

fn shown<T: Display>(field: Field<T>) -> String {
    match field {
        Ok(value) => value.to_string(),
        Err(OutOfRange(word)) => format!("out of range ({word})"),
    }
}
