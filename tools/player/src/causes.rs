//! What can be seen of an abort's cause: what the tablet used though it was old, what others had locked, or that a server is absent.

use crate::changes::named;
use crate::difference::Change;
use crate::state::{is_there, Content, Copied, Place, State};
use crate::words::listed;
use gemandrolo::inspect::{Item, Lock, Object};
use gemandrolo::{Operation, Outcome, Reason};
use std::collections::{BTreeMap, BTreeSet};

pub fn words(
    step: [u64; 6],
    outcome: Outcome,
    given: Option<Operation>,
    before: &State,
    difference: &[Change],
) -> Vec<String> {
    match outcome {
        Outcome::Aborted(Reason::Differs | Reason::NoTree) => {
            let old = grown_old(before, difference);
            let said = !old.is_empty();
            let old = said.then(|| format!("It used what is old: {}.", listed(&old)));
            let absent = absent(step, given, before)
                .map(|server| format!("It asked server {server}, which is absent."));
            old.into_iter().chain(absent).collect()
        }
        Outcome::Aborted(Reason::Busy) => in_use(step, before),
        _ => Vec::new(),
    }
}

/// The absent server that a prepare asks, or a fetch of the node to be moved. Where another fetch asks one, what led there is old.
pub fn absent(step: [u64; 6], given: Option<Operation>, before: &State) -> Option<u64> {
    let [kind, client, .., at] = step;
    let asked = match (kind, given) {
        (4, _) => Some(at),
        (2, Some(Operation::Migrate { node, .. })) => {
            (!has_node(before, client as usize, node)).then_some(node / 1024)
        }
        _ => None,
    };
    asked.filter(|server| !is_there(before, *server))
}

/// Whether a tablet has read a node or has a copy of it.
fn has_node(before: &State, client: usize, number: u64) -> bool {
    before.keys().any(|place| match place {
        Place::Read(by, Object::Node(name)) | Place::Copy(by, Copied::Node(name)) => {
            *by == client && name.number() == number
        }
        _ => false,
    })
}

/// The old things that the abort took from the tablet: an abort drops the copies of all that was read.
fn grown_old(before: &State, difference: &[Change]) -> Vec<String> {
    let mut old: Vec<String> = Vec::new();
    for change in difference.iter().filter(|change| change.after.is_none()) {
        let said = match (&change.before, change.place) {
            (Some(Content::Held { item, .. }), _) => behind(before, item),
            (Some(Content::Vector { old: true, .. }), Place::Copy(_, Copied::Vector(server))) => {
                Some(format!("its copy of server {server}'s vector"))
            }
            _ => None,
        };
        old.extend(said.filter(|words| !old.contains(words)));
    }
    old
}

/// What was used, where a server has a newer one. Between two applies that may be another server than the object's home.
fn behind(before: &State, item: &Item) -> Option<String> {
    let read = match item {
        Item::Metadata(read) => read.version.ok()?,
        Item::Node(_, read) => read.version.ok()?,
        Item::Flag(name, read) => {
            let taken = before.contains_key(&Place::Taken(*name));
            return (*read != Ok(taken)).then(|| named(item.object()));
        }
    };
    let (server, version) = newest(before, item.object())?;
    let thing = named(item.object());
    (version > read)
        .then(|| format!("{thing} at version {read}, where server {server} has {version}"))
}

/// The newest version that a server has of the metadata or a node, and the first such server.
fn newest(before: &State, object: Object) -> Option<(usize, u32)> {
    let versions = before
        .iter()
        .filter_map(|(place, content)| match (place, content) {
            (Place::Metadata(server), Content::Metadata(it)) if object == Object::Metadata => {
                Some((*server, it.version.ok()?))
            }
            (Place::Node(name), Content::Node(it)) if object == Object::Node(*name) => {
                Some((name.server(), it.version.ok()?))
            }
            (Place::Table(server, name), Content::Version(it)) if object == Object::Node(*name) => {
                Some((*server, (*it).ok()?))
            }
            _ => None,
        });
    versions.reduce(|best, other| if other.1 > best.1 { other } else { best })
}

/// The locks of others that a prepare meets; or, for a fetch, all that others have locked to write.
fn in_use([kind, client, .., at]: [u64; 6], before: &State) -> Vec<String> {
    let client = client as usize;
    let has = |place: Place| before.contains_key(&place);
    let is_met = |server: usize, object: Object, writes: bool| match kind {
        4 => {
            let uses = writes || has(Place::Write(client, object));
            server as u64 == at && has(Place::Read(client, object)) && uses
        }
        _ => writes,
    };
    let mut met: BTreeMap<(usize, bool), BTreeSet<Object>> = BTreeMap::new();
    for (place, content) in before {
        if let (Place::Lock(server, object), Content::Lock(Ok(lock))) = (place, content) {
            let writes = matches!(lock, Lock::Writer(_));
            let others = lock.holders().iter().filter(|holder| *holder != client);
            for holder in others.filter(|_| is_met(*server, *object, writes)) {
                met.entry((holder, writes)).or_default().insert(*object);
            }
        }
    }
    met.into_iter().map(locked_by).collect()
}

fn locked_by(((holder, writes), objects): ((usize, bool), BTreeSet<Object>)) -> String {
    let objects: Vec<String> = objects.into_iter().map(named).collect();
    let purpose = if writes { "write" } else { "read" };
    let objects = listed(&objects);
    format!("In its way: tablet {holder} has locked {objects} to {purpose}.")
}
