//! Places, contents and differences as JSON, for the page's script. Keys and values are written as text: a script's numbers end at 2^53.

use crate::difference::Change;
use crate::ledger::Asked;
use crate::state::{Content, Copied, Place, Standing, State};
use crate::words;
use gemandrolo::inspect::{
    Body, Field, Item, Lock, Members, Metadata, Node, Object, OutOfRange, Phase, States, Vector,
};
use std::fmt::Write;

/// A text in quotes. `<` is escaped too, so that no text ends the script element that it stands in.
pub fn text(text: &str) -> String {
    let mut out = String::from("\"");
    for c in text.chars() {
        match c {
            '"' | '\\' => out.extend(['\\', c]),
            '<' | '\u{2028}' | '\u{2029}' | '\0'..' ' => {
                let _ = write!(out, "\\u{:04x}", c as u32);
            }
            _ => out.push(c),
        }
    }
    out.push('"');
    out
}

pub fn list(items: impl IntoIterator<Item = String>) -> String {
    let items: Vec<String> = items.into_iter().collect();
    format!("[{}]", items.join(","))
}

pub fn object(fields: &[(&str, String)]) -> String {
    let fields: Vec<String> = fields
        .iter()
        .map(|(name, value)| format!("{}:{value}", text(name)))
        .collect();
    format!("{{{}}}", fields.join(","))
}

/// A moment's things by place.
pub fn state(state: &State) -> String {
    let things = state.iter().map(|(at, it)| (place(*at), content(it)));
    let things: Vec<(String, String)> = things.collect();
    let fields: Vec<(&str, String)> = things.iter().map(|(p, c)| (&p[..], c.clone())).collect();
    object(&fields)
}

/// What is new or another after a step, by place; and the places where nothing is left.
pub fn difference(changes: &[Change]) -> (String, String) {
    let after = changes
        .iter()
        .filter_map(|change| Some((change.place, change.after.clone()?)))
        .collect();
    let gone = changes
        .iter()
        .filter(|change| change.after.is_none())
        .map(|change| text(&place(change.place)));
    (state(&after), list(gone))
}

/// A place's name: a letter for what it is, then numbers.
pub fn place(place: Place) -> String {
    let of = |object: Object| match object {
        Object::Metadata => "m".to_string(),
        Object::Node(name) => format!("n{name}"),
        Object::Flag(name) => format!("f{name}"),
    };
    match place {
        Place::Metadata(server) => format!("m/{server}"),
        Place::Node(name) => format!("n/{name}"),
        Place::Taken(name) => format!("f/{name}"),
        Place::Lock(server, object) => format!("l/{server}/{}", of(object)),
        Place::Table(server, name) => format!("t/{server}/{name}"),
        Place::Client(client) => format!("c/{client}"),
        Place::Asked(client, turn) => format!("o/{client}/{turn}"),
        Place::Read(client, object) => format!("r/{client}/{}", of(object)),
        Place::Write(client, object) => format!("w/{client}/{}", of(object)),
        Place::Copy(client, Copied::Metadata) => format!("p/{client}/m"),
        Place::Copy(client, Copied::Node(name)) => format!("p/{client}/n{name}"),
        Place::Copy(client, Copied::Vector(server)) => format!("p/{client}/v{server}"),
        Place::Key(key) => format!("k/{key}"),
        Place::Decided(turn) => format!("d/{turn}"),
    }
}

pub fn content(content: &Content) -> String {
    match content {
        Content::Metadata(it) => object(&metadata(it)),
        Content::Node(it) => object(&node(it)),
        Content::Taken => "1".into(),
        Content::Lock(it) => field(*it, lock),
        Content::Version(it) => field(*it, number),
        Content::Client(it) => standing(it),
        Content::Asked(it) => asked(it),
        Content::Held { item: it, old } => {
            let mut fields = item(it);
            fields.push(("old", old.to_string()));
            object(&fields)
        }
        Content::Write(it) => object(&item(it)),
        Content::Vector { vector: it, old } => {
            object(&[("taken", vector(it)), ("old", old.to_string())])
        }
        Content::Value(value) => text(&value.to_string()),
        Content::Decided(it) => object(&[
            ("tablet", number(it.client)),
            ("asked", list(it.asked.iter().map(asked))),
        ]),
    }
}

fn number(number: impl Into<u64>) -> String {
    number.into().to_string()
}

/// What a word says, or the word under the name `bad`.
fn field<T>(field: Field<T>, encode: impl Fn(T) -> String) -> String {
    match field {
        Ok(value) => encode(value),
        Err(OutOfRange(word)) => object(&[("bad", text(&word.to_string()))]),
    }
}

type Fields = Vec<(&'static str, String)>;

fn metadata(it: &Metadata) -> Fields {
    vec![
        ("root", field(it.root, |name| number(name.number()))),
        ("version", field(it.version, number)),
        ("states", field(it.states, states)),
    ]
}

/// The servers that are there, and those of them that are open.
fn states(states: States) -> String {
    object(&[
        ("present", members(states.present())),
        ("open", members(states.open())),
    ])
}

fn node(it: &Node) -> Fields {
    let mut fields = vec![("version", field(it.version, number))];
    match &it.body {
        Body::Free => fields.push(("kind", text("free"))),
        Body::Leaf { pairs: it } => {
            fields.extend([("kind", text("leaf")), ("pairs", pairs(it))]);
        }
        Body::Inner {
            level,
            keys,
            children,
        } => {
            let children = children
                .iter()
                .map(|c| field(*c, |name| number(name.number())));
            fields.extend([
                ("kind", text("inner")),
                ("level", number(*level)),
                ("keys", list(keys.iter().map(word))),
                ("children", list(children)),
            ]);
        }
        Body::OutOfRange { kind, level, count } => {
            let words = format!("kind {kind}, level {level}, count {count}");
            fields.extend([("kind", text("bad")), ("bad", text(&words))]);
        }
    }
    fields
}

fn word(n: &u64) -> String {
    text(&n.to_string())
}

fn pairs(it: &[(u64, u64)]) -> String {
    list(it.iter().map(|(key, value)| list([word(key), word(value)])))
}

fn item(it: &Item) -> Fields {
    match it {
        Item::Metadata(it) => metadata(it),
        Item::Node(_, it) => node(it),
        Item::Flag(_, taken) => vec![("taken", field(*taken, |taken| taken.to_string()))],
    }
}

fn lock(lock: Lock) -> String {
    match lock {
        Lock::Free => "null".into(),
        Lock::Readers(clients) => object(&[("readers", members(clients))]),
        Lock::Writer(client) => object(&[("writer", number(client as u64))]),
    }
}

fn members(members: Members) -> String {
    list(members.iter().map(|member| number(member as u64)))
}

fn vector(vector: &Vector) -> String {
    list(vector.taken().map(|slot| number(slot as u64)))
}

fn standing(it: &Standing) -> String {
    let phase = |phase: Phase| {
        text(match phase {
            Phase::Idle => "idle",
            Phase::Open => "open",
            Phase::Committing => "committing",
            Phase::Decided => "decided",
        })
    };
    object(&[
        ("phase", field(it.phase, phase)),
        (
            "waits",
            field(it.waiting, |waiting| waiting.is_some().to_string()),
        ),
        ("participants", field(it.participants, members)),
        ("prepared", field(it.prepared, members)),
        ("applied", field(it.applied, members)),
        ("lost", field(it.lost, |lost| lost.to_string())),
    ])
}

fn asked(it: &Asked) -> String {
    let answer = it
        .answer
        .map(|answer| words::answered(it.operation, answer));
    object(&[
        ("asked", text(&words::asked(it.operation))),
        ("answer", answer.map_or("null".into(), |words| text(&words))),
        ("pairs", pairs(&it.pairs)),
    ])
}
