//! A step and its outcome in words: "Tablet 1 works: aborted, what it read has changed".

use crate::causes::absent;
use crate::ledger::operation;
use crate::schedule::tablet;
use crate::state::{is_there, Content, Copied, Place, State};
use gemandrolo::inspect::{Item, Metadata, Object, ServerState, States};
use gemandrolo::{Answer, Fetched, Operation, Outcome, Reason, Refusal, Sizes, MAX_SERVERS};

/// The sentence for a step. `given` is the operation that waited before it, `before` and `after` what is seen then.
pub fn sentence(
    sizes: Sizes,
    step: [u64; 6],
    outcome: Outcome,
    given: Option<Operation>,
    [before, after]: [&State; 2],
) -> String {
    let came_of_it = match outcome {
        Outcome::Refused(refusal) => refused(step, refusal),
        Outcome::Done => done(step, after),
        Outcome::Fetched(what) => fetched(what, step[1], sizes, before),
        Outcome::Answered(answer) => match given {
            Some(operation) => format!("answered, {}", answered(operation, answer)),
            None => "answered".into(),
        },
        Outcome::Prepared(_) => "prepared, other servers are still due".into(),
        Outcome::Decided => "decided, the transaction stands from here on".into(),
        Outcome::Applied(_) => "applied, other servers are still due".into(),
        Outcome::Committed => committed(step),
        Outcome::Aborted(reason) => {
            format!("aborted, {}", why_aborted(reason, step, given, before))
        }
    };
    format!("{}: {came_of_it}", deed(step))
}

/// Who does what.
fn deed(step: [u64; 6]) -> String {
    let [kind, client, .., server] = step;
    let does = match kind {
        0 => "begins a transaction".into(),
        1 => match operation(step) {
            Some(operation) => format!("is to {}", asked(operation)),
            None => format!("is to do operation {}, which there is not", step[2]),
        },
        2 => "works".into(),
        3 => "commits".into(),
        4 => format!("prepares at server {server}"),
        5 => format!("applies at server {server}"),
        6 => "gives up".into(),
        7 => "is lost".into(),
        8 => return format!("Server {server} is to be added"),
        9 => return format!("Server {server} is to be closed to new nodes"),
        10 => return format!("Server {server} is to be removed"),
        _ => format!("takes a step of kind {kind}, which there is not"),
    };
    format!("Tablet {client} {does}")
}

/// What an operation asks for.
pub fn asked(operation: Operation) -> String {
    match operation {
        Operation::Insert { key, value } => format!("insert key {key} with value {value}"),
        Operation::Lookup { key } => format!("look up key {key}"),
        Operation::Delete { key } => format!("delete key {key}"),
        Operation::Next { key } => format!("find the next key above {key}"),
        Operation::Previous { key } => format!("find the previous key below {key}"),
        Operation::Migrate { node, server } => format!("move node {node} to server {server}"),
        Operation::List { key, count } => format!("list up to {} from key {key} on", pairs(count)),
    }
}

fn pairs(count: u64) -> String {
    format!("{count} pair{}", if count == 1 { "" } else { "s" })
}

/// What an answer says.
pub fn answered(operation: Operation, Answer { a, b }: Answer) -> String {
    let yes = a == 1;
    match operation {
        Operation::Insert { key, .. } if yes => format!("key {key} is new"),
        Operation::Insert { key, .. } => format!("key {key} was there"),
        Operation::Lookup { key } if yes => format!("key {key} has the value {b}"),
        Operation::Lookup { key } => format!("key {key} is not there"),
        Operation::Delete { key } if yes => format!("key {key} was there"),
        Operation::Delete { key } => format!("key {key} is not there"),
        Operation::Next { key } if yes => format!("the next key above {key} is {b}"),
        Operation::Next { key } => format!("there is no key above {key}"),
        Operation::Previous { key } if yes => format!("the previous key below {key} is {b}"),
        Operation::Previous { key } => format!("there is no key below {key}"),
        Operation::Migrate { node, server } if yes => {
            format!("node {node} moves to server {server} and will be node {b}")
        }
        Operation::Migrate { node, .. } if b == 0 => format!("node {node} is free and stays"),
        Operation::Migrate { node, server } => format!("node {node} is at server {server} already"),
        Operation::List { key, .. } if a == 0 => format!("there is no key from {key} on"),
        Operation::List { key, count } if a < count => {
            format!("only {} from key {key} on", pairs(a))
        }
        Operation::List { key, .. } => format!("{} from key {key} on", pairs(a)),
    }
}

fn done([kind, client, ..]: [u64; 6], after: &State) -> String {
    match kind {
        8 => return "done, it is open".into(),
        9 => return "done, it is closing".into(),
        10 => return "done, it is absent".into(),
        _ => {}
    }
    let standing = match after.get(&Place::Client(client as usize)) {
        Some(Content::Client(standing)) => standing,
        _ => return "done".into(),
    };
    match (kind, standing.participants, standing.lost) {
        (1, ..) => "done, the operation waits".into(),
        (3, Ok(servers), _) => {
            let verb = if servers.iter().count() == 1 {
                "takes"
            } else {
                "take"
            };
            let servers = numbered("server", servers.iter());
            format!("done, {servers} {verb} part")
        }
        (7, _, Ok(true)) => "done, its decided transaction is still to be applied".into(),
        (7, ..) => "done, its copies are gone".into(),
        _ => "done".into(),
    }
}

fn fetched(what: Fetched, client: u64, sizes: Sizes, before: &State) -> String {
    match what {
        Fetched::Metadata => {
            let source = source(client, sizes, before);
            format!("fetched the metadata from server {source}")
        }
        Fetched::Node(name) => format!("fetched node {name} from server {}", name / 1024),
        Fetched::Vector(server) => format!("fetched the vector of server {server}"),
    }
}

/// The server that a tablet fetches the metadata from: the first that is there, counting up and round.
fn source(client: u64, sizes: Sizes, before: &State) -> u64 {
    let servers = MAX_SERVERS as u64;
    let first = client % sizes.servers as u64;
    let mut round = (first..first + servers).map(|server| server % servers);
    round
        .find(|server| is_there(before, *server))
        .unwrap_or(first)
}

fn committed([kind, ..]: [u64; 6]) -> String {
    let how = match kind {
        3 => "there was nothing to check",
        4 => "decided and ended at once by the only server that takes part",
        _ => "the last server has stored it",
    };
    format!("committed, {how}")
}

fn why_aborted(
    reason: Reason,
    step: [u64; 6],
    given: Option<Operation>,
    before: &State,
) -> &'static str {
    match reason {
        Reason::Differs if absent(step, given, before).is_some() => "the server is absent",
        Reason::NoSlot if moves_to_one_not_open(step, given, before) => "the server is not open",
        Reason::Differs => "what it read has changed",
        Reason::Busy => "another tablet has locked what it uses",
        Reason::NoTree => "what it read can't be one tree",
        Reason::TooMany => "it would read more than 96 objects or write more than 48",
        Reason::NoSlot => "no slot is free",
        Reason::GivenUp => "as it wanted",
        Reason::Lost => "nothing of its transaction is stored",
        Reason::LastVersion => "a version has come to its end",
    }
}

/// Whether a node is to move to a server that is not open by the metadata that the tablet has read.
fn moves_to_one_not_open(step: [u64; 6], given: Option<Operation>, before: &State) -> bool {
    let Some(Operation::Migrate { server, .. }) = given else {
        return false;
    };
    let states = tablet(step).and_then(|client| metadata_of(client as usize, before)?.states.ok());
    states.is_some_and(|states| states.server(server as usize) != ServerState::Open)
}

/// The metadata that a tablet has read, or else its copy.
fn metadata_of(client: usize, state: &State) -> Option<&Metadata> {
    let places = [
        Place::Read(client, Object::Metadata),
        Place::Copy(client, Copied::Metadata),
    ];
    match places.iter().find_map(|place| state.get(place))? {
        Content::Held {
            item: Item::Metadata(metadata),
            ..
        } => Some(metadata),
        _ => None,
    }
}

fn refused(step: [u64; 6], refusal: Refusal) -> String {
    let why = match refusal {
        Refusal::Unfit if tablet(step).is_none() => {
            "a transaction is prepared or decided, and has not ended"
        }
        Refusal::NoHead => "the memory is shorter than 64 bytes",
        Refusal::Sizes => "a size is outside its range",
        Refusal::TooShort => "the memory is too short",
        Refusal::UnknownKind => "there is no such kind of step",
        Refusal::UnknownClient => "there is no such tablet",
        Refusal::UnknownOperation => "there is no such operation",
        Refusal::UnknownServer => "there is no such server",
        Refusal::UnknownNode => "there is no such node",
        Refusal::Unfit => "it does not fit what the tablet did before",
        Refusal::Damaged => "something stored is out of range",
        Refusal::Count => "a list has 1 to 32 pairs",
        Refusal::ShortOutput => "there is no room for so many pairs",
        Refusal::UnfitServer => "its state does not fit, or no other server is open",
        Refusal::SlotTaken => "a slot there is still taken",
        Refusal::LastMetadata => "the metadata's version has come to its end",
    };
    format!("refused, {why}")
}

/// "servers 0 and 2 are open, server 1 is closing".
pub fn servers(states: States) -> String {
    let closing = states
        .present()
        .iter()
        .filter(|s| !states.open().contains(*s));
    let sets = [
        ("open", states.open().iter().collect::<Vec<_>>()),
        ("closing", closing.collect()),
    ];
    let said = sets.into_iter().filter(|(_, set)| !set.is_empty());
    let words = said.map(|(what, set)| {
        let verb = if set.len() == 1 { "is" } else { "are" };
        format!("{} {verb} {what}", numbered("server", set.into_iter()))
    });
    words.collect::<Vec<_>>().join(", ")
}

/// "server 1", "servers 0 and 2", "servers 0, 1 and 2".
pub fn numbered(noun: &str, numbers: impl Iterator<Item = usize>) -> String {
    let numbers: Vec<String> = numbers.map(|n| n.to_string()).collect();
    let plural = if numbers.len() == 1 { "" } else { "s" };
    format!("{noun}{plural} {}", listed(&numbers))
}

/// "a", "a and b", "a, b and c".
pub fn listed(things: &[String]) -> String {
    match things {
        [] => "none".into(),
        [one] => one.clone(),
        [first @ .., last] => format!("{} and {last}", first.join(", ")),
    }
}
