//! Refusal 10 by kind of step: "Something stored that this step's rule reads has a field out of range, or points to something that isn't
//! there". Each word of a live store is damaged where a step of that kind comes next: what the rule reads is refused, what it doesn't read
//! changes nothing.

mod common;

use common::layout::{self, *};
use common::stage::{Due, Stage};
use gemandrolo::Operation::{self, *};
use gemandrolo::{Answer, Fetched, Outcome, Reason, Refusal, Step};

const DAMAGED: Outcome = Outcome::Refused(Refusal::Damaged);
const SHORT: Outcome = Outcome::Refused(Refusal::ShortOutput);
const DIFFERS: Outcome = Outcome::Aborted(Reason::Differs);
const BUSY: Outcome = Outcome::Aborted(Reason::Busy);
const TOO_MANY: Outcome = Outcome::Aborted(Reason::TooMany);
const ANSWERED_0: Outcome = Outcome::Answered(Answer { a: 0, b: 0 });

/// A lock's word with the client that writes.
const WRITER: u64 = 65_536;

/// A client, and another.
const ME: u64 = 0;
const OTHER: u64 = 1;

const BEGIN: Step = Step::Begin { client: ME };
const WORK: Step = Step::Work { client: ME };
const COMMIT: Step = Step::Commit { client: ME };
const GIVE_UP: Step = Step::GiveUp { client: ME };
const LOSE: Step = Step::Lost { client: ME };

/// The tree that most cases stand on: a root on server 0 over three leaves, `LEFT`, `MIDDLE` and `RIGHT`.
const ROOT: u64 = 0;
/// On server 0, with 14 keys from 0 on: the next one splits it.
const LEFT: u64 = 1;
/// On server 0, with 7 keys from 70 on.
const MIDDLE: u64 = 2;
/// Free, and the slot that the next split on server 0 takes.
const FREE: u64 = 3;
/// On server 1, with keys from 140 on.
const RIGHT: u64 = 1028;

/// What a client that reads `LEFT` checks at server 0, as the lowest participant.
const TO_LEFT: [u64; 3] = [METADATA, node(ROOT), node(LEFT)];

fn insert(key: u64) -> Operation {
    Insert { key, value: 5 }
}

fn list(key: u64, count: u64) -> Operation {
    List { key, count }
}

fn migrate(node: u64, server: u64) -> Operation {
    Migrate { node, server }
}

fn prepare(server: u64) -> Step {
    let client = ME;
    Step::Prepare { client, server }
}

fn apply(server: u64) -> Step {
    let client = ME;
    Step::Apply { client, server }
}

/// `ME` has copies of metadata, root and vectors, `OTHER` none.
fn tree() -> Stage {
    let mut stage = Stage::new(2, 8, 2);
    for key in (0..22).map(|k| 10 * k).chain(1..8) {
        stage.transaction(ME, &[insert(key)]);
    }
    stage.transaction(ME, &[migrate(FREE, 1)]);
    let copied = stage.numbers(ME, Set::Copies)[0];
    assert_eq!(stage.word(copied), node(ROOT));
    let children = stage.children(layout::node_at(stage.sizes, ROOT));
    let names: Vec<u64> = children.into_iter().map(|at| stage.word(at)).collect();
    assert_eq!(names, [LEFT, MIDDLE, RIGHT]);
    stage
}

/// `ME` writes `LEFT` and `RIGHT`; `OTHER` reads the third leaf, and has prepared at server 0, as a reader of metadata and root.
fn shared() -> Stage {
    let mut stage = tree();
    stage.opened(OTHER, &[Lookup { key: 70 }, Lookup { key: 140 }]);
    stage.prepared(OTHER, &[0]);
    stage.opened(ME, &[Delete { key: 7 }, insert(150)]);
    stage
}

/// `ME` splits `LEFT`, and with it writes the root on all servers.
fn split() -> Stage {
    let mut stage = tree();
    stage.opened(ME, &[insert(8)]);
    stage
}

/// `OTHER` has an open transaction that writes the metadata and all nodes of server 0: a lock that names it as the writer is sound.
fn contested() -> Stage {
    let mut stage = tree();
    stage.opened(OTHER, &[insert(8), insert(75), migrate(ROOT, 1)]);
    stage
}

/// `ME` without copies, with a given operation.
fn alone(operation: Operation) -> Stage {
    let mut stage = tree();
    stage.step(LOSE);
    stage.step(BEGIN);
    stage.given(ME, operation);
    stage
}

// ---- lists of words

/// Which objects are read and written.
fn objects(stage: &Stage) -> Vec<usize> {
    let [reads, writes] = [Set::Reads, Set::Writes].map(|set| stage.numbers(ME, set));
    [stage.fields(ME, &[READS, WRITES]), reads, writes].concat()
}

/// And of which kinds they are.
fn kinds(stage: &Stage) -> Vec<usize> {
    let [reads, writes] = [Set::Reads, Set::Writes].map(|set| stage.kinds(ME, set));
    [objects(stage), reads, writes].concat()
}

/// The locks of these objects at a server.
fn locks(stage: &Stage, server: usize, objects: &[u64]) -> Vec<usize> {
    let lock = |x: &u64| layout::lock_at(stage.sizes, server, *x);
    objects.iter().map(lock).collect()
}

/// Their versions as they were read.
fn versions(stage: &Stage, objects: &[u64]) -> Vec<usize> {
    let version = |x: &u64| stage.record(ME, Set::Reads, *x) + VERSION;
    objects.iter().map(version).collect()
}

/// The version that a server compares with that. Metadata and the root are inner.
fn standing(stage: &Stage, server: usize, object: u64) -> usize {
    layout::version_at(stage.sizes, server, object, object <= node(ROOT))
}

/// What a check of these objects at a server reads.
fn checks(stage: &Stage, server: usize, objects: &[u64]) -> Vec<usize> {
    let stand = objects.iter().map(|x| standing(stage, server, *x));
    let stand = stand.collect::<Vec<_>>();
    let locks = locks(stage, server, objects);
    [locks, versions(stage, objects), stand].concat()
}

/// A node's record in a set: kind, level, version and count.
fn used(stage: &Stage, set: Set, name: u64) -> Vec<usize> {
    stage.judged(stage.record(ME, set, node(name)))
}

/// The root's record in a set, and the child that a walk goes to.
fn used_root(stage: &Stage, set: Set, child: usize) -> Vec<usize> {
    let children = stage.record(ME, set, node(ROOT)) + SLOTS.start;
    [used(stage, set, ROOT), vec![children + child]].concat()
}

/// The servers' states in a set's metadata.
fn used_states(stage: &Stage, set: Set) -> usize {
    stage.record(ME, set, METADATA) + SLOTS.start + 1
}

/// The metadata's version, the root's name and the servers' states in a set.
fn used_metadata(stage: &Stage, set: Set) -> Vec<usize> {
    let record = stage.record(ME, set, METADATA);
    vec![
        record + VERSION,
        record + SLOTS.start,
        used_states(stage, set),
    ]
}

/// A flag's value in a set.
fn used_flag(stage: &Stage, set: Set, name: u64) -> usize {
    stage.record(ME, set, flag(name)) + SLOTS.start
}

/// The contents of these nodes in a set.
fn contents(stage: &Stage, set: Set, names: &[u64]) -> Vec<usize> {
    let contents = |x: &u64| stage.contents(stage.record(ME, set, node(*x)));
    names.iter().flat_map(contents).collect()
}

/// Whether a list waits.
fn lists(stage: &Stage) -> bool {
    stage.word(stage.field(ME, OP)) == 7
}

/// The step reads these words and judges them, takes those as they are, and reads no others; but refusal 9 comes before it, except for a loss,
/// and 12 where a list waits for a work step, by its count.
fn reads(stage: &Stage, name: &str, step: Step, damaged: &[&[usize]], taken: &[&[usize]]) {
    let unfit: &[usize] = match step {
        Step::Lost { .. } => &[],
        Step::Give { .. } | Step::Commit { .. } => &[PHASE, OP],
        _ => &[PHASE],
    };
    let due = Due {
        damaged: damaged.concat(),
        unfit: stage.fields(ME, unfit),
        short: match step {
            Step::Work { .. } if lists(stage) => stage.fields(ME, &[OP_VALUE]),
            _ => Vec::new(),
        },
        taken: taken.concat(),
        ..Due::default()
    };
    stage.reads(name, step, due);
}

// ---- what each kind reads

/// Neither an old count nor an old item nor a copy is read.
#[test]
fn begin_and_give() {
    let mut stage = tree();
    reads(&stage, "begin", BEGIN, &[], &[]);
    stage.step(BEGIN);
    let (client, operation) = (ME, insert(8));
    let give = Step::Give { client, operation };
    reads(&stage, "give", give, &[], &[]);
}

/// A loss that aborts nothing reads the phase alone.
#[test]
fn lost_without_abort() {
    let mut decided = shared();
    decided.prepared(ME, &[1, 0]);
    decided.step(apply(1));
    for (name, stage) in [("lost, no transaction", tree()), ("lost, decided", decided)] {
        reads(&stage, name, LOSE, &[&stage.fields(ME, &[PHASE])], &[]);
    }
}

/// Before any prepare an abort reads which objects are read; after one also what is locked there, and who locks it.
#[test]
fn give_up_and_lost() {
    let both = |stage: &Stage, name: &str, damaged: &[&[usize]]| {
        let damaged = damaged.concat();
        let phase = stage.fields(ME, &[PHASE]);
        reads(
            stage,
            &format!("give up, {name}"),
            GIVE_UP,
            &[&damaged],
            &[],
        );
        reads(
            stage,
            &format!("lost, {name}"),
            LOSE,
            &[&damaged, &phase],
            &[],
        );
    };
    let mut stage = shared();
    let fields = stage.fields(ME, &[PREPARED, READS]);
    let numbers = stage.numbers(ME, Set::Reads);
    both(&stage, "open", &[&fields, &numbers]);
    stage.prepared(ME, &[]);
    both(&stage, "committing", &[&fields, &numbers]);
    stage.step(prepare(0));
    let servers = stage.fields(ME, &[PARTICIPANTS, PREPARED]);
    let holder = stage.fields(OTHER, &[PHASE]);
    let locks = locks(&stage, 0, &TO_LEFT);
    both(
        &stage,
        "prepared at a server",
        &[&servers, &kinds(&stage), &locks, &holder],
    );
}

/// Where all servers take part, a commit reads which they are.
#[test]
fn commit() {
    let (leaves, split) = (shared(), split());
    let states = [used_states(&split, Set::Reads)];
    for (name, stage, more) in [
        ("commit of two leaves", leaves, &[][..]),
        ("commit of a split", split, &states),
    ] {
        reads(&stage, name, COMMIT, &[&kinds(&stage), more], &[]);
    }
}

/// A prepare reads locks and versions of what is checked at its server; one that decides no more.
#[test]
fn prepares() {
    let mut stage = shared();
    stage.prepared(ME, &[]);
    let servers = stage.fields(ME, &[PARTICIPANTS, PREPARED]);
    let holder = stage.fields(OTHER, &[PHASE]);
    let damaged = [
        &servers[..],
        &kinds(&stage),
        &checks(&stage, 0, &TO_LEFT),
        &holder,
    ];
    reads(&stage, "prepare", prepare(0), &damaged, &[]);
    assert_eq!(stage.step(prepare(0)), Outcome::Prepared(0));
    let damaged = [
        &servers[..],
        &kinds(&stage),
        &checks(&stage, 1, &[node(RIGHT)]),
    ];
    reads(&stage, "last prepare", prepare(1), &damaged, &[]);
    assert_eq!(stage.clone().step(prepare(1)), Outcome::Decided);

    // an abort for what is found reads what every abort reads
    let place = standing(&stage, 1, node(RIGHT));
    let stage = stage.with(place, stage.word(place) + 1);
    let locks = locks(&stage, 0, &TO_LEFT);
    let damaged = [&damaged.concat()[..], &locks, &holder];
    reads(&stage, "prepare that aborts", prepare(1), &damaged, &[]);
    assert_eq!(stage.clone().step(prepare(1)), DIFFERS);
}

/// The only participant's prepare also reads what it applies.
#[test]
fn prepare_that_applies() {
    let mut stage = tree();
    stage.opened(ME, &[Delete { key: 7 }]);
    stage.prepared(ME, &[]);
    let damaged = [
        &stage.fields(ME, &[PARTICIPANTS, PREPARED, APPLIED, LOST])[..],
        &kinds(&stage),
        &checks(&stage, 0, &TO_LEFT),
        &used(&stage, Set::Writes, LEFT),
    ];
    let taken = contents(&stage, Set::Writes, &[LEFT]);
    reads(
        &stage,
        "prepare that applies",
        prepare(0),
        &damaged,
        &[&taken],
    );
    assert_eq!(stage.step(prepare(0)), Outcome::Committed);
}

/// A busy object is the last that is read: its lock, the writer's transaction, and its write.
#[test]
fn prepare_that_is_busy() {
    let mut stage = tree();
    stage.opened(ME, &[Delete { key: 7 }, insert(150), insert(75)]);
    stage.prepared(ME, &[]);
    stage.opened(OTHER, &[Delete { key: 6 }, insert(160)]);
    stage.prepared(OTHER, &[0]);
    let kind = |set, name| stage.record(ME, set, node(name)) + KIND;
    let kinds = [
        kind(Set::Reads, ROOT),
        kind(Set::Reads, LEFT),
        kind(Set::Writes, LEFT),
    ];
    let damaged = [
        &stage.fields(ME, &[PARTICIPANTS, PREPARED])[..],
        &objects(&stage),
        &kinds,
        &checks(&stage, 0, &[METADATA, node(ROOT)]),
        &locks(&stage, 0, &[node(LEFT)]),
        &stage.fields(OTHER, &[PHASE, WRITES]),
        &[stage.number(OTHER, Set::Writes, node(LEFT))],
    ];
    reads(&stage, "prepare that is busy", prepare(0), &damaged, &[]);
    assert_eq!(stage.step(prepare(0)), BUSY);
}

/// An apply reads the writes that its server stores, not those of others.
#[test]
fn applies() {
    let mut stage = shared();
    stage.prepared(ME, &[0, 1]);
    let try_apply =
        |stage: &Stage, name: &str, server: u64, home, objects: &[u64], more: &[usize]| {
            let damaged = [
                &stage.fields(ME, &[PARTICIPANTS, APPLIED])[..],
                &kinds(stage),
                &used(stage, Set::Writes, home),
                &versions(stage, &[node(home)]),
                &locks(stage, server as usize, objects),
                more,
            ];
            let taken = contents(stage, Set::Writes, &[home]);
            reads(stage, name, apply(server), &damaged, &[&taken]);
        };
    let holder = stage.fields(OTHER, &[PHASE]);
    let lost = stage.fields(ME, &[LOST]);
    try_apply(&stage, "apply at 0", 0, LEFT, &TO_LEFT, &holder);
    try_apply(&stage, "apply at 1", 1, RIGHT, &[node(RIGHT)], &[]);
    assert_eq!(stage.step(apply(0)), Outcome::Applied(0));
    try_apply(&stage, "last apply", 1, RIGHT, &[node(RIGHT)], &lost);
    assert_eq!(stage.step(apply(1)), Outcome::Committed);
}

/// At home a split is read whole, children and flag too; elsewhere the root's version alone, and with the last apply what copies are renewed by.
#[test]
fn applies_of_a_split() {
    let mut stage = split();
    stage.prepared(ME, &[0, 1]);
    let names = [ROOT, LEFT, FREE];
    let [metadata, root, left, free] = [METADATA, node(ROOT), node(LEFT), node(FREE)];
    let course = [stage.fields(ME, &[PARTICIPANTS, APPLIED]), kinds(&stage)].concat();
    let children = stage.children(stage.record(ME, Set::Writes, root));
    let taken_flag = used_flag(&stage, Set::Writes, FREE);
    let damaged = [
        &course[..],
        &names.map(|x| used(&stage, Set::Writes, x)).concat(),
        &children,
        &[taken_flag],
        &versions(&stage, &[root, left, free]),
        &locks(&stage, 0, &[metadata, root, left, free, flag(FREE)]),
    ];
    let taken = contents(&stage, Set::Writes, &names);
    reads(
        &stage,
        "apply of a split at home",
        apply(0),
        &damaged,
        &[&taken],
    );

    let elsewhere = [course, versions(&stage, &[root]), locks(&stage, 1, &[root])].concat();
    reads(
        &stage,
        "apply of a split elsewhere",
        apply(1),
        &[&elsewhere],
        &[],
    );
    assert_eq!(stage.step(apply(0)), Outcome::Applied(0));
    let vector = layout::vector_copy_at(stage.sizes, ME as usize, 0);
    let lost = stage.fields(ME, &[LOST]);
    let renewal = [
        used(&stage, Set::Writes, ROOT),
        children,
        vec![taken_flag, vector],
    ]
    .concat();
    let taken = [
        contents(&stage, Set::Writes, &[ROOT]),
        stage.numbers(ME, Set::Copies),
    ];
    let damaged = [&elsewhere[..], &lost, &renewal];
    reads(
        &stage,
        "last apply of a split",
        apply(1),
        &damaged,
        &[&taken.concat()],
    );
    stage.step(LOSE);
    reads(
        &stage,
        "last apply of a lost client",
        apply(1),
        &[&elsewhere, &lost],
        &[],
    );
}

/// The root moves to server 1: metadata are written on all servers; a node that becomes inner is checked at home, locked at all, and its version
/// goes into all tables.
#[test]
fn moved_root() {
    let mut stage = tree();
    stage.opened(ME, &[migrate(ROOT, 1)]);
    stage.prepared(ME, &[]);
    let moved = 1025;
    let [old, new] = [node(ROOT), node(moved)];
    let servers = stage.fields(ME, &[PARTICIPANTS, PREPARED]);
    let damaged = [
        &servers[..],
        &kinds(&stage),
        &checks(&stage, 0, &[METADATA, old]),
        &locks(&stage, 0, &[new, flag(ROOT)]),
        &[used_flag(&stage, Set::Reads, ROOT)],
    ];
    reads(
        &stage,
        "prepare of a moved root where it was",
        prepare(0),
        &damaged,
        &[],
    );
    let damaged = [
        &servers[..],
        &kinds(&stage),
        &checks(&stage, 1, &[METADATA, old, new]),
        &locks(&stage, 1, &[flag(moved)]),
        &[used_flag(&stage, Set::Reads, moved)],
    ];
    reads(
        &stage,
        "prepare of a moved root where it goes",
        prepare(1),
        &damaged,
        &[],
    );

    stage.step(prepare(1));
    assert_eq!(stage.step(prepare(0)), Outcome::Decided);
    let [old_flag, new_flag] = [ROOT, moved].map(|x| used_flag(&stage, Set::Writes, x));
    let anywhere = [
        stage.fields(ME, &[PARTICIPANTS, APPLIED]),
        kinds(&stage),
        used_metadata(&stage, Set::Writes),
        versions(&stage, &[METADATA, old, new]),
    ]
    .concat();
    let damaged = [
        &anywhere[..],
        &used(&stage, Set::Writes, ROOT),
        &locks(&stage, 0, &[METADATA, old, new, flag(ROOT)]),
        &[old_flag],
    ];
    let taken = contents(&stage, Set::Writes, &[ROOT]);
    reads(
        &stage,
        "apply of a moved root where it was",
        apply(0),
        &damaged,
        &[&taken],
    );
    assert_eq!(stage.step(apply(0)), Outcome::Applied(0));
    let vectors = [0, 1].map(|s| layout::vector_copy_at(stage.sizes, ME as usize, s));
    let damaged = [
        &anywhere[..],
        &used(&stage, Set::Writes, moved),
        &stage.children(stage.record(ME, Set::Writes, new)),
        &locks(&stage, 1, &[METADATA, old, new, flag(moved)]),
        &[new_flag, old_flag],
        &stage.fields(ME, &[LOST]),
        &vectors,
    ];
    let taken = [
        contents(&stage, Set::Writes, &[moved]),
        stage.numbers(ME, Set::Copies),
    ];
    reads(
        &stage,
        "last apply of a moved root",
        apply(1),
        &damaged,
        &[&taken.concat()],
    );
}

/// A work step reads which operation waits, and which objects are read and written; then what it uses.
fn work(stage: &Stage, name: &str, damaged: &[&[usize]], taken: &[&[usize]]) {
    let state = [stage.fields(ME, &[OP]), objects(stage)].concat();
    let asked: &[usize] = if lists(stage) {
        &[OP_KEY]
    } else {
        &[OP_KEY, OP_VALUE]
    };
    let asked = stage.fields(ME, asked);
    let damaged = [&state, &damaged.concat()[..]];
    reads(stage, name, WORK, &damaged, &[&asked, &taken.concat()]);
}

/// A fetch checks what is read already, and reads the object whole: an inner node with its children.
#[test]
fn fetches() {
    let mut stage = alone(Lookup { key: 10 });
    let [root, left, right] = [ROOT, LEFT, RIGHT].map(|x| layout::node_at(stage.sizes, x));
    let metadata = layout::server_at(stage.sizes, 0);
    let copied = stage.fields(ME, &[META_STATES]);
    let whole = [layout::ROOT, METADATA_VERSION, STATES, METADATA_LOCK].map(|i| metadata + i);
    let damaged = [&copied[..], &whole];
    work(&stage, "fetch of metadata", &damaged, &[]);
    let moving = alone(migrate(RIGHT, 0));
    let moved = moving.fields(ME, &[OP_KEY, OP_SERVER]);
    work(
        &moving,
        "fetch for a migrate",
        &[&damaged.concat(), &moved],
        &[],
    );

    stage.before(ME, Some(Fetched::Node(ROOT)));
    let damaged = [
        &used_metadata(&stage, Set::Reads)[..],
        &checks(&stage, 0, &[METADATA]),
        &locks(&stage, 0, &[node(ROOT)]),
        &stage.judged(root),
        &stage.children(root),
    ];
    let place = stage.numbers(ME, Set::Copies)[0];
    work(
        &stage,
        "fetch of the root",
        &damaged,
        &[&stage.contents(root), &[place]],
    );

    stage.before(ME, Some(Fetched::Node(LEFT)));
    let damaged = [
        &used_metadata(&stage, Set::Reads)[..],
        &used_root(&stage, Set::Reads, 0),
        &checks(&stage, 0, &[METADATA, node(ROOT)]),
        &locks(&stage, 0, &[node(LEFT)]),
        &stage.judged(left),
    ];
    let walked = contents(&stage, Set::Reads, &[ROOT]);
    work(
        &stage,
        "fetch of a leaf",
        &damaged,
        &[&walked, &stage.contents(left)],
    );

    stage.before(ME, None);
    stage.step(WORK);
    stage.given(ME, Lookup { key: 150 });
    let damaged = [
        &used_metadata(&stage, Set::Reads)[..],
        &used_root(&stage, Set::Reads, 2),
        &stage.kinds(ME, Set::Reads),
        &checks(&stage, 1, &[METADATA, node(ROOT)]),
        &locks(&stage, 1, &[node(RIGHT)]),
        &stage.judged(right),
    ];
    work(
        &stage,
        "fetch of a second leaf",
        &damaged,
        &[&walked, &stage.contents(right)],
    );
}

/// Copies are read where they are used.
#[test]
fn fetch_over_copies() {
    let mut stage = tree();
    stage.step(BEGIN);
    stage.given(ME, Lookup { key: 10 });
    let left = layout::node_at(stage.sizes, LEFT);
    let damaged = [
        &stage.fields(ME, &[META_STATES, META_ROOT, META_VERSION])[..],
        &used_root(&stage, Set::Copies, 0),
        &locks(&stage, 0, &TO_LEFT),
        &[
            standing(&stage, 0, METADATA),
            standing(&stage, 0, node(ROOT)),
        ],
        &stage.judged(left),
    ];
    let taken = [
        &contents(&stage, Set::Copies, &[ROOT])[..],
        &[stage.number(ME, Set::Copies, node(ROOT))],
        &stage.contents(left),
    ];
    work(&stage, "fetch over copies", &damaged, &taken);
}

/// What a split takes: a vector, which is never busy, then the slot's node.
#[test]
fn fetches_of_a_split() {
    let mut stage = alone(insert(8));
    let sizes = stage.sizes;
    let copied = layout::vector_copy_at(sizes, ME as usize, 0);
    let walk = |stage: &Stage| {
        [
            used_metadata(stage, Set::Reads),
            used_root(stage, Set::Reads, 0),
            used(stage, Set::Reads, LEFT),
            checks(stage, 0, &TO_LEFT),
            vec![copied],
        ]
        .concat()
    };
    stage.before(ME, Some(Fetched::Vector(0)));
    let walked = contents(&stage, Set::Reads, &[ROOT, LEFT]);
    let vector = layout::server_at(sizes, 0) + VECTOR;
    let words = (vector..vector + 16).collect::<Vec<_>>();
    work(
        &stage,
        "fetch of a vector",
        &[&walk(&stage)],
        &[&walked, &words],
    );

    stage.before(ME, Some(Fetched::Node(FREE)));
    let free = layout::node_at(sizes, FREE);
    let locks = locks(&stage, 0, &[node(FREE), flag(FREE)]);
    let damaged = [&walk(&stage)[..], &locks, &stage.judged(free)];
    work(
        &stage,
        "fetch of a slot's node",
        &damaged,
        &[&walked, &stage.contents(free)],
    );
}

/// A fetch that finds a difference doesn't read the object, but what every abort reads.
#[test]
fn fetch_that_aborts() {
    let mut stage = alone(Lookup { key: 10 });
    stage.before(ME, None);
    stage.step(WORK);
    stage.given(ME, Lookup { key: 70 });
    let place = standing(&stage, 0, node(LEFT));
    let stage = stage.with(place, stage.word(place) + 1);
    let damaged = [
        &used_metadata(&stage, Set::Reads)[..],
        &used_root(&stage, Set::Reads, 1),
        &stage.kinds(ME, Set::Reads),
        &checks(&stage, 0, &TO_LEFT),
        &stage.fields(ME, &[PREPARED]),
    ];
    let walked = contents(&stage, Set::Reads, &[ROOT]);
    work(&stage, "fetch that aborts", &damaged, &[&walked]);
    assert_eq!(stage.clone().step(WORK), DIFFERS);
}

/// An answer reads what the operation uses, and nothing of servers.
#[test]
fn answers() {
    for (name, operation) in [
        ("answer of a lookup", Lookup { key: 10 }),
        ("answer of an insert", insert(10)),
        ("answer of a delete", Delete { key: 3 }),
        ("answer of a list", list(3, 11)),
    ] {
        let mut stage = alone(operation);
        stage.before(ME, None);
        let damaged = [
            &used_metadata(&stage, Set::Reads)[..],
            &used_root(&stage, Set::Reads, 0),
            &used(&stage, Set::Reads, LEFT),
        ];
        let walked = contents(&stage, Set::Reads, &[ROOT, LEFT]);
        work(&stage, name, &damaged, &[&walked]);
    }
}

/// A list reads on to the leaf at its right, down from the root: the leaf before is judged at each step, and its pairs are taken.
#[test]
fn lists_that_read_on() {
    let mut stage = alone(list(3, 12));
    let walk = |stage: &Stage| {
        let on = stage.record(ME, Set::Reads, node(ROOT)) + SLOTS.start + 1;
        [
            used_metadata(stage, Set::Reads),
            used_root(stage, Set::Reads, 0),
            used(stage, Set::Reads, LEFT),
            vec![on],
        ]
        .concat()
    };
    stage.before(ME, Some(Fetched::Node(MIDDLE)));
    let middle = layout::node_at(stage.sizes, MIDDLE);
    let damaged = [
        &walk(&stage)[..],
        &checks(&stage, 0, &TO_LEFT),
        &locks(&stage, 0, &[node(MIDDLE)]),
        &stage.judged(middle),
    ];
    let walked = contents(&stage, Set::Reads, &[ROOT, LEFT]);
    let taken = [&walked[..], &stage.contents(middle)];
    work(&stage, "fetch of a list's second leaf", &damaged, &taken);

    stage.before(ME, None);
    let damaged = [&walk(&stage)[..], &used(&stage, Set::Reads, MIDDLE)];
    let walked = contents(&stage, Set::Reads, &[ROOT, LEFT, MIDDLE]);
    work(
        &stage,
        "answer of a list of two leaves",
        &damaged,
        &[&walked],
    );
    assert_eq!(stage.step(WORK), Outcome::Answered(Answer { a: 12, b: 0 }));
}

/// Server 1 is gone, and `RIGHT` has moved to server 0.
fn without_server_1(mut stage: Stage) -> Stage {
    stage.step(Step::CloseServer { server: 1 });
    stage.transaction(OTHER, &[migrate(RIGHT, 0)]);
    stage.step(Step::RemoveServer { server: 1 });
    stage
}

/// At an absent server nothing is checked: a fetch there reads what led to it, a prepare who takes part and which objects are read and written, and
/// both what every abort reads.
#[test]
fn absent_servers() {
    let mut stage = alone(Lookup { key: 150 });
    stage.before(ME, Some(Fetched::Node(RIGHT)));
    let stage = without_server_1(stage);
    let damaged = [
        &used_metadata(&stage, Set::Reads)[..],
        &used_root(&stage, Set::Reads, 2),
        &stage.fields(ME, &[PREPARED]),
    ];
    let walked = contents(&stage, Set::Reads, &[ROOT]);
    work(&stage, "fetch at an absent server", &damaged, &[&walked]);
    assert_eq!(stage.clone().step(WORK), DIFFERS);

    let mut stage = tree();
    stage.opened(ME, &[insert(150)]);
    stage.prepared(ME, &[]);
    let stage = without_server_1(stage);
    let servers = stage.fields(ME, &[PARTICIPANTS, PREPARED]);
    let damaged = [&servers[..], &objects(&stage)];
    reads(
        &stage,
        "prepare at an absent server",
        prepare(1),
        &damaged,
        &[],
    );
    assert_eq!(stage.clone().step(prepare(1)), DIFFERS);
}

/// States that call all servers absent are out of range wherever the metadata is used: in the copy, but for 0, which says that there is none; in
/// the read set, for work and for a commit that all servers take part in; in the write set, for an apply.
#[test]
fn states_of_no_server() {
    let mut copied = tree();
    copied.step(BEGIN);
    copied.given(ME, Lookup { key: 10 });
    let mut working = alone(Lookup { key: 10 });
    working.before(ME, Some(Fetched::Node(ROOT)));
    let mut decided = tree();
    decided.opened(ME, &[migrate(ROOT, 1)]);
    decided.prepared(ME, &[0, 1]);
    let [leaves, split] = [shared(), split()];
    let read = |stage: &Stage| used_states(stage, Set::Reads);
    for word in [0, 0x100, 0xff00] {
        let mut copy = copied.with(copied.field(ME, META_STATES), word);
        let due = match word {
            0 => Outcome::Fetched(Fetched::Metadata),
            _ => DAMAGED,
        };
        assert_eq!(copy.tried(WORK), due, "the copy with states {word:x}");
        let mut work = working.with(read(&working), word);
        assert_eq!(work.tried(WORK), DAMAGED);
        assert_eq!(split.with(read(&split), word).tried(COMMIT), DAMAGED);
        let mut two = leaves.with(read(&leaves), word);
        assert_eq!(two.tried(COMMIT), Outcome::Done, "they are not asked");
        let mut apply_0 = decided.with(used_states(&decided, Set::Writes), word);
        assert_eq!(apply_0.tried(apply(0)), DAMAGED);
    }
}

/// A change of the servers reads where each client stands, and the metadata of the lowest server that is there; an add also the tables that it takes
/// the largest versions from, a removal the server's flags. Of the other servers' states it reads two bits each.
#[test]
fn changes_of_servers() {
    let due = |stage: &Stage| {
        let lowest = layout::server_at(stage.sizes, 0);
        let phases = [ME, OTHER].map(|client| stage.field(client, PHASE));
        let metadata = [layout::ROOT, STATES].map(|i| lowest + i);
        Due {
            damaged: [phases, metadata].concat(),
            version: vec![lowest + METADATA_VERSION],
            ..Due::default()
        }
    };
    let add = Step::AddServer { server: 5 };
    let tables = |stage: &Stage| [0, 1, 5].map(|server| layout::table_at(stage.sizes, server));
    let mut stage = tree();
    let mut read = due(&stage);
    read.damaged.extend(tables(&stage).concat());
    stage.reads("add a server", add, read);

    let close = Step::CloseServer { server: 1 };
    stage.reads("close a server", close, due(&stage));

    stage.step(close);
    stage.transaction(OTHER, &[migrate(RIGHT, 0)]);
    let vector = layout::server_at(stage.sizes, 1) + VECTOR;
    let mut read = due(&stage);
    read.slots.extend(vector..vector + 16);
    let remove = Step::RemoveServer { server: 1 };
    stage.reads("remove a server", remove, read);

    // of a client that has committed also whether a server has prepared
    let mut stage = shared();
    stage.step(Step::GiveUp { client: OTHER });
    stage.prepared(ME, &[]);
    let mut read = due(&stage);
    read.damaged.extend(tables(&stage).concat());
    read.unfit.extend(stage.fields(ME, &[PREPARED]));
    stage.reads("add a server beside a committing client", add, read);
}

/// The count of a list that waits: 12 where the output is too short for it, whatever it is; else 10 where it is not 1 to 32. At a fetch and at
/// the answer.
#[test]
fn stored_counts() {
    let before = alone(list(3, 11));
    let mut answering = before.clone();
    answering.before(ME, None);
    let mut tries = 0;
    for stage in [before, answering] {
        let count = stage.field(ME, OP_VALUE);
        let mut try_count = |stored: u64, room: usize, due| {
            let mut stage = stage.with(count, stored);
            stage.output = vec![0xa5; room];
            assert_eq!(stage.tried(WORK), due, "count {stored} with {room} bytes");
            tries += 1;
        };
        for (stored, enough) in [(0, 0), (33, 528), (34, 544), (1000, 16_000)] {
            try_count(stored, enough, DAMAGED);
            try_count(stored, enough + 1, DAMAGED);
            if enough > 0 {
                try_count(stored, enough - 1, SHORT);
            }
        }
        // 16 times these is above 2^64, or 0 in 64 bits
        for stored in [1 << 60, 1 << 63, u64::MAX] {
            for room in [0, 512, 16_000] {
                try_count(stored, room, SHORT);
            }
        }
    }
    println!("{tries} stored counts of lists");
}

/// A split reads the slot that it takes, and of its server's vector whether there is a copy; flags written before are counted in it. What is
/// written again is read from the write set, but for its version.
#[test]
fn answers_of_splits() {
    let mut stage = alone(insert(8));
    stage.before(ME, None);
    let vector = layout::vector_copy_at(stage.sizes, ME as usize, 0);
    let damaged = [
        &used_metadata(&stage, Set::Reads)[..],
        &used_root(&stage, Set::Reads, 0),
        &used(&stage, Set::Reads, LEFT),
        &used(&stage, Set::Reads, FREE),
        &[vector, used_flag(&stage, Set::Reads, FREE)],
    ];
    let walked = contents(&stage, Set::Reads, &[ROOT, LEFT]);
    work(&stage, "answer of a split", &damaged, &[&walked]);

    for key in 71..79 {
        stage.step(WORK);
        stage.given(ME, insert(key));
        stage.before(ME, None);
    }
    let next = FREE + 1;
    let flags = [
        used_flag(&stage, Set::Reads, next),
        used_flag(&stage, Set::Writes, FREE),
    ];
    let damaged = [
        &used_metadata(&stage, Set::Reads)[..],
        &used_root(&stage, Set::Writes, 2),
        &used(&stage, Set::Writes, MIDDLE),
        &used(&stage, Set::Reads, next),
        &versions(&stage, &[node(ROOT), node(MIDDLE)]),
        &[vector],
        &flags,
    ];
    let walked = contents(&stage, Set::Writes, &[ROOT, MIDDLE]);
    work(&stage, "answer of a second split", &damaged, &[&walked]);
}

// ---- the order of reading

/// Something to be found: in whose turn and after what there, the word that is set for it, and what the step then comes to.
struct Finding {
    turn: (usize, usize),
    place: usize,
    word: u64,
    due: Outcome,
}

fn finding(turn: (usize, usize), place: usize, word: u64, due: Outcome) -> Finding {
    Finding {
        turn,
        place,
        word,
        due,
    }
}

/// What can be found of an object at server 0, in the order of reading: kinds, the lock, busy (2), both versions, a difference (1).
fn findings(stage: &Stage, turn: usize, object: u64, kinds: &[usize]) -> Vec<Finding> {
    let (lock, stands) = (locks(stage, 0, &[object])[0], standing(stage, 0, object));
    let read = versions(stage, &[object])[0];
    let mut all = vec![
        finding((turn, 1), lock, WRITER + 2, DAMAGED),
        finding((turn, 2), lock, WRITER + OTHER, BUSY),
        finding((turn, 3), stands, LAST_VERSION + 1, DAMAGED),
        finding((turn, 3), read, LAST_VERSION + 1, DAMAGED),
        finding((turn, 4), stands, stage.word(stands) + 1, DIFFERS),
    ];
    all.extend(kinds.iter().map(|at| finding((turn, 0), *at, 3, DAMAGED)));
    all
}

/// Any two of these at once: the first decides, and the second is not read.
fn first_decides(name: &str, stage: &Stage, step: Step, all: &[Finding]) {
    let mut count = 0;
    for one in all {
        for two in all.iter().filter(|two| two.place != one.place) {
            let mut both = stage.with(one.place, one.word).with(two.place, two.word);
            let first = if one.turn <= two.turn { one } else { two };
            let told = format!("{name}: {:?} and {:?}", one.turn, two.turn);
            assert_eq!(both.tried(step), first.due, "{told}");
            count += 1;
        }
    }
    println!("{name}: {count} pairs of findings");
}

#[test]
fn prepare_in_order() {
    let mut stage = contested();
    stage.opened(ME, &[Delete { key: 7 }, insert(76), insert(150)]);
    stage.prepared(ME, &[]);
    let kind = |set, name| stage.record(ME, set, node(name)) + KIND;
    let mut all = findings(&stage, 0, METADATA, &[]);
    all.extend(findings(&stage, 1, node(ROOT), &[kind(Set::Reads, ROOT)]));
    for (turn, name) in [(2, LEFT), (3, MIDDLE)] {
        let kinds = [kind(Set::Reads, name), kind(Set::Writes, name)];
        all.extend(findings(&stage, turn, node(name), &kinds));
    }
    first_decides("prepare", &stage, prepare(0), &all);
}

/// A fetch, too: after the walk, which reads the records that it uses; and the object fetched comes last.
#[test]
fn fetch_in_order() {
    let mut stage = contested();
    stage.opened(ME, &[Lookup { key: 7 }]);
    stage.given(ME, Lookup { key: 70 });
    stage.before(ME, Some(Fetched::Node(MIDDLE)));
    let mut all = findings(&stage, 1, METADATA, &[]);
    all.extend(findings(&stage, 2, node(ROOT), &[]));
    let kind = stage.record(ME, Set::Reads, node(LEFT)) + KIND;
    all.extend(findings(&stage, 3, node(LEFT), &[kind]));
    let walk = [
        used_metadata(&stage, Set::Reads),
        used_root(&stage, Set::Reads, 1),
    ]
    .concat();
    all.retain(|found| !walk.contains(&found.place));
    let first = walk
        .iter()
        .map(|at| finding((0, 0), *at, u64::MAX, DAMAGED));
    all.extend(first);
    let lock = locks(&stage, 0, &[node(MIDDLE)])[0];
    all.push(finding((4, 1), lock, WRITER + 2, DAMAGED));
    all.push(finding((4, 2), lock, WRITER + OTHER, BUSY));
    let whole = stage.judged(layout::node_at(stage.sizes, MIDDLE));
    let last = whole
        .iter()
        .map(|at| finding((4, 3), *at, u64::MAX, DAMAGED));
    all.extend(last);
    first_decides("fetch", &stage, WORK, &all);
}

/// With 96 objects read, of the next one the lock is read, and no more; of the last one all.
#[test]
fn object_97() {
    let mut stage = Stage::new(1, 128, 2);
    for key in 0..750 {
        stage.transaction(OTHER, &[insert(key)]);
    }
    stage.step(BEGIN);
    let mut before = stage.clone();
    let mut operations = (0..750).step_by(7).map(|key| Lookup { key });
    loop {
        let mut next = stage.clone();
        match next.tried(WORK) {
            Outcome::Fetched(_) => before = stage,
            Outcome::Answered(_) => {}
            Outcome::Aborted(_) => break,
            _ => next.given(ME, operations.next().expect("more leaves")),
        }
        stage = next;
    }
    let [last, next] = [&before, &stage].map(|stage| {
        let key = stage.word(stage.field(ME, OP_KEY));
        layout::leaf_of(&stage.memory, stage.sizes, key)
    });
    let count = stage.field(ME, READS);
    assert_eq!((before.word(count), stage.word(count)), (95, 96));
    let [of_last, of_next] = [last, next].map(|x| stage.judged(layout::node_at(stage.sizes, x)));
    for place in &of_last {
        assert_eq!(before.with(*place, u64::MAX).tried(WORK), DAMAGED);
    }
    for place in &of_next {
        assert_eq!(stage.with(*place, u64::MAX).tried(WORK), TOO_MANY);
    }
    let lock = locks(&stage, 0, &[node(next)])[0];
    assert_eq!(stage.with(lock, WRITER + 2).tried(WORK), DAMAGED);
    let (read, unread) = (of_last.len() + 1, of_next.len());
    println!("objects 96 and 97: {read} words refused by 10, {unread} not read");
}

// ---- what writes point to

/// The read of a written object is named as that of another one. Commit is refused; every apply, which looks whether a node was inner and where
/// it is stored writes the version read plus 1, but for a flag, which has neither; and work that writes the object again.
#[test]
fn writes_without_reads() {
    let open = split();
    let mut decided = open.clone();
    decided.prepared(ME, &[0, 1]);
    let mut again = open.clone();
    again.given(ME, insert(5));
    let [at_0, at_1] = [0, 1].map(Outcome::Applied);
    let mut tries = 0;
    for (object, applies, answer) in [
        (node(ROOT), [DAMAGED; 2], ANSWERED_0),
        (node(LEFT), [DAMAGED; 2], DAMAGED),
        (node(FREE), [DAMAGED; 2], ANSWERED_0),
        (flag(FREE), [at_0, at_1], ANSWERED_0),
    ] {
        let number = open.number(ME, Set::Reads, object);
        let mut without = |stage: &Stage, step, due| {
            let found = stage.with(number, object + 4).tried(step);
            assert_eq!(found, due, "{step:?} without the read of {object}");
            tries += 1;
        };
        without(&open, COMMIT, DAMAGED);
        without(&decided, apply(0), applies[0]);
        without(&decided, apply(1), applies[1]);
        without(&again, WORK, answer);
    }
    println!("{tries} steps without a written object's read");
}

/// The last version is in range, and has no next one: work that would write it aborts by 8, an apply where it is stored is refused by 10.
#[test]
fn last_version() {
    let read_last = |stage: &Stage, name| {
        let place = versions(stage, &[node(name)])[0];
        stage.with(place, LAST_VERSION)
    };
    let mut stage = shared();
    stage.given(ME, Insert { key: 5, value: 1 });
    let reason_8 = Outcome::Aborted(Reason::LastVersion);
    assert_eq!(read_last(&stage, LEFT).tried(WORK), reason_8);
    assert_eq!(read_last(&stage, RIGHT).tried(WORK), ANSWERED_0);
    stage.step(WORK);
    stage.prepared(ME, &[0, 1]);
    for (name, server, due) in [
        (LEFT, 0, DAMAGED),
        (LEFT, 1, Outcome::Applied(1)),
        (RIGHT, 0, Outcome::Applied(0)),
        (RIGHT, 1, DAMAGED),
    ] {
        assert_eq!(read_last(&stage, name).tried(apply(server)), due);
    }
    // the only participant's prepare, where nothing differs
    let mut only = tree();
    only.opened(ME, &[Delete { key: 7 }]);
    only.prepared(ME, &[]);
    let stands = standing(&only, 0, node(LEFT));
    let mut same = read_last(&only, LEFT).with(stands, LAST_VERSION);
    assert_eq!(same.tried(prepare(0)), DAMAGED);
}

// ---- what locks point to

/// A lock's holder has a transaction, of any phase; a writer's write set has the object.
#[test]
fn holders() {
    let mut stage = contested();
    stage.opened(ME, &[insert(76), insert(150)]);
    stage.prepared(ME, &[]);
    let (phase, count) = (stage.field(OTHER, PHASE), stage.field(OTHER, WRITES));
    let [root, middle] = [ROOT, MIDDLE].map(|x| locks(&stage, 0, &[node(x)])[0]);
    let prepared = Outcome::Prepared(0);
    let mut tries = [0; 3];
    let mut try_lock = |stage: &Stage, lock, word, due| {
        let found = stage.with(lock, word).tried(prepare(0));
        assert_eq!(found, due, "lock {word}");
        let kind = [DAMAGED, BUSY, prepared].iter().position(|x| *x == due);
        tries[kind.expect("one of three")] += 1;
    };
    for value in 0..=4 {
        let there = (1..=3).contains(&value);
        let stage = stage.with(phase, value);
        let or_damaged = |outcome| if there { outcome } else { DAMAGED };
        try_lock(&stage, root, 1 << OTHER, or_damaged(prepared));
        try_lock(&stage, middle, 1 << OTHER, or_damaged(BUSY));
        try_lock(&stage, middle, WRITER + OTHER, or_damaged(BUSY));
        for writes in [0, 49] {
            let stage = stage.with(count, writes);
            try_lock(&stage, middle, 1 << OTHER, or_damaged(BUSY));
            try_lock(&stage, middle, WRITER + OTHER, DAMAGED);
        }
    }
    // one's own: as the writer of what one writes
    try_lock(&stage, middle, WRITER + ME, prepared);
    try_lock(&stage, root, WRITER + ME, DAMAGED);
    for word in [1 << 2, WRITER - 1, WRITER + 2, u64::MAX] {
        try_lock(&stage, root, word, DAMAGED);
    }
    let [damaged, busy, free] = tries;
    println!("locks: {damaged} refused by 10, {busy} busy, {free} not in the way");
}

/// What is copied of nodes is inner: a place that holds a leaf is refused where it is used, and only there.
#[test]
fn leaf_among_copies() {
    let mut stage = tree();
    stage.step(BEGIN);
    stage.given(ME, Lookup { key: 10 });
    let leaf = |place: usize| stage.with(place + KIND, 1).with(place + LEVEL, 0);
    let root = stage.record(ME, Set::Copies, node(ROOT));
    assert_eq!(leaf(root).tried(WORK), DAMAGED);
    let empty = stage.items(ME, Set::Copies)[1];
    let unused = leaf(empty.record).with(empty.number, node(MIDDLE));
    let fetched = Outcome::Fetched(Fetched::Node(LEFT));
    assert_eq!(unused.clone().tried(WORK), fetched);
    let mut used = unused.with(stage.field(ME, OP_KEY), 70);
    assert_eq!(used.tried(WORK), DAMAGED);
}

// ---- a client that starts afresh

/// A client whose part is damaged in any word is lost, begins again, and commits; but for what its abort reads.
#[test]
fn lost_and_begun_again() {
    let open = shared();
    let mut locked = shared();
    locked.prepared(ME, &[0]);
    let phase = open.fields(ME, &[PHASE]);
    let abort = open.fields(ME, &[PHASE, PREPARED, READS]);
    let abort = [abort, open.numbers(ME, Set::Reads)].concat();
    let participants = open.fields(ME, &[PARTICIPANTS]);
    let unlock = [&abort[..], &participants, &kinds(&locked)].concat();
    let aborted = Outcome::Aborted(Reason::Lost);
    for (name, stage, read, outcome) in [
        ("no transaction", tree(), phase, Outcome::Done),
        ("an open one", open, abort, aborted),
        ("one prepared at a server", locked, unlock, aborted),
    ] {
        let part = stage.field(ME, 0)..stage.field(OTHER, 0);
        let mut refused = 0;
        for place in part.clone() {
            let mut damaged = stage.with(place, u64::MAX);
            let judged = read.contains(&place);
            let due = if judged { DAMAGED } else { outcome };
            let told = format!("{name}: word {}", place - part.start);
            assert_eq!(damaged.tried(LOSE), due, "{told}");
            if judged {
                refused += 1;
                continue;
            }
            damaged.transaction(ME, &[Insert { key: 3, value: 9 }]);
            let pairs = layout::pairs(&damaged.memory, damaged.sizes);
            assert!(pairs.contains(&(3, 9)) && pairs.len() == 29);
        }
        let again = part.len() - refused;
        println!("lost with {name}: {refused} words refused by 10, {again} begun again");
    }
}
