//! Class lists: in transactions and over ranges beside a plain map, and by single steps, with every byte of the output.

mod common;

use common::layout;
use common::stage::Stage;
use common::{inputs, tried, Random, LONGEST};
use gemandrolo::{
    Answer, Failure, Operation, Outcome, Reason, Refusal, Sizes, Step, Store, Transaction,
    MAX_PAIRS, PAIR_BYTES,
};
use std::cell::Cell;
use std::collections::BTreeMap;
use std::ops::{Bound, Range, RangeBounds, RangeInclusive};
use std::rc::Rc;

type Map = BTreeMap<u64, u64>;

fn store(servers: usize, slots: usize) -> Store<Vec<u8>> {
    let sizes = Sizes {
        servers,
        slots,
        clients: 2,
    };
    Store::new(sizes).expect("allowed sizes")
}

/// A store and the map that it holds: keys in a scattered order.
fn filled(keys: impl Iterator<Item = u64>) -> (Store<Vec<u8>>, Map) {
    let mut random = Random(7);
    let map: Map = keys.map(|key| (key, random.next())).collect();
    let mut pairs: Vec<(u64, u64)> = map.iter().map(|(k, v)| (*k, *v)).collect();
    pairs.sort_by_key(|(key, _)| key.wrapping_mul(0x9e37_79b9_7f4a_7c15));
    let mut store = store(8, 1024);
    for (key, value) in pairs {
        let told = store.transaction(0, 9, |t| t.insert(key, value));
        assert_eq!(told, Ok(true));
    }
    (store, map)
}

/// Some hundred keys, the least and the largest too: many leaves, on several servers.
fn hundreds() -> (Store<Vec<u8>>, Map) {
    filled((0..400).map(|i| 10 * i).chain(u64::MAX - 20..=u64::MAX))
}

fn due(map: &Map, from: u64, count: usize) -> Vec<(u64, u64)> {
    let pairs = map.range(from..).map(|(k, v)| (*k, *v));
    pairs.take(count).collect()
}

// ---- in transactions

#[test]
fn an_empty_store() {
    let mut store = store(2, 16);
    for from in [0, 1, u64::MAX] {
        for count in [1, MAX_PAIRS] {
            assert_eq!(store.transaction(0, 1, |t| t.list(from, count)), Ok(vec![]));
        }
        assert_eq!(
            store.transaction(0, 1, |t| Ok(t.range(from..).count())),
            Ok(0)
        );
    }
}

/// From every key, from before and behind it, for all counts: the map's pairs, fewer only at the end.
#[test]
fn beside_a_map() {
    let (mut store, map) = hundreds();
    let keys: Vec<u64> = map.keys().copied().collect();
    let (mut lists, mut fewer) = (0, 0);
    for key in keys {
        for from in [key.saturating_sub(1), key, key.saturating_add(1)] {
            let counts = [1, 2, 7, 14, 15, 31, MAX_PAIRS];
            let told = store.transaction(1, 9, |t| {
                counts
                    .iter()
                    .map(|count| t.list(from, *count))
                    .collect::<Result<Vec<_>, _>>()
            });
            for (pairs, count) in told.expect("it passes").into_iter().zip(counts) {
                assert_eq!(pairs, due(&map, from, count), "{count} from {from} on");
                fewer += (pairs.len() < count) as usize;
                lists += 1;
            }
        }
    }
    println!("{lists} lists, {fewer} of fewer pairs than asked for");
    assert!(fewer > 0);
}

/// What the transaction has inserted, changed and deleted is in the list, and not before it is decided in another's.
#[test]
fn own_writes() {
    let (mut store, mut map) = hundreds();
    let before = map.clone();
    let told = store.transaction(0, 9, |t| {
        t.insert(105, 1)?;
        t.insert(110, 2)?;
        t.delete(120)?;
        (131..139).try_for_each(|key| t.insert(key, 3).map(drop))?;
        t.list(100, MAX_PAIRS)
    });
    map.extend([(105, 1), (110, 2)]);
    map.extend((131..139).map(|key| (key, 3)));
    map.remove(&120);
    assert_eq!(told, Ok(due(&map, 100, MAX_PAIRS)));
    assert_eq!(
        store.transaction(1, 9, |t| t.list(100, 20)),
        Ok(due(&map, 100, 20))
    );

    let (mut store, _) = hundreds();
    let given_up: Result<(), Failure> = store.transaction(0, 9, |t| {
        t.delete(100)?;
        assert_eq!(t.list(100, 1)?, due(&before, 101, 1));
        t.give_up()
    });
    assert_eq!(given_up, Err(Failure::Aborted(Reason::GivenUp)));
    assert_eq!(
        store.transaction(1, 9, |t| t.list(100, 1)),
        Ok(due(&before, 100, 1))
    );
}

#[test]
fn counts_that_are_refused() {
    let mut store = store(2, 16);
    for count in [0, 33, 1 << 60, usize::MAX] {
        let told = store.transaction(0, 3, |t| t.list(0, count));
        assert_eq!(told, Err(Failure::Refused(Refusal::Count)));
    }
    assert_eq!(store.transaction(0, 1, |t| t.list(0, 1)), Ok(vec![]));
}

// ---- ranges

/// A range's pairs in one transaction.
fn range(store: &mut Store<Vec<u8>>, keys: (Bound<u64>, Bound<u64>)) -> Vec<(u64, u64)> {
    let told = store.transaction(1, 9, |t| t.range(keys).collect::<Result<Vec<_>, _>>());
    told.expect("it passes")
}

#[test]
fn the_whole_map() {
    for pairs in [1, 31, 32, 33, 63, 64, 65, 420] {
        let (mut store, map) = filled(0..pairs);
        let all = range(&mut store, (Bound::Unbounded, Bound::Unbounded));
        assert!(all.into_iter().eq(map), "{pairs} pairs");
    }
    let (mut store, map) = hundreds();
    let all = range(&mut store, (Bound::Unbounded, Bound::Unbounded));
    assert!(all.into_iter().eq(map));
}

/// Mostly between the first keys, often at one end of all of them.
fn bound(random: &mut Random) -> Bound<u64> {
    let (low, high) = (random.below(4050), u64::MAX - random.below(23));
    let key = random.pick(&[low, low, low, high, 0, 1, u64::MAX]);
    match random.below(5) {
        0 => Bound::Unbounded,
        1 | 2 => Bound::Excluded(key),
        _ => Bound::Included(key),
    }
}

/// Ranges that begin and end anywhere: at keys and between them, at 0 and at 2^64 - 1, with their ends or without. Where one ends before it
/// starts a map's range panics; here it is empty.
#[test]
fn any_ranges() {
    let (mut store, map) = hundreds();
    let mut random = Random(3);
    let (mut empty, mut pairs) = (0, 0);
    for _ in 0..inputs(3000) {
        let keys = (bound(&mut random), bound(&mut random));
        let within = map.iter().filter(|(key, _)| keys.contains(*key));
        let due: Vec<(u64, u64)> = within.map(|(k, v)| (*k, *v)).collect();
        assert_eq!(range(&mut store, keys), due, "{keys:?}");
        empty += due.is_empty() as usize;
        pairs += due.len();
    }
    let ranges = inputs(3000);
    println!("{ranges} ranges, {empty} of them empty, {pairs} pairs");
}

/// Memory that counts how often it is lent: once a step.
struct Counted {
    memory: Vec<u8>,
    lent: Rc<Cell<usize>>,
}

impl AsMut<[u8]> for Counted {
    fn as_mut(&mut self) -> &mut [u8] {
        self.lent.set(self.lent.get() + 1);
        &mut self.memory
    }
}

/// A range asks for nothing where it has no key, else for no more pairs than it has keys, and for no more behind a list of fewer: it takes as
/// many steps as one list.
#[test]
fn ranges_of_few_keys() {
    let (store, _) = filled(0..100);
    let (memory, lent) = (store.into_memory(), Rc::new(Cell::new(0)));
    let counted = Counted {
        memory,
        lent: lent.clone(),
    };
    let mut store = Store::resume(counted).expect("a store");
    let mut steps = |body: fn(&mut Transaction<Counted>) -> Result<usize, Failure>| {
        lent.set(0);
        let told = store.transaction(0, 1, body);
        (told.expect("it passes"), lent.get())
    };
    const ABOVE_ALL: (Bound<u64>, Bound<u64>) = (Bound::Excluded(u64::MAX), Bound::Unbounded);
    let nothing = steps(|_| Ok(0));
    assert_eq!(steps(|t| Ok(t.range(6..6).count())), nothing);
    assert_eq!(steps(|t| Ok(t.range(..0).count())), nothing);
    assert_eq!(steps(|t| Ok(t.range(ABOVE_ALL).count())), nothing);
    let backward = steps(|t| Ok(t.range(RangeInclusive::new(6, 5)).count()));
    assert_eq!(backward, nothing);
    let two = steps(|t| Ok(t.list(4, 2)?.len()));
    assert_eq!(steps(|t| Ok(t.range(4..6).count())), two);
    let most = steps(|t| Ok(t.list(4, MAX_PAIRS)?.len()));
    assert_eq!(steps(|t| Ok(t.range(4..36).count())), most);
    assert!(most.1 > two.1, "a long list reads more leaves");
    let rest = steps(|t| Ok(t.list(90, MAX_PAIRS)?.len()));
    assert_eq!(steps(|t| Ok(t.range(90..).count())), rest);
}

/// A thousand leaves: of all pairs so many get through as 96 objects have, then it aborts by 4 and nothing follows. In parts all can be read.
#[test]
fn a_range_that_reads_too_many() {
    for (name, factor) in [("rising", 1), ("scattered", 0x9e37_79b9_7f4a_7c15)] {
        let key = |i: u64| i.wrapping_mul(factor);
        let mut store = store(8, 1024);
        for i in 0..10_000 {
            let told = store.transaction(0, 9, |t| t.insert(key(i), i));
            assert_eq!(told, Ok(true));
        }
        let mut listed = 0;
        let told = store.transaction(1, 9, |t| {
            let mut pairs = t.range(..);
            listed = pairs.by_ref().take_while(Result::is_ok).count();
            assert!(pairs.next().is_none(), "nothing follows a failure");
            t.range(..).try_for_each(|pair| pair.map(drop))
        });
        assert_eq!(told, Err(Failure::Refused(Refusal::Unfit)), "it has ended");
        let whole = store.transaction(1, 9, |t| t.range(..).try_for_each(|pair| pair.map(drop)));
        assert_eq!(whole, Err(Failure::Aborted(Reason::TooMany)));
        assert!((500..1250).contains(&listed), "{name}: {listed}");
        let parts = in_parts(&mut store, 500);
        assert_eq!(parts.len(), 10_000);
        assert!(parts.is_sorted() && parts.iter().all(|(k, i)| *k == key(*i)));
        println!("{name}: {listed} pairs in one transaction");
    }
}

/// All pairs, so many in a transaction.
fn in_parts(store: &mut Store<Vec<u8>>, most: usize) -> Vec<(u64, u64)> {
    let mut all: Vec<(u64, u64)> = Vec::new();
    loop {
        let behind = all
            .last()
            .map_or(Bound::Unbounded, |(key, _)| Bound::Excluded(*key));
        let part = store.transaction(1, 9, |t| {
            let pairs = t.range((behind, Bound::Unbounded));
            pairs.take(most).collect::<Result<Vec<_>, _>>()
        });
        match part.expect("it passes") {
            part if part.is_empty() => return all,
            part => all.extend(part),
        }
    }
}

// ---- by single steps

const BLANK: u8 = 0xa5;
const SHORT: Outcome = Outcome::Refused(Refusal::ShortOutput);
const COUNT: Outcome = Outcome::Refused(Refusal::Count);
const UNFIT: Outcome = Outcome::Refused(Refusal::Unfit);

const BEGIN: Step = Step::Begin { client: 0 };
const WORK: Step = Step::Work { client: 0 };

fn list(key: u64, count: u64) -> Operation {
    Operation::List { key, count }
}

fn give(operation: Operation) -> Step {
    Step::Give {
        client: 0,
        operation,
    }
}

fn listed(a: u64) -> Outcome {
    Outcome::Answered(Answer { a, b: 0 })
}

/// Keys 0 to 29 with values 1,000 above them, in three leaves and more; client 0 has no copies. Every step of a stage is held to what it may
/// change of its output, and a refused one changes no byte.
fn stage() -> Stage {
    let mut stage = Stage::new(2, 16, 2);
    for key in 0..30 {
        let value = 1000 + key;
        stage.transaction(1, &[Operation::Insert { key, value }]);
    }
    stage.output = vec![BLANK; LONGEST];
    stage
}

/// The bytes of pairs as they stand in an output.
fn bytes(keys: Range<u64>) -> Vec<u8> {
    let words = keys.flat_map(|key| [key, 1000 + key]);
    words.flat_map(u64::to_le_bytes).collect()
}

/// The output has these pairs, and behind them what it had before.
fn assert_has(stage: &Stage, keys: Range<u64>) {
    let pairs = bytes(keys);
    assert!(stage.output.starts_with(&pairs));
    assert!(stage.output[pairs.len()..]
        .iter()
        .all(|byte| *byte == BLANK));
}

/// Works until the list is answered: how often it fetched. Until then the output stays as it was.
fn worked(stage: &mut Stage, answer: Outcome) -> usize {
    let before = stage.output.clone();
    for fetched in 0.. {
        match stage.step(WORK) {
            Outcome::Fetched(_) => assert!(stage.output == before),
            outcome => {
                assert_eq!(outcome, answer);
                return fetched;
            }
        }
    }
    unreachable!()
}

/// The step that answers writes, and no other; a later abort, and a commit, leave it as it is.
#[test]
fn what_is_written() {
    for ending in [
        Step::GiveUp { client: 0 },
        Step::Lost { client: 0 },
        Step::Commit { client: 0 },
    ] {
        let mut stage = stage();
        stage.step(BEGIN);
        stage.step(give(list(7, 18)));
        assert_has(&stage, 0..0);
        assert!(worked(&mut stage, listed(18)) > 2);
        assert_has(&stage, 7..25);
        for (operation, answer) in [
            (Operation::Lookup { key: 7 }, Answer { a: 1, b: 1007 }),
            (Operation::Next { key: 7 }, Answer { a: 1, b: 8 }),
            (
                Operation::Insert { key: 7, value: 1 },
                Answer { a: 0, b: 0 },
            ),
            (Operation::Delete { key: 8 }, Answer { a: 1, b: 0 }),
            (list(30, 32), Answer { a: 0, b: 0 }),
        ] {
            stage.step(give(operation));
            worked(&mut stage, Outcome::Answered(answer));
            assert_has(&stage, 7..25);
        }
        stage.step(ending);
        for kind in [4, 5] {
            for server in 0..2 {
                let step = [kind, 0, 0, 0, 0, server];
                tried(&mut stage.memory, &mut stage.output, step);
            }
        }
        assert_has(&stage, 7..25);
    }
}

/// The output is written from its first byte on: a shorter list leaves the rest of a longer one, and with no pair nothing is written.
#[test]
fn over_an_earlier_list() {
    let mut stage = stage();
    stage.opened(
        0,
        &[list(0, 5), list(20, 2), list(29, 32), list(1 << 40, 32)],
    );
    let due = [bytes(29..30), bytes(21..22), bytes(2..5)].concat();
    assert!(stage.output.starts_with(&due));
    assert!(stage.output[due.len()..].iter().all(|byte| *byte == BLANK));
}

/// An abort writes nothing: here another client has changed a leaf that was read.
#[test]
fn an_abort_writes_nothing() {
    let mut stage = stage();
    stage.opened(0, &[list(0, 1)]);
    stage.transaction(1, &[Operation::Insert { key: 0, value: 5 }]);
    stage.step(give(list(0, 30)));
    let mut short = stage.clone();
    short.output.truncate(479);
    assert_eq!(
        short.tried(WORK),
        SHORT,
        "an output too short is told first"
    );
    short.output.push(BLANK);
    for stage in [&mut stage, &mut short] {
        assert_eq!(stage.step(WORK), Outcome::Aborted(Reason::Differs));
        assert_has(stage, 0..1);
    }
}

// ---- refusals

/// 11 comes behind 4, 5 and 6, and before 9; for other operations the value is no count.
#[test]
fn counts_in_order() {
    let mut idle = stage();
    let mut open = stage();
    open.step(BEGIN);
    let mut waiting = open.clone();
    waiting.step(give(list(0, 1)));
    let refusals = [
        ([11, 0, 7, 0, 0, 0], 4),
        ([1, 2, 7, 0, 0, 0], 5),
        ([1, 2, 7, 0, 33, 0], 5),
        ([1, 0, 0, 0, 0, 0], 6),
        ([1, 0, 8, 0, 33, 0], 6),
        ([1, 0, 7, 0, 0, 0], 11),
        ([1, 0, 7, 0, 33, 0], 11),
        ([1, 0, 7, 0, 33, 9], 11),
        ([1, 0, 7, 9_999, 1 << 63, 9], 11),
        ([1, 0, 7, 0, u64::MAX, 0], 11),
    ];
    for stage in [&mut idle, &mut open, &mut waiting] {
        for (step, number) in refusals {
            let told = tried(&mut stage.memory, &mut stage.output, step);
            assert_eq!(told.map(Outcome::numbers), Some([0, number, 0]), "{step:?}");
        }
    }
    for count in [1, 32] {
        assert_eq!(idle.tried(give(list(0, count))), UNFIT);
        assert_eq!(waiting.tried(give(list(0, count))), UNFIT);
        assert_eq!(open.clone().tried(give(list(0, count))), Outcome::Done);
    }
    assert_eq!(idle.tried(give(list(0, 33))), COUNT);
    let value = 33;
    assert_eq!(
        open.step(give(Operation::Insert { key: 0, value })),
        Outcome::Done
    );
}

/// At each of its work steps a list is refused by 12 where the output is a byte too short, and goes on where it is not.
#[test]
fn outputs_too_short() {
    for count in [1, 2, 17, 31, 32] {
        let mut stage = stage();
        let room = PAIR_BYTES * count as usize;
        stage.output = Vec::new();
        assert_eq!(stage.tried(WORK), UNFIT, "9 comes first");
        stage.step(BEGIN);
        assert_eq!(stage.tried(WORK), UNFIT);
        stage.step(give(list(0, count)));
        let mut refused = 0;
        loop {
            for short in [0, 1, room - 16, room - 1] {
                stage.output = vec![BLANK; short];
                assert_eq!(stage.tried(WORK), SHORT, "{count} with {short} bytes");
                refused += 1;
            }
            stage.output = vec![BLANK; room];
            match stage.step(WORK) {
                Outcome::Fetched(_) => assert_has(&stage, 0..0),
                outcome => {
                    assert_eq!(outcome, listed(count.min(30)));
                    break;
                }
            }
        }
        assert_has(&stage, 0..count.min(30));
        println!("a list of {count}: {refused} work steps refused by 12");
    }
}

/// 12 comes before 10.
#[test]
fn outputs_too_short_on_damaged_memory() {
    let mut stage = stage();
    stage.step(BEGIN);
    stage.step(give(list(0, 3)));
    let mut damaged = stage.with(stage.field(0, layout::READS), 97);
    damaged.output.truncate(47);
    assert_eq!(damaged.tried(WORK), SHORT);
    damaged.output.push(BLANK);
    assert_eq!(damaged.tried(WORK), Outcome::Refused(Refusal::Damaged));
}

/// Without an output nothing but a list's work is refused: a list that waits can be given up, or its client lost.
#[test]
fn without_an_output() {
    let mut stage = stage();
    stage.output = Vec::new();
    stage.transaction(
        0,
        &[Operation::Lookup { key: 3 }, Operation::Next { key: 3 }],
    );
    let ends = [
        (
            Step::GiveUp { client: 0 },
            Outcome::Aborted(Reason::GivenUp),
        ),
        (Step::Lost { client: 0 }, Outcome::Aborted(Reason::Lost)),
    ];
    for (step, outcome) in ends {
        stage.step(BEGIN);
        stage.step(give(list(0, 1)));
        assert_eq!(stage.tried(WORK), SHORT);
        assert_eq!(stage.tried(Step::Commit { client: 0 }), UNFIT);
        assert_eq!(stage.step(step), outcome);
    }
    let mut store = Store::resume(stage.memory).expect("a store");
    let steps = [BEGIN, give(list(0, 1)), WORK];
    assert_eq!(store.run(&steps), [Outcome::Done, Outcome::Done, SHORT]);
    assert_eq!(store.step(WORK), SHORT);
    let mut output = [BLANK; PAIR_BYTES];
    while let Outcome::Fetched(_) = store.step_into(WORK, &mut output) {}
    assert_eq!(output[..], bytes(0..1));
}

/// One output for all steps of a run.
#[test]
fn a_run_with_lists() {
    let mut store = Store::resume(stage().memory).expect("a store");
    let mut output = [BLANK; LONGEST];
    let works = [WORK; 6];
    let steps = [
        &[BEGIN, give(list(0, 9))][..],
        &works,
        &[give(list(29, 3))],
        &works,
    ]
    .concat();
    let outcomes = store.run_into(&steps, &mut output);
    let answers: Vec<Outcome> = outcomes
        .into_iter()
        .filter(|outcome| matches!(outcome, Outcome::Answered(_)))
        .collect();
    assert_eq!(answers, [listed(9), listed(1)]);
    let due = [bytes(29..30), bytes(1..9)].concat();
    assert!(output.starts_with(&due));
    assert!(output[due.len()..].iter().all(|byte| *byte == BLANK));
    let first = Answer { a: 2, b: 0 };
    assert_eq!(
        first.pairs(&output).collect::<Vec<_>>(),
        [(29, 1029), (1, 1001)]
    );
    assert_eq!(
        first.pairs(&output[..31]).count(),
        1,
        "what is not there is not read"
    );
}
