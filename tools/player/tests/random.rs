//! Random schedules: the page's data, walked as its script does, ends where the store does.

#[path = "../../../bindings/rust/tests/common/mod.rs"]
mod common;
mod json;

use common::player::{Player, Taste};
use common::{inputs, Random};
use gemandrolo::inspect::View;
use gemandrolo::{Outcome, Reason, Sizes, Store};
use json::Json;
use player::ledger::Ledger;
use player::state::{state, Content, Place, State};
use player::story::OUTPUT;
use player::{encode, page, story, Captions, Schedule};

const STEPS: usize = 300;

fn taste(random: &mut Random) -> Taste {
    Taste {
        keys: random.pick(&[30, 200, u64::MAX]),
        inserts: random.pick(&[50, 90]),
        deletes: random.pick(&[5, 30]),
        migrates: random.pick(&[0, 5]),
        lists: random.pick(&[0, 10]),
        noise: random.pick(&[0, 5]),
        changes: random.pick(&[0, 20]),
        length: random.pick(&[1, 3, 10]),
    }
}

/// A schedule, with the store and the player that it was played on.
fn played(random: &mut Random, sizes: Sizes, taste: Taste) -> (Schedule, Store<Vec<u8>>, Player) {
    let mut player = Player::new(sizes, taste);
    let mut store = Store::new(sizes).expect("allowed sizes");
    let mut steps = Vec::new();
    for _ in 0..STEPS {
        let step = player.choose(random);
        player.take(&mut store, step, OUTPUT);
        steps.push(step);
    }
    (Schedule { sizes, steps }, store, player)
}

/// What is to be seen of the store in the end, by a ledger of its own.
fn seen(schedule: &Schedule, store: &mut Store<Vec<u8>>) -> State {
    let mut ledger = Ledger::default();
    let mut again = Store::new(schedule.sizes).expect("allowed sizes");
    let mut output = [0; OUTPUT];
    for step in &schedule.steps {
        let outcome = again.step_words_into(*step, &mut output);
        ledger.note(*step, outcome, &output);
    }
    let view = View::of(store.memory()).expect("a store");
    state(&view, &ledger)
}

/// The data walked from the start to the end.
fn walked(data: &Json) -> Json {
    let mut things = data.field("start").object().clone();
    for step in data.field("steps").list() {
        for place in step.field("gone").list() {
            assert!(things.remove(place.text()).is_some(), "it was there");
        }
        things.extend(step.field("set").object().clone());
    }
    Json::Object(things)
}

#[test]
fn data_ends_where_the_store_does() {
    let mut decided = 0;
    for seed in 0..inputs(60) as u64 {
        let mut random = Random(seed);
        let sizes = Sizes {
            servers: random.pick(&[1, 2, 8]),
            slots: random.pick(&[2, 12, 100]),
            clients: random.pick(&[1, 2, 5]),
        };
        let taste = taste(&mut random);
        let (schedule, mut store, player) = played(&mut random, sizes, taste);
        let story = story::tell(&schedule);
        let seen = seen(&schedule, &mut store);
        let due = json::read(&encode::state(&seen));
        assert!(
            walked(&json::read(&page::data(&story))) == due,
            "seed {seed}"
        );
        let map = seen
            .iter()
            .filter_map(|(place, content)| match (place, content) {
                (Place::Key(key), Content::Value(value)) => Some((*key, *value)),
                _ => None,
            });
        assert!(map.eq(player.ledger.map.clone()), "seed {seed}");
        let marked = story.moments.iter().filter(|m| page::mark(m) == "decision");
        assert_eq!(marked.count(), player.ledger.decided);
        decided += player.ledger.decided;
    }
    assert!(decided > 0);
}

/// Whatever aborts because something differs or is locked, the page names what is old or locked.
#[test]
fn aborts_have_causes() {
    let mut aborts = [0; 2];
    for seed in 0..inputs(200) as u64 {
        let mut random = Random(seed);
        let sizes = Sizes {
            servers: random.pick(&[2, 3, 5]),
            slots: random.pick(&[3, 12]),
            clients: random.pick(&[3, 6]),
        };
        let taste = Taste {
            keys: 40,
            inserts: 60,
            deletes: 25,
            migrates: 8,
            lists: 3,
            noise: 2,
            changes: random.pick(&[0, 15]),
            length: random.pick(&[1, 2]),
        };
        let (schedule, ..) = played(&mut random, sizes, taste);
        for (number, moment) in story::tell(&schedule).moments.iter().enumerate() {
            let kind = match moment.outcome {
                Outcome::Aborted(Reason::Differs) => 0,
                Outcome::Aborted(Reason::Busy) => 1,
                _ => continue,
            };
            aborts[kind] += 1;
            assert!(!moment.causes.is_empty(), "seed {seed}, step {number}");
        }
    }
    println!("aborted by 1 and 2: {aborts:?}");
    assert!(aborts.iter().all(|n| *n > 0));
}

/// The largest store, keys and values of twenty digits, long transactions: a page of 300 steps stays below 2 MB.
#[test]
fn a_page_is_small() {
    let mut largest = 0;
    for (seed, (clients, length)) in [(1, 2), (1, 12), (2, 30), (16, 3)].into_iter().enumerate() {
        let sizes = Sizes {
            servers: 8,
            slots: 1024,
            clients,
        };
        let taste = Taste {
            keys: u64::MAX,
            inserts: 95,
            deletes: 0,
            migrates: 2,
            lists: 3,
            noise: 0,
            changes: 10,
            length,
        };
        let (schedule, ..) = played(&mut Random(seed as u64), sizes, taste);
        let page = page::write(&story::tell(&schedule), &Captions::default());
        largest = largest.max(page.len());
    }
    println!("the largest page has {largest} bytes");
    assert!(largest < 2_000_000);
}
