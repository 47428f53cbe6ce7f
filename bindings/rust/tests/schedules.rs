//! Random schedules of many clients, with servers that come and go, against a map: the decided transactions, one after another in order of
//! decision, explain every answer and the tree.

mod common;

use common::player::{Player, Taste};
use common::{inputs, layout, Random, LONGEST};
use gemandrolo::{Outcome, Sizes, Store};

const SCHEDULES: usize = 10_000;

fn taste(random: &mut Random) -> Taste {
    let (inserts, deletes) = random.pick(&[(70, 10), (40, 40), (25, 60), (30, 10), (95, 0)]);
    Taste {
        keys: random.pick(&[4, 20, 60, 400, u64::MAX]),
        inserts,
        deletes,
        migrates: random.pick(&[0, 0, 3, 20]),
        lists: random.pick(&[0, 2, 15]),
        noise: random.pick(&[0, 1, 5, 30]),
        changes: random.pick(&[0, 0, 5, 30]),
        length: random.pick(&[1, 2, 4, 12, 300]),
    }
}

fn sizes(random: &mut Random) -> Sizes {
    Sizes {
        servers: random.pick(&[1, 2, 3, 4, 8]),
        slots: random.pick(&[1, 3, 8, 40]),
        clients: random.pick(&[1, 2, 3, 5]),
    }
}

/// Steps that fill the store by one client first, so that trees of some height are met.
fn fill(random: &mut Random, player: &mut Player, store: &mut Store<Vec<u8>>) {
    let usual = player.taste;
    player.taste = Taste {
        inserts: 100,
        deletes: 0,
        migrates: 0,
        lists: 0,
        noise: 0,
        changes: 0,
        length: 6,
        ..usual
    };
    for _ in 0..random.pick(&[0, 0, 0, 300, 300, 1500, 1500, 12_000]) {
        let step = player.fitting(random, 0);
        player.take(store, step, LONGEST);
    }
    player.taste = usual;
}

/// One schedule; what was seen of it.
fn schedule(seed: u64) -> Player {
    let mut random = Random(seed);
    let sizes = sizes(&mut random);
    let mut player = Player::new(sizes, taste(&mut random));
    let mut store = Store::new(sizes).expect("allowed sizes");
    fill(&mut random, &mut player, &mut store);
    let compared = random.percent(10);
    for _ in 0..random.pick(&[50, 300, 900]) {
        let before = compared.then(|| store.memory().to_vec());
        let outcome = player.play(&mut random, &mut store);
        if let (Some(before), Outcome::Refused(_)) = (before, outcome) {
            assert!(
                before == store.memory(),
                "a refused step changed a byte, seed {seed}"
            );
        }
    }
    player.settle(&mut store);
    let stored = layout::pairs(store.memory(), sizes);
    let due: Vec<(u64, u64)> = player.ledger.map.iter().map(|(k, v)| (*k, *v)).collect();
    assert!(stored == due, "the tree is not the map, seed {seed}");
    player
}

#[test]
fn decided_transactions_explain_answers_and_tree() {
    let (mut steps, mut decided, mut refused, mut aborted) = (0, 0, [0; 16], [0; 9]);
    let (mut lists, mut pairs, mut changed) = (0, 0, [0; 3]);
    for seed in 0..inputs(SCHEDULES) as u64 {
        let player = schedule(seed);
        steps += player.steps;
        decided += player.ledger.decided;
        lists += player.ledger.lists;
        pairs += player.ledger.pairs;
        (0..16).for_each(|i| refused[i] += player.refused[i]);
        (0..9).for_each(|i| aborted[i] += player.aborted[i]);
        (0..3).for_each(|i| changed[i] += player.changed[i]);
    }
    println!(
        "{} schedules, {steps} steps, {decided} transactions decided, with {lists} lists of {pairs} pairs",
        inputs(SCHEDULES)
    );
    assert!(lists > 0 && pairs > lists);
    println!(
        "refused by 4 to 9: {:?}, by 11 to 14: {:?}; aborted by 1 to 7: {:?}; servers added, closed and removed: {changed:?}",
        &refused[4..10],
        &refused[11..15],
        &aborted[1..8]
    );
    assert_eq!(
        refused[1] + refused[2] + refused[3] + refused[10] + refused[15],
        0,
        "the memory is sound, and no version at its end"
    );
    assert!(
        refused[4..10]
            .iter()
            .chain(&refused[11..15])
            .all(|n| *n > 0),
        "each refusal was met"
    );
    assert!(changed.iter().all(|n| *n > 0), "servers came and went");
    assert!(
        [1, 2, 4, 5, 6, 7].iter().all(|reason| aborted[*reason] > 0),
        "each reason that can be met was met"
    );
}

/// Steps that are run at once are the same as one by one, with one output for all.
#[test]
fn a_run_is_its_steps() {
    for seed in 0..inputs(20) as u64 {
        let mut random = Random(seed);
        let sizes = Sizes {
            servers: 2,
            slots: 8,
            clients: 2,
        };
        let taste = Taste {
            keys: 30,
            inserts: 60,
            deletes: 15,
            migrates: 5,
            lists: 10,
            noise: 10,
            changes: 20,
            length: 3,
        };
        let mut player = Player::new(sizes, taste);
        let mut store = Store::new(sizes).expect("allowed sizes");
        let (mut steps, mut outcomes) = (Vec::new(), Vec::new());
        for _ in 0..300 {
            let step = player.choose(&mut random);
            steps.push(step);
            outcomes.push(player.take(&mut store, step, LONGEST));
        }
        let mut again = Store::new(sizes).expect("allowed sizes");
        let mut output = Player::new(sizes, taste).output;
        assert_eq!(again.run_words_into(&steps, &mut output), outcomes);
        assert!(again.memory() == store.memory());
        assert!(output == player.output);
    }
}
