//! Memory that is damaged, random, too short, of odd length or not aligned: never a crash, and a refused step leaves every byte as it was, of
//! the memory and of the output.

mod common;

use common::player::{Player, Taste};
use common::{inputs, layout, tried, Random, LONGEST};
use gemandrolo::{NotRetired, Outcome, Refusal, Sizes, Store};
use std::collections::BTreeMap;

const STATES: usize = 1000;
const DAMAGES: usize = 200;
const STEPS: usize = 8;

const TASTE: Taste = Taste {
    keys: 60,
    inserts: 65,
    deletes: 15,
    migrates: 3,
    lists: 12,
    noise: 2,
    changes: 20,
    length: 4,
};

fn sizes(random: &mut Random) -> Sizes {
    Sizes {
        servers: random.pick(&[1, 2, 3]),
        slots: random.pick(&[4, 12, 70]),
        clients: random.pick(&[1, 2]),
    }
}

/// A store in the middle of its clients' transactions.
fn state(random: &mut Random) -> (Player, Vec<u8>) {
    let sizes = sizes(random);
    let mut player = Player::new(sizes, TASTE);
    let mut store = Store::new(sizes).expect("allowed sizes");
    for _ in 0..random.below(1200) {
        player.play(random, &mut store);
    }
    (player, store.into_memory())
}

/// A flipped bit, mostly; else a word that is all ones, large, or small.
fn damage(random: &mut Random, memory: &mut [u8], place: usize) {
    let v = layout::word(memory, place);
    let damaged = match random.below(10) {
        0 => u64::MAX,
        1 => random.next(),
        2 => random.below(20),
        3 => 4_294_967_295,
        _ => v ^ (1 << random.below(64)),
    };
    layout::set_word(memory, place, damaged);
}

/// Mostly one that is long enough for every list.
fn output(random: &mut Random) -> Vec<u8> {
    let any = random.index(2 * LONGEST);
    vec![0xa5; random.pick(&[LONGEST, LONGEST, 2 * LONGEST, any])]
}

fn steps_on(random: &mut Random, player: &Player, memory: &mut [u8], counts: &mut [usize; 2]) {
    for _ in 0..STEPS {
        let step = player.choose(random);
        match tried(memory, &mut output(random), step) {
            Some(Outcome::Refused(Refusal::Damaged)) => counts[0] += 1,
            _ => counts[1] += 1,
        }
    }
}

#[test]
fn flipped_bits() {
    let mut random = Random(1);
    let mut counts = [[0; 2]; layout::TARGETS.len()];
    for _ in 0..inputs(STATES) {
        let (player, sound) = state(&mut random);
        for _ in 0..DAMAGES {
            let target = random.index(layout::TARGETS.len());
            let mut memory = sound.clone();
            for _ in 0..random.pick(&[1, 1, 1, 3]) {
                let place = layout::place(&mut random, player.sizes, target);
                damage(&mut random, &mut memory, place);
            }
            steps_on(&mut random, &player, &mut memory, &mut counts[target]);
        }
    }
    println!(
        "{} damaged memories, {STEPS} steps on each",
        inputs(STATES) * DAMAGES
    );
    for (name, [damaged, others]) in layout::TARGETS.iter().zip(counts) {
        println!("{name}: {damaged} steps refused by 10, {others} other outcomes");
    }
}

/// The store with a list of one of its clients waiting, before a fetch or before the answer; none where that client's applies are still due.
fn with_list(random: &mut Random, sizes: Sizes, memory: Vec<u8>) -> Option<(u64, Vec<u8>)> {
    let mut store = Store::resume(memory).expect("a store");
    let client = random.index(sizes.clients) as u64;
    let give = [1, client, 7, random.below(60), 1 + random.below(32), 0];
    for step in [[6, client, 0, 0, 0, 0], [0, client, 0, 0, 0, 0], give] {
        store.step_words(step);
    }
    for _ in 0..random.below(8) {
        let work = [2, client, 0, 0, 0, 0];
        match store.step_words_into(work, &mut [0; LONGEST]) {
            Outcome::Fetched(_) => {}
            Outcome::Refused(_) => return None,
            // Given again, the next step answers it.
            _ => drop(store.step_words(give)),
        }
    }
    Some((client, store.into_memory()))
}

#[test]
fn flipped_bits_below_a_list() {
    let mut random = Random(5);
    let mut outcomes: BTreeMap<String, usize> = BTreeMap::new();
    for _ in 0..inputs(STATES) {
        let (player, sound) = state(&mut random);
        let Some((client, sound)) = with_list(&mut random, player.sizes, sound) else {
            continue;
        };
        for _ in 0..DAMAGES {
            let target = 1 + random.index(layout::TARGETS.len() - 1);
            let mut memory = sound.clone();
            let place = layout::place(&mut random, player.sizes, target);
            damage(&mut random, &mut memory, place);
            for _ in 0..3 {
                let work = [2, client, 0, 0, 0, 0];
                let outcome = tried(&mut memory, &mut output(&mut random), work);
                let [number, a, _] = outcome.expect("a store").numbers();
                let what = match number {
                    0 => format!("refused by {a}"),
                    2 => "fetched".into(),
                    3 => "answered".into(),
                    _ => format!("aborted by {a}"),
                };
                *outcomes.entry(what).or_default() += 1;
            }
        }
    }
    println!("work on lists in damaged memory: {outcomes:?}");
    for due in ["refused by 10", "refused by 12", "fetched", "answered"] {
        assert!(outcomes.contains_key(due), "{due}");
    }
}

/// A server is retired, or the reason is told: the look that goes before each move is as safe as a step.
#[test]
fn a_server_retired() {
    let mut random = Random(6);
    let mut ends: BTreeMap<String, usize> = BTreeMap::new();
    for _ in 0..inputs(STATES) {
        let (mut player, sound) = state(&mut random);
        let mut store = Store::resume(sound).expect("a store");
        player.settle(&mut store);
        store.step_words([7, 0, 0, 0, 0, 0]);
        let sound = store.into_memory();
        for _ in 0..20 {
            let target = random.index(layout::TARGETS.len());
            let mut memory = sound.clone();
            let place = layout::place(&mut random, player.sizes, target);
            damage(&mut random, &mut memory, place);
            let Ok(mut store) = Store::resume(memory) else {
                continue;
            };
            let server = random.below(player.sizes.servers as u64);
            let end = match store.retire(0, server, |_, _| ()) {
                Ok(()) => "retired".into(),
                Err(NotRetired::NoRoom { .. }) => "no room".into(),
                Err(NotRetired::Stuck { failure, .. }) => failure.to_string(),
                Err(why) => why.to_string(),
            };
            *ends.entry(end).or_default() += 1;
        }
    }
    println!("servers retired in damaged memory: {ends:?}");
    assert!(ends.contains_key("retired") && ends.len() > 5);
}

/// Random bytes in all of the memory, in some of it, or in the servers' parts alone, which the clients then read.
#[test]
fn random_bytes() {
    let mut random = Random(2);
    let mut counts = [0; 2];
    for round in 0..3 * inputs(STATES) {
        let (player, sound) = state(&mut random);
        let mut memory = sound;
        let servers = layout::clients_from(player.sizes);
        let some = 64 + random.index(memory.len() - 64);
        let ranges = [
            64..memory.len(),
            some..memory.len().min(some + 4000),
            64..servers,
        ];
        memory[ranges[round % 3].clone()].fill_with(|| random.next() as u8);
        steps_on(&mut random, &player, &mut memory, &mut counts);
        memory[..64].fill_with(|| random.next() as u8);
        let refused = tried(&mut memory, &mut output(&mut random), [0; 6]);
        assert_eq!(refused, None, "random sizes are refused");
    }
    println!(
        "{} random memories: {} steps refused by 10, {} other outcomes",
        3 * inputs(STATES),
        counts[0],
        counts[1]
    );
}

#[test]
fn lengths() {
    let mut random = Random(3);
    let mut tries = 0;
    for _ in 0..inputs(20) {
        let (player, sound) = state(&mut random);
        let few = 0..100;
        let near = sound.len() - 20..sound.len();
        for bytes in few.chain(near) {
            let due = if bytes < 64 {
                Refusal::NoHead
            } else {
                Refusal::TooShort
            };
            let mut memory = sound[..bytes].to_vec();
            assert_eq!(Store::resume(&mut memory[..]).err(), Some(due));
            assert_eq!(
                Store::create(&mut memory[..], player.sizes).err(),
                Some(due)
            );
            assert!(memory == sound[..bytes], "a refused opening changed a byte");
            tries += 2;
        }
    }
    println!("{tries} openings of memory that is too short");
}

/// Memory and output that start at any byte and are longer than they need be, by any number of bytes: the same outcomes, and what is behind
/// stays.
#[test]
fn alignment() {
    let mut random = Random(4);
    for round in 0..inputs(80) {
        let (player, mut sound) = state(&mut random);
        let (offset, tail) = (round % 8, random.index(30));
        let mut longer = vec![0xa5; offset];
        longer.extend_from_slice(&sound);
        longer.extend(std::iter::repeat_n(0x5a, tail));
        for _ in 0..40 {
            let step = player.choose(&mut random);
            let mut outputs = [LONGEST, LONGEST + offset + tail].map(|bytes| vec![0xa5; bytes]);
            let [plain, shifted] = &mut outputs;
            assert_eq!(
                tried(&mut longer[offset..], &mut shifted[offset..], step),
                tried(&mut sound, plain, step)
            );
            assert!(shifted[offset..].starts_with(plain), "the same pairs");
        }
        let behind = offset + sound.len();
        assert!(longer[offset..behind] == sound, "the same bytes");
        assert!(
            longer[..offset].iter().all(|b| *b == 0xa5)
                && longer[behind..].iter().all(|b| *b == 0x5a)
        );
    }
}

/// Sizes outside their ranges are refused by 2 and call for no memory; the ends of the ranges are accepted. There is room for eight servers
/// whatever the store is opened with.
#[test]
fn ranges_of_sizes() {
    let of = |servers, slots, clients| Sizes {
        servers,
        slots,
        clients,
    };
    for bad in [
        of(0, 1, 1),
        of(9, 1, 1),
        of(1, 0, 1),
        of(1, 1025, 1),
        of(1, 1, 0),
        of(1, 1, 17),
        of(usize::MAX, 1, 1),
    ] {
        assert_eq!(bad.length(), None);
        assert_eq!(
            Store::create(vec![7; 100_000], bad).err(),
            Some(Refusal::Sizes)
        );
    }
    assert_eq!(of(8, 1024, 16).length(), Some(4_202_688));
    for servers in 1..=8 {
        let length = of(servers, 5, 3).length();
        assert_eq!(length, Some(8 * layout::words(of(8, 5, 3))));
    }
    for good in [of(1, 1, 1), of(8, 1024, 16)] {
        assert_eq!(Store::new(good).map(|s| s.sizes()), Ok(good));
    }
}
