//! The place of a key in a node: random keys in nodes of 7 to 14 keys, and in full ones, whose loops all end alike, so that only a jump on a key is guessed wrong.

use crate::workload::scattered;
use std::arch::asm;
use std::time::Instant;

/// "at most 14 keys"; a node other than the root has at least 7.
const KEYS: usize = 14;
const FEWEST: usize = 7;
/// A node's words: kind, level, version, count, keys, slots.
const COUNT: usize = 3;
const FIRST_KEY: usize = 4;
const NODE_BYTES: usize = 8 * 33;
/// So many nodes lie in a processor's nearest cache, and so many questions are more than it learns by heart.
const NODES: u64 = 64;
const ASKED: u64 = 1 << 18;
/// The questions are asked this often, and the shortest time counts.
const ROUNDS: usize = 200;

type Node = [u8; NODE_BYTES];

mod exported {
    use super::NODE_BYTES;
    extern "C" {
        pub fn places_counted(node: *const [u8; NODE_BYTES], key: u64) -> usize;
        pub fn places_branched(node: *const [u8; NODE_BYTES], key: u64) -> usize;
    }
}

/// A way to the place of a key: twice the place, and 1 more where the key is there.
pub struct Way {
    pub name: &'static str,
    ask: fn(&Node, u64) -> usize,
}

pub const WAYS: [Way; 3] = [
    Way {
        name: "a jump for each key",
        ask: jumping,
    },
    Way {
        name: "branching, as compiled",
        ask: branched,
    },
    Way {
        name: "counting",
        ask: counted,
    },
];

fn counted(node: &Node, key: u64) -> usize {
    // SAFETY: the node is there for the call.
    unsafe { exported::places_counted(node, key) }
}

fn branched(node: &Node, key: u64) -> usize {
    // SAFETY: the node is there for the call.
    unsafe { exported::places_branched(node, key) }
}

/// The branching with its jumps left in: empty assembly in the branch keeps the compiler from making a sum of it.
fn jumping(node: &Node, key: u64) -> usize {
    let count = word(node, COUNT) as usize;
    let mut place = 0;
    for i in 0..count.min(KEYS) {
        if word(node, FIRST_KEY + i) <= key {
            place += 1;
            // SAFETY: it does nothing.
            unsafe { asm!("", options(nomem, nostack, preserves_flags)) };
        }
    }
    if place == 0 {
        return 0;
    }
    2 * place + usize::from(word(node, FIRST_KEY + place - 1) == key)
}

fn word(node: &Node, i: usize) -> u64 {
    u64::from_le_bytes(node[8 * i..8 * i + 8].try_into().expect("eight bytes"))
}

/// Nodes, and keys to ask them for: half of them keys of the node.
pub struct Questions {
    nodes: Vec<Node>,
    asked: Vec<(usize, u64)>,
}

impl Questions {
    pub fn new(full: bool) -> Questions {
        let nodes = (0..NODES).map(|n| node(n, full)).collect();
        let mut questions = Questions {
            nodes,
            asked: Vec::new(),
        };
        questions.asked = (0..ASKED).map(|i| questions.question(i)).collect();
        questions
    }

    fn question(&self, i: u64) -> (usize, u64) {
        let [which, number, key] = [0, 1, 2].map(|j| scattered(3 * i + j));
        let at = (which % NODES) as usize;
        if key.is_multiple_of(2) {
            return (at, key);
        }
        let count = word(&self.nodes[at], COUNT);
        (
            at,
            word(&self.nodes[at], FIRST_KEY + (number % count) as usize),
        )
    }

    /// The sum of the first n answers, the questions asked round and round.
    pub fn answers(&self, way: &Way, n: u64) -> usize {
        let asked = self.asked.iter().cycle().take(n as usize);
        asked.fold(0, |sum, &(at, key)| {
            sum.wrapping_add((way.ask)(&self.nodes[at], key))
        })
    }

    /// Nanoseconds a place, for each way; all give the same answers. They take turns, so that what else the machine does slows them alike.
    pub fn times(&self) -> [f64; 3] {
        let right = self.answers(&WAYS[0], ASKED);
        let mut least = [f64::MAX; 3];
        for _ in 0..ROUNDS {
            for (least, way) in least.iter_mut().zip(&WAYS) {
                let start = Instant::now();
                assert_eq!(self.answers(way, ASKED), right, "{}", way.name);
                *least = least.min(start.elapsed().as_secs_f64() * 1e9 / ASKED as f64);
            }
        }
        least
    }
}

/// A node of 7 to 14 keys, or of 14, that rise.
fn node(number: u64, full: bool) -> Node {
    let numbers = (0..).map(|j| scattered(1000 * (number + 1) + j));
    let count = if full {
        KEYS
    } else {
        FEWEST + (scattered(number) % (KEYS - FEWEST + 1) as u64) as usize
    };
    let mut keys: Vec<u64> = numbers.take(count).collect();
    keys.sort_unstable();
    let mut node = [0; NODE_BYTES];
    let mut put = |i: usize, word: u64| node[8 * i..8 * i + 8].copy_from_slice(&word.to_le_bytes());
    put(COUNT, count as u64);
    for (i, key) in keys.into_iter().enumerate() {
        put(FIRST_KEY + i, key);
    }
    node
}
