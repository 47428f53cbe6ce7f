//! What is measured: transactions of a few operations each, the same for every store.

/// The pairs of a list.
pub const LISTED: usize = 32;

#[derive(Clone, Copy)]
pub enum Operation {
    Lookup(u64),
    Insert(u64, u64),
    Delete(u64),
    Next(u64),
    /// The first `LISTED` pairs from a key on.
    List(u64),
}

#[derive(Clone, Copy, PartialEq)]
pub enum Workload {
    /// One lookup of a key that is there.
    Lookup,
    /// The key after one that is there.
    Next,
    /// The pairs from a key on, as many as a list can have.
    List,
    /// One insert that gives a key a new value.
    Insert,
    /// By turns a delete, and an insert of the same key.
    Delete,
    /// Both ears: two inserts, of a key and the next one.
    Ears,
    /// A lookup, the next key, and an insert.
    Mixed,
}

pub const WORKLOADS: [Workload; 7] = [
    Workload::Lookup,
    Workload::Next,
    Workload::List,
    Workload::Insert,
    Workload::Delete,
    Workload::Ears,
    Workload::Mixed,
];

/// A store that runs transactions. Each answer is a number, so that stores can be compared.
pub trait Rival {
    /// The sum of the answers, wrapped: for an insert and a delete 0, for a lookup and a next the value or key found, for a list all keys and
    /// values.
    fn transaction(&mut self, operations: &[Operation]) -> u64;
    /// The steps since it was last asked; 0 in a store that has none.
    fn steps(&mut self) -> u64 {
        0
    }
}

impl Operation {
    pub fn is_read(self) -> bool {
        matches!(
            self,
            Operation::Lookup(_) | Operation::Next(_) | Operation::List(_)
        )
    }
}

/// The answer to a list: the sum of its keys and values, wrapped.
pub fn sum_of(pairs: impl Iterator<Item = (u64, u64)>) -> u64 {
    pairs.fold(0, |sum, (key, value)| {
        sum.wrapping_add(key).wrapping_add(value)
    })
}

impl Workload {
    pub fn name(self) -> &'static str {
        match self {
            Workload::Lookup => "lookup",
            Workload::Next => "next",
            Workload::List => "list of 32",
            Workload::Insert => "insert",
            Workload::Delete => "delete",
            Workload::Ears => "ears",
            Workload::Mixed => "mixed",
        }
    }

    pub fn of(name: &str) -> Option<Workload> {
        WORKLOADS.into_iter().find(|w| w.name() == name)
    }

    /// Transaction i of this workload, over keys 0 to `keys` - 1.
    pub fn transaction(self, i: u64, keys: u64, out: &mut Vec<Operation>) {
        out.clear();
        let (key, value) = (scattered(i) % keys, scattered(i + 1) >> 1);
        match self {
            Workload::Lookup => out.push(Operation::Lookup(key)),
            Workload::Next => out.push(Operation::Next(key)),
            Workload::List => {
                // There are as many from there on.
                let starts = (keys + 1).saturating_sub(LISTED as u64).max(1);
                out.push(Operation::List(key % starts));
            }
            Workload::Insert => out.push(Operation::Insert(key, value)),
            Workload::Delete => {
                let key = scattered(i / 2) % keys;
                out.push(if i.is_multiple_of(2) {
                    Operation::Delete(key)
                } else {
                    Operation::Insert(key, value)
                });
            }
            Workload::Ears => {
                let left = key & !1;
                out.extend([
                    Operation::Insert(left, value),
                    Operation::Insert(left + 1, value / 2),
                ]);
            }
            Workload::Mixed => out.extend([
                Operation::Lookup(key),
                Operation::Next(key),
                Operation::Insert(key, value),
            ]),
        }
    }
}

/// Fills a store with keys 0 to `keys` - 1 in a scattered order.
pub fn fill(store: &mut dyn Rival, keys: u64) {
    // A number without a factor in common with `keys` goes through all of them.
    let stride = (1..)
        .map(|n| 0x9e37_79b1 + n)
        .find(|n| shared(*n, keys) == 1)
        .expect("there is one");
    for i in 0..keys {
        let key = i.wrapping_mul(stride) % keys;
        store.transaction(&[Operation::Insert(key, scattered(key) >> 1)]);
    }
}

fn shared(a: u64, b: u64) -> u64 {
    if b == 0 {
        return a;
    }
    shared(b, a % b)
}

/// A number that looks random (SplitMix64).
pub fn scattered(i: u64) -> u64 {
    let z = i.wrapping_add(1).wrapping_mul(0x9e37_79b9_7f4a_7c15);
    let z = (z ^ (z >> 30)).wrapping_mul(0xbf58_476d_1ce4_e5b9);
    let z = (z ^ (z >> 27)).wrapping_mul(0x94d0_49bb_1331_11eb);
    z ^ (z >> 31)
}
