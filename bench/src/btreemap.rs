//! std's BTreeMap: the limit for one thread without transactions.

use crate::workload::{sum_of, Operation, Rival, LISTED};
use std::collections::BTreeMap;

pub struct Map(pub BTreeMap<u64, u64>);

impl Rival for Map {
    fn transaction(&mut self, operations: &[Operation]) -> u64 {
        let mut sum = 0u64;
        for operation in operations {
            let answer = match *operation {
                Operation::Lookup(key) => self.0.get(&key).copied().unwrap_or(0),
                Operation::Next(key) => self.0.range(key + 1..).next().map_or(0, |(k, _)| *k),
                Operation::List(key) => {
                    sum_of(self.0.range(key..).take(LISTED).map(|(k, v)| (*k, *v)))
                }
                Operation::Insert(key, value) => self.0.insert(key, value).map_or(0, |_| 0),
                Operation::Delete(key) => self.0.remove(&key).map_or(0, |_| 0),
            };
            sum = sum.wrapping_add(answer);
        }
        sum
    }
}
