//! Transactions as the steps and their outcomes tell them, and the map that the decided ones make, one after another.

use gemandrolo::{Answer, Operation, Outcome};
use std::collections::BTreeMap;
use std::rc::Rc;

#[derive(Clone, Debug, PartialEq, Eq)]
pub struct Asked {
    pub operation: Operation,
    pub answer: Option<Answer>,
    /// What a list has written.
    pub pairs: Vec<(u64, u64)>,
}

#[derive(Clone, Debug, PartialEq, Eq)]
pub struct Transaction {
    pub client: u64,
    pub asked: Vec<Asked>,
}

#[derive(Clone, Debug, Default)]
pub struct Ledger {
    /// Not decided yet, by client.
    pub open: BTreeMap<u64, Vec<Asked>>,
    /// In order of decision.
    pub decided: Vec<Rc<Transaction>>,
    pub map: BTreeMap<u64, u64>,
}

/// The operation that a step gives, from its op, key, value and server.
pub fn operation(step: [u64; 6]) -> Option<Operation> {
    let [_, _, op, key, value, server] = step;
    Some(match op {
        1 => Operation::Insert { key, value },
        2 => Operation::Lookup { key },
        3 => Operation::Delete { key },
        4 => Operation::Next { key },
        5 => Operation::Previous { key },
        6 => Operation::Migrate { node: key, server },
        7 => Operation::List { key, count: value },
        _ => return None,
    })
}

impl Ledger {
    /// A step, its outcome, and the output as it left it.
    pub fn note(&mut self, step: [u64; 6], outcome: Outcome, output: &[u8]) {
        let [kind, client, ..] = step;
        match (kind, outcome) {
            (_, Outcome::Refused(_)) => {}
            (_, Outcome::Aborted(_)) => drop(self.open.remove(&client)),
            (_, Outcome::Answered(answer)) => {
                if let Some(asked) = self.open.get_mut(&client).and_then(|t| t.last_mut()) {
                    asked.answer = Some(answer);
                    if let Operation::List { .. } = asked.operation {
                        asked.pairs = answer.pairs(output).collect();
                    }
                }
            }
            (0, _) => drop(self.open.insert(client, Vec::new())),
            (1, _) => {
                let asked = operation(step).map(|operation| Asked {
                    operation,
                    answer: None,
                    pairs: Vec::new(),
                });
                self.open.entry(client).or_default().extend(asked);
            }
            (3 | 4, Outcome::Decided | Outcome::Committed) => self.decide(client),
            _ => {}
        }
    }

    fn decide(&mut self, client: u64) {
        let asked = self.open.remove(&client).unwrap_or_default();
        for Asked { operation, .. } in &asked {
            match *operation {
                Operation::Insert { key, value } => drop(self.map.insert(key, value)),
                Operation::Delete { key } => drop(self.map.remove(&key)),
                _ => {}
            }
        }
        self.decided.push(Rc::new(Transaction { client, asked }));
    }

    /// The operation that the client's transaction was given last.
    pub fn last_given(&self, client: u64) -> Option<Operation> {
        let asked = self.open.get(&client)?.last()?;
        Some(asked.operation)
    }
}
