//! The map that the decided transactions make, one after another in order of decision. Written from document 01 alone: "Its transactions are
//! read from the steps and their outcomes alone".

use gemandrolo::Outcome;
use std::collections::BTreeMap;

struct Asked {
    op: u64,
    key: u64,
    value: u64,
    answer: Option<(u64, u64)>,
    /// Of a list: as the step that answered it left them in its output.
    pairs: Vec<(u64, u64)>,
}

#[derive(Default)]
pub struct Ledger {
    pub map: BTreeMap<u64, u64>,
    pub decided: usize,
    /// Lists in decided transactions, and their pairs.
    pub lists: usize,
    pub pairs: usize,
    open: BTreeMap<u64, Vec<Asked>>,
}

impl Ledger {
    /// A step, its outcome, and the output as it left it; fails where a decided transaction's answers are not the map's.
    pub fn note(
        &mut self,
        [kind, client, op, key, value, _]: [u64; 6],
        outcome: Outcome,
        output: &[u8],
    ) {
        match (kind, outcome) {
            (_, Outcome::Refused(_)) => {}
            (_, Outcome::Aborted(_)) => drop(self.open.remove(&client)),
            (_, Outcome::Answered(answer)) => {
                let asked = self
                    .open
                    .get_mut(&client)
                    .and_then(|t| t.last_mut())
                    .expect("an operation waits");
                asked.answer = Some((answer.a, answer.b));
                if asked.op == 7 {
                    asked.pairs = answer.pairs(output).collect();
                }
            }
            (0, _) => drop(self.open.insert(client, Vec::new())),
            (1, _) => {
                let transaction = self.open.get_mut(&client).expect("a transaction is open");
                transaction.push(Asked {
                    op,
                    key,
                    value,
                    answer: None,
                    pairs: Vec::new(),
                });
            }
            (3 | 4, Outcome::Decided | Outcome::Committed) => self.decide(client),
            _ => {}
        }
    }

    fn decide(&mut self, client: u64) {
        let transaction = self.open.remove(&client).expect("a transaction is decided");
        for asked in transaction {
            let listed = listed(&self.map, &asked);
            assert_eq!(asked.pairs, listed, "the list from key {} on", asked.key);
            self.lists += (asked.op == 7) as usize;
            self.pairs += listed.len();
            let due = perform(&mut self.map, &asked, listed.len());
            if asked.op != 6 {
                assert_eq!(
                    asked.answer,
                    Some(due),
                    "op {} of key {}",
                    asked.op,
                    asked.key
                );
            }
        }
        self.decided += 1;
    }
}

/// The pairs due of a list; of another operation none.
fn listed(map: &BTreeMap<u64, u64>, asked: &Asked) -> Vec<(u64, u64)> {
    let count = if asked.op == 7 { asked.value } else { 0 };
    let from = map.range(asked.key..).map(|(k, v)| (*k, *v));
    from.take(count as usize).collect()
}

/// An operation on the map, and the answer due.
fn perform(map: &mut BTreeMap<u64, u64>, asked: &Asked, listed: usize) -> (u64, u64) {
    let found = |b: Option<u64>| b.map_or((0, 0), |b| (1, b));
    match asked.op {
        1 => (map.insert(asked.key, asked.value).is_none() as u64, 0),
        2 => found(map.get(&asked.key).copied()),
        3 => (map.remove(&asked.key).is_some() as u64, 0),
        4 => found(
            asked
                .key
                .checked_add(1)
                .and_then(|from| map.range(from..).next())
                .map(|(k, _)| *k),
        ),
        5 => found(map.range(..asked.key).next_back().map(|(k, _)| *k)),
        7 => (listed as u64, 0),
        _ => (0, 0),
    }
}
