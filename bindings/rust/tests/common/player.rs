//! Clients that take steps at random, and servers that come and go: mostly steps that fit, sometimes any.

use super::ledger::Ledger;
use super::{stepped, Random, LONGEST};
use gemandrolo::inspect::ServerState;
use gemandrolo::{Outcome, Sizes, Store, MAX_PAIRS, MAX_SERVERS};

#[derive(Clone, Copy, PartialEq)]
enum Phase {
    Idle,
    Open,
    Waiting,
    Committing,
    Decided,
}

/// The states of a server that is not absent.
const PRESENT: [ServerState; 2] = [ServerState::Open, ServerState::Closing];

/// What the clients of a schedule want.
#[derive(Clone, Copy)]
pub struct Taste {
    /// Keys are below this.
    pub keys: u64,
    /// How many of 100 operations are inserts, deletes, migrates, lists. The others read one key.
    pub inserts: u64,
    pub deletes: u64,
    pub migrates: u64,
    pub lists: u64,
    /// How many of 100 steps are any step at all, a give up, or a loss; and how many are lent an output of any length.
    pub noise: u64,
    /// How many of 1,000 steps add, close or remove a server.
    pub changes: u64,
    /// Operations in a transaction, about.
    pub length: u64,
}

pub struct Player {
    pub sizes: Sizes,
    pub taste: Taste,
    pub ledger: Ledger,
    pub steps: usize,
    pub refused: [usize; 16],
    pub aborted: [usize; 9],
    /// Servers added, closed and removed.
    pub changed: [usize; 3],
    /// Lent to all steps of the schedule, whole or in part.
    pub output: Vec<u8>,
    phases: Vec<Phase>,
    servers: [ServerState; MAX_SERVERS],
}

impl Player {
    pub fn new(sizes: Sizes, taste: Taste) -> Player {
        Player {
            sizes,
            taste,
            ledger: Ledger::default(),
            steps: 0,
            refused: [0; 16],
            aborted: [0; 9],
            changed: [0; 3],
            output: vec![0xa5; LONGEST],
            phases: vec![Phase::Idle; sizes.clients],
            servers: std::array::from_fn(|server| match server < sizes.servers {
                true => ServerState::Open,
                false => ServerState::Absent,
            }),
        }
    }

    /// One step, chosen at random and noted.
    pub fn play<B: AsMut<[u8]>>(&mut self, random: &mut Random, store: &mut Store<B>) -> Outcome {
        let step = self.choose(random);
        let any = random.percent(self.taste.noise);
        let room = if any { random.index(LONGEST) } else { LONGEST };
        self.take(store, step, room)
    }

    /// A step that is lent so many bytes of the output, and noted.
    pub fn take<B: AsMut<[u8]>>(
        &mut self,
        store: &mut Store<B>,
        step: [u64; 6],
        room: usize,
    ) -> Outcome {
        let outcome = stepped(store, &mut self.output[..room], step);
        self.note(step, outcome);
        outcome
    }

    pub fn choose(&self, random: &mut Random) -> [u64; 6] {
        if random.percent(self.taste.noise) {
            return self.any(random);
        }
        if random.below(1000) < self.taste.changes {
            return self.change(random);
        }
        let client = random.index(self.sizes.clients);
        self.fitting(random, client)
    }

    /// A step that fits the client's state, but for a server that may take no part.
    pub fn fitting(&self, random: &mut Random, client: usize) -> [u64; 6] {
        let (c, server) = (client as u64, self.server(random, &PRESENT));
        match self.phases[client] {
            Phase::Idle => [0, c, 0, 0, 0, 0],
            Phase::Open if random.below(self.taste.length + 1) == 0 => [3, c, 0, 0, 0, 0],
            Phase::Open => self.operation(random, c),
            Phase::Waiting => [2, c, 0, 0, 0, 0],
            Phase::Committing => [4, c, 0, 0, 0, server],
            Phase::Decided => [5, c, 0, 0, 0, server],
        }
    }

    fn operation(&self, random: &mut Random, client: u64) -> [u64; 6] {
        let (key, value) = (random.below(self.taste.keys), random.next());
        let Taste {
            inserts,
            deletes,
            migrates,
            lists,
            ..
        } = self.taste;
        let shares = [(1, inserts), (3, deletes), (6, migrates), (7, lists)];
        match drawn(random, &shares) {
            Some(1) => [1, client, 1, key, value, 0],
            Some(6) => {
                let leaving = random.percent(70) && self.servers.contains(&ServerState::Closing);
                let from: &[ServerState] = match leaving {
                    true => &[ServerState::Closing],
                    false => &PRESENT,
                };
                let home = self.server(random, from);
                let slots = random.pick(&[self.sizes.slots, self.sizes.slots.min(6)]);
                let node = 1024 * home + random.index(slots) as u64;
                [
                    1,
                    client,
                    6,
                    node,
                    0,
                    self.server(random, &[ServerState::Open]),
                ]
            }
            Some(7) => [1, client, 7, key, count(random), 0],
            Some(op) => [1, client, op, key, 0, 0],
            None => [1, client, random.pick(&[2, 4, 5]), key, 0, 0],
        }
    }

    /// A server in one of these states, mostly; any where there is none.
    fn server(&self, random: &mut Random, states: &[ServerState]) -> u64 {
        let fits = |server: &u64| states.contains(&self.servers[*server as usize]);
        let fitting: Vec<u64> = (0..MAX_SERVERS as u64).filter(fits).collect();
        match fitting.is_empty() || random.percent(5) {
            true => random.below(MAX_SERVERS as u64),
            false => random.pick(&fitting),
        }
    }

    /// A change of the servers, mostly of one whose state fits. It has no client, whatever stands in that field.
    fn change(&self, random: &mut Random) -> [u64; 6] {
        let (kind, state) = random.pick(&[
            (8, ServerState::Absent),
            (9, ServerState::Open),
            (10, ServerState::Closing),
            (10, ServerState::Closing),
        ]);
        let server = self.server(random, &[state]);
        let unused = random.pick(&[0, u64::MAX]);
        [kind, unused, unused, unused, unused, server]
    }

    /// Any step: also of clients, kinds and servers that are not there.
    pub fn any(&self, random: &mut Random) -> [u64; 6] {
        let client = random.below(self.sizes.clients as u64 + 1);
        let server = random.below(MAX_SERVERS as u64 + 1);
        let (kind, value) = (random.below(12), random.next());
        [
            kind,
            client,
            random.below(9),
            random.below(self.taste.keys),
            random.pick(&[value, value % 40]),
            server,
        ]
    }

    fn note(&mut self, step: [u64; 6], outcome: Outcome) {
        self.steps += 1;
        self.ledger.note(step, outcome, &self.output);
        if let Outcome::Refused(refusal) = outcome {
            self.refused[refusal.number() as usize] += 1;
            return;
        }
        if let Some(change) = step[0].checked_sub(8) {
            use ServerState::{Absent, Closing, Open};
            self.servers[step[5] as usize] = [Open, Closing, Absent][change as usize];
            self.changed[change as usize] += 1;
            return;
        }
        let client = step[1] as usize;
        self.phases[client] = match (step[0], outcome) {
            (_, Outcome::Aborted(reason)) => {
                self.aborted[reason.number() as usize] += 1;
                Phase::Idle
            }
            (_, Outcome::Committed) => Phase::Idle,
            (_, Outcome::Decided) => Phase::Decided,
            (0, _) | (_, Outcome::Answered(_)) => Phase::Open,
            (1, _) => Phase::Waiting,
            (3, _) => Phase::Committing,
            _ => self.phases[client],
        };
    }

    /// All applies still due.
    pub fn settle<B: AsMut<[u8]>>(&mut self, store: &mut Store<B>) {
        for client in 0..self.sizes.clients {
            for server in 0..MAX_SERVERS {
                if self.phases[client] == Phase::Decided {
                    let step = [5, client as u64, 0, 0, 0, server as u64];
                    self.take(store, step, 0);
                }
            }
        }
    }
}

/// One of these by its share in 100, or none.
fn drawn(random: &mut Random, shares: &[(u64, u64)]) -> Option<u64> {
    let mut die = random.below(100);
    for (one, share) in shares {
        if die < *share {
            return Some(*one);
        }
        die -= share;
    }
    None
}

/// How many pairs a list asks for: any number that is allowed, often the least or the most.
fn count(random: &mut Random) -> u64 {
    let most = MAX_PAIRS as u64;
    let any = 1 + random.below(most);
    random.pick(&[1, any, any, most])
}
