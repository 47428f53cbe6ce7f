//! A store brought to a point by plain steps, and what the next step comes to when a word is damaged there.

use super::layout::{self, Part, Set, Within, LAST_VERSION};
use super::{stepped, LONGEST};
use gemandrolo::{
    Fetched, Operation, Outcome, Refusal, Sizes, Step, Store, MAX_SERVERS, PAIR_BYTES,
};

#[derive(Clone)]
pub struct Stage {
    pub sizes: Sizes,
    pub memory: Vec<u8>,
    /// What every step is lent: with room for a pair more than a list can ask for.
    pub output: Vec<u8>,
}

/// What is due where a word is damaged. Words that are in none of these lists are not read.
#[derive(Default)]
pub struct Due {
    /// The step is refused by 10.
    pub damaged: Vec<usize>,
    /// The step is refused by 9.
    pub unfit: Vec<usize>,
    /// The step is refused by 12.
    pub short: Vec<usize>,
    /// The step is refused by 14.
    pub slots: Vec<usize>,
    /// The step is refused by 15.
    pub version: Vec<usize>,
    /// The step takes the word for what it is: a key, a value, another object's number.
    pub taken: Vec<usize>,
}

const DAMAGED: Outcome = Outcome::Refused(Refusal::Damaged);

/// What is due of a word: that it is taken as it is, that the step is refused by one of these, or that the word is not read.
const TAKEN: usize = 0;
const REFUSALS: [Refusal; 5] = [
    Refusal::Unfit,
    Refusal::ShortOutput,
    Refusal::SlotTaken,
    Refusal::LastMetadata,
    Refusal::Damaged,
];
const JUDGED: usize = REFUSALS.len();
const UNREAD: usize = JUDGED + 1;

impl Stage {
    pub fn new(servers: usize, slots: usize, clients: usize) -> Stage {
        let sizes = Sizes {
            servers,
            slots,
            clients,
        };
        let store = Store::new(sizes).expect("allowed sizes");
        Stage {
            sizes,
            memory: store.into_memory(),
            output: vec![0xa5; LONGEST + PAIR_BYTES],
        }
    }

    /// The outcome of a step, which may be a refusal.
    pub fn tried(&mut self, step: Step) -> Outcome {
        super::tried(&mut self.memory, &mut self.output, step.words()).expect("a store")
    }

    /// A step that has to be taken.
    pub fn step(&mut self, step: Step) -> Outcome {
        let outcome = self.taken(step.words());
        assert!(!matches!(outcome, Outcome::Refused(_)), "{step:?}");
        outcome
    }

    fn taken(&mut self, step: [u64; 6]) -> Outcome {
        let mut store = Store::resume(&mut self.memory[..]).expect("a store");
        stepped(&mut store, &mut self.output, step)
    }

    /// A transaction from begin to end.
    pub fn transaction(&mut self, client: u64, asked: &[Operation]) {
        self.opened(client, asked);
        self.prepared(client, &[]);
        // Servers that take no part refuse.
        for kind in [4, 5] {
            for server in 0..MAX_SERVERS as u64 {
                self.taken([kind, client, 0, 0, 0, server]);
            }
        }
        let phase = self.field(client, layout::PHASE);
        assert_eq!(self.word(phase), 0, "the transaction has ended");
    }

    /// A commit, and prepares at these servers.
    pub fn prepared(&mut self, client: u64, servers: &[u64]) {
        self.step(Step::Commit { client });
        for server in servers.iter().copied() {
            self.step(Step::Prepare { client, server });
        }
    }

    /// An open transaction that has been given these operations and has their answers.
    pub fn opened(&mut self, client: u64, asked: &[Operation]) {
        self.step(Step::Begin { client });
        for operation in asked {
            self.given(client, *operation);
            while let Outcome::Fetched(_) = self.step(Step::Work { client }) {}
        }
    }

    pub fn given(&mut self, client: u64, operation: Operation) {
        self.step(Step::Give { client, operation });
    }

    /// Works on until the next work step fetches this, or, for none, answers.
    pub fn before(&mut self, client: u64, what: Option<Fetched>) {
        loop {
            let mut next = self.clone();
            match next.step(Step::Work { client }) {
                Outcome::Fetched(found) if Some(found) == what => return,
                Outcome::Answered(_) if what.is_none() => return,
                Outcome::Fetched(_) => *self = next,
                outcome => panic!("{outcome:?} comes before {what:?}"),
            }
        }
    }

    // ---- words

    pub fn word(&self, place: usize) -> u64 {
        layout::word(&self.memory, place)
    }

    /// The same store with one word set.
    pub fn with(&self, place: usize, word: u64) -> Stage {
        let mut damaged = self.clone();
        layout::set_word(&mut damaged.memory, place, word);
        damaged
    }

    pub fn field(&self, client: u64, i: usize) -> usize {
        layout::client_at(self.sizes, client as usize) + i
    }

    pub fn fields(&self, client: u64, of: &[usize]) -> Vec<usize> {
        of.iter().map(|i| self.field(client, *i)).collect()
    }

    /// The items of a set.
    pub fn items(&self, client: u64, set: Set) -> Vec<layout::Item> {
        layout::items(&self.memory, self.sizes, client as usize, set)
    }

    /// The numbers of a set's objects.
    pub fn numbers(&self, client: u64, set: Set) -> Vec<usize> {
        let items = self.items(client, set);
        items.iter().map(|item| item.number).collect()
    }

    /// The kinds of a set's nodes.
    pub fn kinds(&self, client: u64, set: Set) -> Vec<usize> {
        let mut items = self.items(client, set);
        items.retain(|item| layout::is_node(self.word(item.number)));
        items
            .iter()
            .map(|item| item.record + layout::KIND)
            .collect()
    }

    fn item(&self, client: u64, set: Set, object: u64) -> layout::Item {
        let mut items = self.items(client, set).into_iter();
        let item = items.find(|item| self.word(item.number) == object);
        item.expect("the set has the object")
    }

    /// The number of an object in a set.
    pub fn number(&self, client: u64, set: Set, object: u64) -> usize {
        self.item(client, set, object).number
    }

    /// Its record.
    pub fn record(&self, client: u64, set: Set, object: u64) -> usize {
        self.item(client, set, object).record
    }

    /// Kind, level, version and count.
    pub fn judged(&self, record: usize) -> Vec<usize> {
        (record..record + layout::KEYS.start).collect()
    }

    /// An inner node's children.
    pub fn children(&self, record: usize) -> Vec<usize> {
        let first = record + layout::SLOTS.start;
        (first..=first + self.word(record + layout::COUNT) as usize).collect()
    }

    /// Keys, and values or children.
    pub fn contents(&self, record: usize) -> Vec<usize> {
        (record + layout::KEYS.start..record + layout::SLOTS.end).collect()
    }

    // ---- damage

    /// Damages each word of the memory, one at a time, by its top bit, and takes the step: it is refused by 10, 9, 12, 14 or 15 where that is
    /// due and nowhere else, for 10 also with the least number that is out of range; where the word is not read, outcome, output and all other
    /// bytes are as without damage.
    pub fn reads(&self, name: &str, step: Step, due: Due) {
        let mut classes = vec![UNREAD; layout::words(self.sizes)];
        let due = [
            due.taken,
            due.unfit,
            due.short,
            due.slots,
            due.version,
            due.damaged,
        ];
        for (class, places) in due.iter().enumerate() {
            places.iter().for_each(|place| classes[*place] = class);
        }
        let mut undamaged = self.clone();
        let outcome = undamaged.step(step);
        let mut counts = [0; UNREAD + 1];
        let mut trial = self.clone();
        let mut found = |place, damage, class: usize| {
            layout::set_word(&mut trial.memory, place, damage);
            let found = trial.taken(step.words());
            let whose = layout::part(self.sizes, place);
            let told = || format!("{name}, {whose:?} set to {damage}");
            if class == TAKEN {
                assert_ne!(found, DAMAGED, "{}", told());
            } else {
                let refused = REFUSALS.get(class - 1).copied().map(Outcome::Refused);
                assert_eq!(found, refused.unwrap_or(outcome), "{}", told());
                let due = if class == UNREAD { &undamaged } else { self };
                assert!(class == UNREAD || trial.word(place) == damage);
                layout::set_word(&mut trial.memory, place, due.word(place));
                let same = trial.memory == due.memory && trial.output == due.output;
                assert!(same, "{}: other bytes", told());
            }
            trial.memory.copy_from_slice(&self.memory);
            trial.output.copy_from_slice(&self.output);
        };
        // The sizes in the head are for refusals 2 and 3.
        for (place, class) in classes.into_iter().enumerate().skip(3) {
            found(place, self.word(place) ^ 1 << 63, class);
            if class == JUDGED {
                found(place, self.too_large(place), class);
            }
            counts[class] += 1;
        }
        let [taken, unfit, short, slots, version, damaged, unread] = counts;
        println!("{name}: {damaged} words refused by 10, {unfit} by 9, {short} by 12, {slots} by 14, {version} by 15, {taken} taken as they are, {unread} not read");
    }

    /// The least number that is out of range in a word, by what the word holds.
    fn too_large(&self, place: usize) -> u64 {
        let slots = self.sizes.slots as u64;
        let lock = 1 << self.sizes.clients;
        let states = self.word(place) | 1 << 16;
        let servers = self.word(place) | 1 << MAX_SERVERS;
        let record = |at: usize, j: usize, object: u64| match j {
            layout::KIND => 3,
            layout::LEVEL => [1, 1, 5][self.word(at + layout::KIND) as usize],
            layout::VERSION => LAST_VERSION + 1,
            layout::COUNT => [1, 15, 15][self.word(at + layout::KIND) as usize],
            _ if object == layout::METADATA && j > layout::SLOTS.start => states,
            _ if object > 8192 => 2,
            _ => slots,
        };
        match layout::part(self.sizes, place) {
            Part::Head(_) => unreachable!("no step judges the head by 10"),
            Part::Server(_, layout::ROOT) => slots,
            Part::Server(_, layout::METADATA_VERSION) => LAST_VERSION + 1,
            Part::Server(_, layout::STATES) => states,
            Part::Server(_, layout::METADATA_LOCK) => lock,
            Part::Server(_, i) => match (i - layout::ROWS) % layout::ROW_WORDS {
                j if j < layout::SLOTS.end => record(place - j, j, layout::node(0)),
                34..=41 => LAST_VERSION + 1,
                _ => lock,
            },
            Part::Client(_, i) if i < layout::FIELDS => match i {
                layout::PHASE => 4,
                layout::OP => 8,
                layout::OP_SERVER => MAX_SERVERS as u64,
                layout::PARTICIPANTS | layout::PREPARED | layout::APPLIED => servers,
                layout::READS => 97,
                layout::WRITES => 49,
                layout::LOST => 2,
                layout::META_STATES => states,
                layout::META_VERSION => LAST_VERSION + 1,
                _ => slots,
            },
            Part::Client(client, i) => match layout::within_set(i) {
                Some(Within::Number) if self.word(place) > 8192 => layout::flag(slots),
                Some(Within::Number) => layout::node(slots),
                Some(Within::Record { number, j }) => {
                    let object = layout::client_at(self.sizes, client) + number;
                    record(place - j, j, self.word(object))
                }
                None => 2,
            },
        }
    }
}
