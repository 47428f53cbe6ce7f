use crate::{
    Answer, Operation, Outcome, Pairs, Reason, Refusal, Step, Store, MAX_PAIRS, MAX_SERVERS,
    PAIR_BYTES,
};
use std::fmt;
use std::ops::RangeBounds;

/// Why a transaction, or an operation in it, came to nothing.
#[derive(Clone, Copy, Debug, PartialEq, Eq, Hash)]
pub enum Failure {
    /// It aborted: nothing of it is in the store. From [`Store::transaction`]: the last of its runs did, or a reason that does not pass.
    Aborted(Reason),
    /// A step of it was refused: the client is in another transaction, a migrate names what is not there, a list's count is not 1 to 32, or
    /// the memory is damaged.
    Refused(Refusal),
}

/// What came of a migrate.
#[derive(Clone, Copy, Debug, PartialEq, Eq, Hash)]
pub enum Migrated {
    /// The node's new name.
    To(u64),
    /// The node is free and was not moved.
    Free,
    /// The node is at that server already.
    There,
}

/// A transaction under way; [`Store::transaction`] lends it.
#[derive(Debug)]
pub struct Transaction<'s, B> {
    store: &'s mut Store<B>,
    client: u64,
}

impl<'s, B: AsMut<[u8]>> Transaction<'s, B> {
    /// Sets the key's value: whether the key was absent.
    pub fn insert(&mut self, key: u64, value: u64) -> Result<bool, Failure> {
        Ok(self.answer(Operation::Insert { key, value })?.a == 1)
    }

    /// The key's value, if it is there.
    pub fn lookup(&mut self, key: u64) -> Result<Option<u64>, Failure> {
        Ok(self.answer(Operation::Lookup { key })?.found())
    }

    /// Removes the key: whether it was there.
    pub fn delete(&mut self, key: u64) -> Result<bool, Failure> {
        Ok(self.answer(Operation::Delete { key })?.a == 1)
    }

    /// The nearest key strictly above.
    pub fn next(&mut self, key: u64) -> Result<Option<u64>, Failure> {
        Ok(self.answer(Operation::Next { key })?.found())
    }

    /// The nearest key strictly below.
    pub fn previous(&mut self, key: u64) -> Result<Option<u64>, Failure> {
        Ok(self.answer(Operation::Previous { key })?.found())
    }

    /// Moves a node to a server, which has to be open: else the transaction aborts by [`Reason::NoSlot`].
    pub fn migrate(&mut self, node: u64, server: u64) -> Result<Migrated, Failure> {
        Ok(match self.answer(Operation::Migrate { node, server })? {
            Answer { a: 1, b } => Migrated::To(b),
            Answer { b: 0, .. } => Migrated::Free,
            _ => Migrated::There,
        })
    }

    /// The first pairs from a key upward, in order, the key's own too: `count` of them, 1 to 32. They are fewer only where there are no more.
    pub fn list(&mut self, from: u64, count: usize) -> Result<Vec<(u64, u64)>, Failure> {
        let mut output = [0; MAX_PAIRS * PAIR_BYTES];
        let (key, count) = (from, count as u64);
        let answer = self.answer_into(Operation::List { key, count }, &mut output)?;
        Ok(answer.pairs(&output).collect())
    }

    /// The pairs whose keys are in a range, in order: `t.range(..)`, `t.range(40..60)`, `t.range(40..=60)`. A range that ends before it starts
    /// is empty.
    ///
    /// The iterator asks for [`list`](Transaction::list)s of up to 32 as it gets on. The last of them may read some leaves behind the range's
    /// end.
    ///
    /// A transaction reads at most 96 objects, and a range reads every leaf that it goes through, of 7 to 14 pairs each, and the inner nodes
    /// above them. In a transaction of its own some 500 pairs always get through, at best about 1,200; then it aborts by [`Reason::TooMany`].
    /// Read a longer range in several transactions, each from behind the last key of the one before: each part is as the map was in one
    /// moment, the whole need not be.
    pub fn range(&mut self, keys: impl RangeBounds<u64>) -> Pairs<'_, 's, B> {
        Pairs::new(self, keys)
    }

    /// Gives the transaction up. The error is what the closure returns, and the transaction is not run again.
    pub fn give_up<T>(&mut self) -> Result<T, Failure> {
        Err(Failure::Aborted(Reason::GivenUp))
    }

    fn answer(&mut self, operation: Operation) -> Result<Answer, Failure> {
        self.answer_into(operation, &mut [])
    }

    /// Gives an operation and works until it is answered; a list's pairs go into the output.
    fn answer_into(&mut self, operation: Operation, output: &mut [u8]) -> Result<Answer, Failure> {
        let client = self.client;
        expect_done(self.store.step(Step::Give { client, operation }))?;
        loop {
            match self.store.step_into(Step::Work { client }, output) {
                Outcome::Fetched(_) => {}
                Outcome::Answered(answer) => return Ok(answer),
                other => return Err(failure(other)),
            }
        }
    }

    /// Commits: prepares at each participant, then applies at each.
    fn commit(&mut self) -> Result<(), Failure> {
        match self.store.step(Step::Commit {
            client: self.client,
        }) {
            Outcome::Committed => return Ok(()),
            outcome => expect_done(outcome)?,
        }
        if self.at_participants(|client, server| Step::Prepare { client, server })? {
            return Ok(());
        }
        self.at_participants(|client, server| Step::Apply { client, server })?;
        Ok(())
    }

    /// One step at each participant: whether the transaction has ended. A server that takes no part refuses, and nothing happens there.
    fn at_participants(&mut self, step: fn(u64, u64) -> Step) -> Result<bool, Failure> {
        for server in 0..MAX_SERVERS as u64 {
            match self.store.step(step(self.client, server)) {
                Outcome::Prepared(_) | Outcome::Applied(_) | Outcome::Refused(Refusal::Unfit) => {}
                Outcome::Decided => return Ok(false),
                Outcome::Committed => return Ok(true),
                other => return Err(failure(other)),
            }
        }
        Ok(false)
    }
}

impl<B: AsMut<[u8]>> Store<B> {
    /// Runs one transaction of a client to its end: `body` asks and changes, then all of it is committed, at once for every reader.
    ///
    /// If it aborts for a reason that passes ([`Reason::may_pass_later`]) it is run again, at most `runs` times in all, so `body` should do
    /// nothing else that counts. If `body` returns an error the transaction is given up.
    ///
    /// It takes no steps of other clients: where one of them holds a lock in the middle of its commit, [`Reason::Busy`] stays until that
    /// client's steps go on.
    pub fn transaction<T>(
        &mut self,
        client: u64,
        runs: usize,
        mut body: impl FnMut(&mut Transaction<B>) -> Result<T, Failure>,
    ) -> Result<T, Failure> {
        let mut last = Failure::Aborted(Reason::GivenUp);
        for _ in 0..runs {
            match self.once(client, &mut body) {
                Err(Failure::Aborted(reason)) if reason.may_pass_later() => {
                    last = Failure::Aborted(reason)
                }
                ended => return ended,
            }
        }
        Err(last)
    }

    fn once<T>(
        &mut self,
        client: u64,
        body: &mut impl FnMut(&mut Transaction<B>) -> Result<T, Failure>,
    ) -> Result<T, Failure> {
        expect_done(self.step(Step::Begin { client }))?;
        let mut transaction = Transaction {
            store: self,
            client,
        };
        let ended = body(&mut transaction).and_then(|value| transaction.commit().map(|()| value));
        if ended.is_err() {
            // After an abort there is nothing to give up, and the step is refused.
            self.step(Step::GiveUp { client });
        }
        ended
    }
}

fn expect_done(outcome: Outcome) -> Result<(), Failure> {
    match outcome {
        Outcome::Done => Ok(()),
        other => Err(failure(other)),
    }
}

fn failure(outcome: Outcome) -> Failure {
    match outcome {
        Outcome::Aborted(reason) => Failure::Aborted(reason),
        Outcome::Refused(refusal) => Failure::Refused(refusal),
        other => unreachable!("no such step has the outcome {other:?}"),
    }
}

impl From<Refusal> for Failure {
    fn from(refusal: Refusal) -> Failure {
        Failure::Refused(refusal)
    }
}

impl fmt::Display for Failure {
    fn fmt(&self, f: &mut fmt::Formatter) -> fmt::Result {
        match self {
            Failure::Aborted(reason) => reason.fmt(f),
            Failure::Refused(refusal) => refusal.fmt(f),
        }
    }
}

impl std::error::Error for Failure {}
