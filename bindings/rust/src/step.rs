/// An operation that a transaction is given.
#[derive(Clone, Copy, Debug, PartialEq, Eq, Hash)]
pub enum Operation {
    /// The key gets the value. Answer: a is 1 if the key was absent.
    Insert { key: u64, value: u64 },
    /// Answer: a is 1 if the key is there, and b its value.
    Lookup { key: u64 },
    /// Answer: a is 1 if the key was there.
    Delete { key: u64 },
    /// Answer: a is 1 if there is a key strictly above, and b is the nearest.
    Next { key: u64 },
    /// Answer: a is 1 if there is a key strictly below, and b is the nearest.
    Previous { key: u64 },
    /// A node moves to a server. Answer: a is 1 if it moved, and b its new name; else b is 0 for a free node, 1 for one that is there already.
    Migrate { node: u64, server: u64 },
    /// The first pairs from the key upward, the key's own too: as many as `count` says, 1 to 32. Answer: a is the number of pairs, fewer than
    /// asked for only where there are no more. They are written to the output lent to the work step ([`crate::Store::step_into`]), which has to
    /// have room for `count` of them; [`crate::Answer::pairs`] reads them.
    List { key: u64, count: u64 },
}

/// One step: of one client, or a change of the servers.
#[derive(Clone, Copy, Debug, PartialEq, Eq, Hash)]
pub enum Step {
    /// A transaction starts.
    Begin { client: u64 },
    /// The transaction is given an operation, which then waits.
    Give { client: u64, operation: Operation },
    /// The waiting operation gets on: one object is fetched, or it is answered.
    Work { client: u64 },
    /// Nothing more is asked: the transaction's participants are settled.
    Commit { client: u64 },
    /// A participant checks and locks. The last prepare is the decision.
    Prepare { client: u64, server: u64 },
    /// A participant writes and unlocks. The last apply ends the transaction.
    Apply { client: u64, server: u64 },
    /// The transaction is given up.
    GiveUp { client: u64 },
    /// The client is lost, with its copies; a decided transaction of it is still applied.
    Lost { client: u64 },
    /// An absent server is added, and open from then on.
    AddServer { server: u64 },
    /// An open server is closed to new nodes.
    CloseServer { server: u64 },
    /// A closing server that has no node left is removed.
    RemoveServer { server: u64 },
}

impl Operation {
    /// op, key, value and server.
    #[inline]
    fn words(self) -> [u64; 4] {
        match self {
            Operation::Insert { key, value } => [1, key, value, 0],
            Operation::Lookup { key } => [2, key, 0, 0],
            Operation::Delete { key } => [3, key, 0, 0],
            Operation::Next { key } => [4, key, 0, 0],
            Operation::Previous { key } => [5, key, 0, 0],
            Operation::Migrate { node, server } => [6, node, 0, server],
            Operation::List { key, count } => [7, key, count, 0],
        }
    }
}

impl Step {
    /// The six fields: kind, client, op, key, value, server. Those that a kind doesn't use are 0.
    #[inline]
    pub fn words(self) -> [u64; 6] {
        match self {
            Step::Begin { client } => [0, client, 0, 0, 0, 0],
            Step::Give { client, operation } => {
                let [op, key, value, server] = operation.words();
                [1, client, op, key, value, server]
            }
            Step::Work { client } => [2, client, 0, 0, 0, 0],
            Step::Commit { client } => [3, client, 0, 0, 0, 0],
            Step::Prepare { client, server } => [4, client, 0, 0, 0, server],
            Step::Apply { client, server } => [5, client, 0, 0, 0, server],
            Step::GiveUp { client } => [6, client, 0, 0, 0, 0],
            Step::Lost { client } => [7, client, 0, 0, 0, 0],
            Step::AddServer { server } => [8, 0, 0, 0, 0, server],
            Step::CloseServer { server } => [9, 0, 0, 0, 0, server],
            Step::RemoveServer { server } => [10, 0, 0, 0, 0, server],
        }
    }
}
