use crate::inspect::{Members, ServerState, View};
use crate::{Failure, Reason, Refusal, Store};
use std::cmp::Reverse;
use std::fmt;

/// The most runs of one move. Nobody else takes a step between them, a run that old copies lead astray drops one at least, and a client has 73 at
/// most: the metadata, eight vectors, 64 inner nodes. So more would come to nothing.
const RUNS: usize = 74;

/// How often the open servers are tried for one node: twice, since a client that knows one as absent still is told once that it isn't open.
const ROUNDS: usize = 2;

/// Why a server was not retired. If it is closing by now it stays so, and what has moved stays where it is: [`Store::retire`] goes on from there.
#[derive(Clone, Copy, Debug, PartialEq, Eq, Hash)]
pub enum NotRetired {
    /// The client that would move the nodes isn't in the store, or has a transaction under way. Nothing was begun.
    Client(Failure),
    /// The server didn't close, or wasn't removed: its number is above 7, it is absent, it is the last open one, the metadata has been written too
    /// often, or the memory is damaged.
    Refused(Refusal),
    /// Transactions of these clients are prepared at a server, or decided and not ended, which holds a step up. Take their steps, or declare the
    /// clients lost and apply what they decided; then retire the server again.
    Unended(Members),
    /// So many slots of the server are still taken, and the other open servers have fewer free ones. Add a server or delete something, then retire
    /// this one again. An open server is not closed for that; of a closing one as many nodes have moved as there was room for.
    NoRoom { taken: usize, free: usize },
    /// This node was to be moved, and the transaction came to nothing.
    Stuck { node: u64, failure: Failure },
}

impl<B: AsMut<[u8]>> Store<B> {
    /// Retires a server: closes it, unless it is closing already, moves its nodes off, and removes it. Its number can be added again later.
    ///
    /// `client`, which must have no transaction under way, moves one node after the other, each to the open server with the most free slots.
    /// `progress` is told how many slots are still taken: at first, and after every move. It is lent the store too, so that steps of other clients
    /// can be taken between two moves.
    ///
    /// If something is in the way, [`NotRetired`] says what; called again, `retire` goes on where it stopped. A closing server can't be opened
    /// again, so one is not closed while its nodes have no room elsewhere.
    ///
    /// It never waits, and comes to an end whatever others do: a closing server gets no new node, so each slot is looked at once, and its node
    /// tried on at most seven servers, twice, in at most 74 runs.
    pub fn retire(
        &mut self,
        client: u64,
        server: u64,
        progress: impl FnMut(&mut Self, usize),
    ) -> Result<(), NotRetired> {
        // One that asks nothing: whether the client can have a transaction is found out before anything is changed.
        self.transaction(client, 1, |_| Ok(()))
            .map_err(NotRetired::Client)?;
        let emptied = self.close_and_empty(client, server, progress);
        let retired = emptied.and_then(|()| Ok(self.remove(server)?));
        retired.map_err(|why| self.naming_clients(why))
    }

    fn close_and_empty(
        &mut self,
        client: u64,
        server: u64,
        mut progress: impl FnMut(&mut Self, usize),
    ) -> Result<(), NotRetired> {
        if self.server_state(server)? != ServerState::Closing {
            self.need_room(server)?;
            self.close(server)?;
        }
        let nodes: Vec<_> = self.server(server)?.taken().collect();
        progress(self, nodes.len());
        for node in nodes {
            // Others may have freed it meanwhile.
            if self.server(server)?.is_taken(node.slot()) {
                self.move_off(client, server, node.number())?;
                let taken = self.taken(server)?;
                progress(self, taken);
            }
        }
        Ok(())
    }

    /// Fails where the other open servers can't hold what this one has. Where there is none, that the last doesn't close is for the step to say.
    fn need_room(&mut self, server: u64) -> Result<(), NotRetired> {
        let (taken, others) = (self.taken(server)?, self.rooms(server)?);
        let free = free(&others);
        match free < taken && !others.is_empty() {
            true => Err(NotRetired::NoRoom { taken, free }),
            false => Ok(()),
        }
    }

    fn move_off(&mut self, client: u64, server: u64, node: u64) -> Result<(), NotRetired> {
        for _ in 0..ROUNDS {
            for (to, _) in self.rooms(server)? {
                match self.transaction(client, RUNS, |t| t.migrate(node, to)) {
                    Ok(_) => return Ok(()),
                    Err(Failure::Aborted(Reason::NoSlot)) => {}
                    Err(failure) => return Err(NotRetired::Stuck { node, failure }),
                }
            }
        }
        let (taken, free) = (self.taken(server)?, free(&self.rooms(server)?));
        Err(NotRetired::NoRoom { taken, free })
    }

    /// How many slots of a server are taken.
    fn taken(&mut self, server: u64) -> Result<usize, Refusal> {
        Ok(self.server(server)?.taken().count())
    }

    /// The open servers but this one, each with the number of its free slots: those with the most first, the lower number at a tie.
    fn rooms(&mut self, but: u64) -> Result<Vec<(u64, usize)>, Refusal> {
        let view = View::of(self.memory())?;
        let slots = view.sizes().slots;
        let mut rooms: Vec<(u64, usize)> = view
            .servers()
            .filter(|server| server.state() == ServerState::Open)
            .map(|server| (server.number() as u64, slots - server.taken().count()))
            .filter(|(number, _)| *number != but)
            .collect();
        rooms.sort_by_key(|(_, free)| Reverse(*free));
        Ok(rooms)
    }

    /// Where clients in the middle of a commit hold it up, says which.
    fn naming_clients(&mut self, why: NotRetired) -> NotRetired {
        let busy = Failure::Aborted(Reason::Busy);
        let held_up = match why {
            NotRetired::Refused(refusal) => refusal == Refusal::Unfit,
            NotRetired::Stuck { failure, .. } => failure == busy,
            _ => false,
        };
        match View::of(self.memory()).map(|view| view.unended()) {
            Ok(clients) if held_up && !clients.is_empty() => NotRetired::Unended(clients),
            _ => why,
        }
    }
}

fn free(rooms: &[(u64, usize)]) -> usize {
    rooms.iter().map(|(_, free)| free).sum()
}

impl From<Refusal> for NotRetired {
    fn from(refusal: Refusal) -> NotRetired {
        NotRetired::Refused(refusal)
    }
}

impl fmt::Display for NotRetired {
    fn fmt(&self, f: &mut fmt::Formatter) -> fmt::Result {
        match self {
            NotRetired::Client(failure) => write!(f, "the client can't move nodes: {failure}"),
            NotRetired::Refused(refusal) => write!(f, "the server is not retired: {refusal}"),
            NotRetired::Unended(clients) => {
                write!(
                    f,
                    "held up by a transaction that is prepared, or decided and not ended:"
                )?;
                let mut comma = "";
                clients.iter().try_for_each(|client| {
                    write!(f, "{comma} client {client}")?;
                    comma = ",";
                    Ok(())
                })
            }
            NotRetired::NoRoom { taken, free } => write!(
                f,
                "{taken} slots are still taken, and the other open servers have {free} free"
            ),
            NotRetired::Stuck { node, failure } => write!(f, "node {node} doesn't move: {failure}"),
        }
    }
}

impl std::error::Error for NotRetired {}
