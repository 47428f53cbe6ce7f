use crate::inspect::{self, Server, ServerState, View};
use crate::{library, Outcome, Refusal, Sizes, Step};

/// A store in memory that the caller lends: a `Vec<u8>`, a `&mut [u8]`, a mapped file.
///
/// The store keeps nothing outside that memory. Whoever writes to it by other means finds steps refused ([`Refusal::Damaged`]) or wrong
/// answers, never a crash.
#[derive(Debug)]
pub struct Store<B> {
    memory: B,
    sizes: Sizes,
}

impl Store<Vec<u8>> {
    /// A new, empty store in memory of its own.
    pub fn new(sizes: Sizes) -> Result<Self, Refusal> {
        let bytes = sizes.length().ok_or(Refusal::Sizes)?;
        Store::create(vec![0; bytes], sizes)
    }
}

impl<B: AsMut<[u8]>> Store<B> {
    /// A new, empty store in the memory lent; what stood there is gone. Bytes behind the store's length stay.
    pub fn create(mut memory: B, sizes: Sizes) -> Result<Self, Refusal> {
        let number = library::open(memory.as_mut(), sizes.servers, sizes.slots, sizes.clients);
        if number != 0 {
            return Err(Refusal::of(number));
        }
        Ok(Store { memory, sizes })
    }

    /// The store that stands in the memory lent already.
    pub fn resume(mut memory: B) -> Result<Self, Refusal> {
        // A step of an unknown kind tells whether one of refusals 1 to 3 holds, and changes nothing.
        let asked = library::step(memory.as_mut(), &mut [], [u64::MAX, 0, 0, 0, 0, 0]);
        match Outcome::of(asked) {
            Outcome::Refused(Refusal::UnknownKind) => {
                let sizes = inspect::sizes_in_head(memory.as_mut());
                Ok(Store { memory, sizes })
            }
            Outcome::Refused(refusal) => Err(refusal),
            _ => unreachable!("a step of an unknown kind is refused"),
        }
    }

    /// The sizes that the store was opened with. Which servers there are now [`Store::server_state`] tells.
    pub fn sizes(&self) -> Sizes {
        self.sizes
    }

    /// The memory lent.
    pub fn memory(&mut self) -> &mut [u8] {
        self.memory.as_mut()
    }

    /// The memory back; [`Store::resume`] takes it up again.
    pub fn into_memory(self) -> B {
        self.memory
    }

    /// One step, without an output: all but the work steps of a list need none, and those are refused by 12.
    pub fn step(&mut self, step: Step) -> Outcome {
        self.step_into(step, &mut [])
    }

    /// One step that is lent an output. The one that answers a list writes its pairs to it, [`crate::PAIR_BYTES`] each, from the first byte on.
    /// No other byte of it changes, and none at any other step.
    pub fn step_into(&mut self, step: Step, output: &mut [u8]) -> Outcome {
        self.step_words_into(step.words(), output)
    }

    /// One step of any six numbers, as they come from a file or a network: kind, client, op, key, value, server.
    pub fn step_words(&mut self, words: [u64; 6]) -> Outcome {
        self.step_words_into(words, &mut [])
    }

    /// One step of any six numbers that is lent an output, as by [`Store::step_into`].
    pub fn step_words_into(&mut self, words: [u64; 6], output: &mut [u8]) -> Outcome {
        Outcome::of(library::step(self.memory.as_mut(), output, words))
    }

    /// Adds an absent server. It is open from then on: new nodes are placed there, and others can be moved to it.
    ///
    /// This and the other two changes of the servers are refused by [`Refusal::Unfit`] while a transaction of any client is prepared at a server,
    /// or decided and not ended: take its steps, or declare the client lost and apply what it decided, then try again. Transactions that are open
    /// meanwhile abort later by [`crate::Reason::Differs`], and pass when they are run again.
    pub fn add(&mut self, server: u64) -> Result<(), Refusal> {
        self.change_servers(Step::AddServer { server })
    }

    /// Closes an open server: no new node is placed there from then on. What it has stays in use, until it is moved or deleted. The last open one
    /// does not close, and a closing one does not open again before it was removed.
    pub fn close(&mut self, server: u64) -> Result<(), Refusal> {
        self.change_servers(Step::CloseServer { server })
    }

    /// Removes a closing server, once no slot of it is taken ([`Refusal::SlotTaken`]). [`Store::retire`] closes a server, moves its nodes off and
    /// removes it.
    pub fn remove(&mut self, server: u64) -> Result<(), Refusal> {
        self.change_servers(Step::RemoveServer { server })
    }

    /// What a server is: what its own metadata calls it. A number above 7 is refused as by [`Store::add`].
    pub fn server_state(&mut self, server: u64) -> Result<ServerState, Refusal> {
        Ok(self.server(server)?.state())
    }

    /// A look at one server.
    pub(crate) fn server(&mut self, server: u64) -> Result<Server<'_>, Refusal> {
        let view = View::of(self.memory())?;
        let number = usize::try_from(server).ok();
        number
            .and_then(|number| view.server(number))
            .ok_or(Refusal::UnknownServer)
    }

    fn change_servers(&mut self, step: Step) -> Result<(), Refusal> {
        match self.step(step) {
            Outcome::Done => Ok(()),
            Outcome::Refused(refusal) => Err(refusal),
            other => unreachable!("a change of the servers has the outcome {other:?}"),
        }
    }

    /// Some steps, run front to back: the outcome of each.
    pub fn run(&mut self, steps: &[Step]) -> Vec<Outcome> {
        self.run_into(steps, &mut [])
    }

    /// Some steps that are lent one output, in turn as by [`Store::step_into`]: a list writes over what one before it has written.
    pub fn run_into(&mut self, steps: &[Step], output: &mut [u8]) -> Vec<Outcome> {
        let words: Vec<[u64; 6]> = steps.iter().map(|step| step.words()).collect();
        self.run_words_into(&words, output)
    }

    /// Some steps of any six numbers each, run front to back.
    pub fn run_words(&mut self, steps: &[[u64; 6]]) -> Vec<Outcome> {
        self.run_words_into(steps, &mut [])
    }

    /// Some steps of any six numbers each that are lent one output, as by [`Store::run_into`].
    pub fn run_words_into(&mut self, steps: &[[u64; 6]], output: &mut [u8]) -> Vec<Outcome> {
        let lines = library::run(self.memory.as_mut(), output, steps);
        lines.into_iter().map(Outcome::of).collect()
    }
}
