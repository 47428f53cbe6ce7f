//! An ordered store of pairs (64-bit key, 64-bit value): a B-tree whose nodes are spread over up to eight servers, read by up to sixteen
//! clients through old copies, and changed by transactions that commit in two phases.
//!
//! The engine is proved; this crate links it and gives its numbers names. All state lies in one piece of memory that the caller owns:
//! a [`Store`] over a `Vec<u8>`, over a borrowed slice, or over anything else that lends bytes.
//!
//! ```
//! use gemandrolo::{Sizes, Store};
//!
//! let sizes = Sizes { servers: 2, slots: 64, clients: 1 };
//! let mut store = Store::new(sizes).unwrap();
//! let before = store.transaction(0, 10, |t| {
//!     t.insert(1, 35)?;
//!     t.insert(2, 40)?;
//!     t.lookup(1)
//! });
//! assert_eq!(before, Ok(Some(35)));
//! ```
//!
//! A class list is the first pairs from a key upward, up to 32 of them, or all pairs of a range:
//!
//! ```
//! # use gemandrolo::{Sizes, Store};
//! # let mut store = Store::new(Sizes { servers: 2, slots: 64, clients: 1 }).unwrap();
//! store.transaction(0, 10, |t| (1..=40).try_for_each(|child| t.insert(child, 20).map(drop)))?;
//! let class = store.transaction(0, 10, |t| t.list(38, 32))?;
//! assert_eq!(class, [(38, 20), (39, 20), (40, 20)]);
//! let sum = store.transaction(0, 10, |t| {
//!     t.range(5..25).map(|pair| Ok(pair?.1)).sum::<Result<u64, _>>()
//! })?;
//! assert_eq!(sum, 20 * 20);
//! # Ok::<(), gemandrolo::Failure>(())
//! ```
//!
//! Servers come and go while the store is in use: one is added, another retired, that is, closed to new nodes and, once its nodes have moved
//! away, removed.
//!
//! ```
//! # use gemandrolo::{ServerState, Sizes, Store};
//! # let mut store = Store::new(Sizes { servers: 2, slots: 64, clients: 1 })?;
//! # store.transaction(0, 10, |t| t.insert(1, 35))?;
//! store.add(2)?;
//! let client = 0;
//! store.retire(client, 0, |_, taken| println!("{taken} slots still taken"))?;
//! assert_eq!(store.server_state(0), Ok(ServerState::Absent));
//! assert_eq!(store.transaction(client, 10, |t| t.lookup(1)), Ok(Some(35)));
//! # Ok::<(), Box<dyn std::error::Error>>(())
//! ```
//!
//! [`Store::transaction`] runs one transaction to its end. Whoever drives the steps itself, as a server that gets them from many tablets does,
//! calls [`Store::step`] or [`Store::run`], and looks at each [`Outcome`]; lists are written to an output, which [`Store::step_into`] and
//! [`Store::run_into`] lend. What stands in the memory is shown by [`inspect`].

pub mod inspect;
mod library;
mod outcome;
mod output;
mod pairs;
mod retire;
mod sizes;
mod step;
mod store;
mod transaction;

pub use inspect::ServerState;
pub use outcome::{Answer, Fetched, Outcome, Reason, Refusal};
pub use output::{MAX_PAIRS, PAIR_BYTES};
pub use pairs::Pairs;
pub use retire::NotRetired;
pub use sizes::{Sizes, MAX_SERVERS};
pub use step::{Operation, Step};
pub use store::Store;
pub use transaction::{Failure, Migrated, Transaction};
