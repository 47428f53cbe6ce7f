//! A schedule as a page that one can walk through, in the order of the work:
//!
//! - [`schedule`] and [`captions`] read the two files,
//! - [`story`] runs the steps, with [`ledger`] for the transactions and [`state`] for what there is to see after each,
//! - [`difference`] is what a step changed, [`words`], [`causes`] and [`changes`] put steps, aborts and changes into words,
//! - [`encode`] and [`page`] write all of it as one HTML file, whose looks and script stand in `page/`.

pub mod captions;
pub mod causes;
pub mod changes;
pub mod difference;
pub mod encode;
pub mod ledger;
pub mod lines;
pub mod page;
pub mod schedule;
pub mod state;
pub mod story;
pub mod words;

pub use captions::Captions;
pub use lines::BadLine;
pub use schedule::Schedule;
