//! What a step changed.

use crate::state::{Content, Place, State};

/// One place where two moments differ. What was not there before, or is not there any more, is `None`.
#[derive(Clone, Debug, PartialEq)]
pub struct Change {
    pub place: Place,
    pub before: Option<Content>,
    pub after: Option<Content>,
}

pub fn difference(before: &State, after: &State) -> Vec<Change> {
    let mut places: Vec<&Place> = before.keys().chain(after.keys()).collect();
    places.sort_unstable();
    places.dedup();
    places
        .into_iter()
        .map(|place| (place, before.get(place), after.get(place)))
        .filter(|(_, before, after)| before != after)
        .map(|(place, before, after)| Change {
            place: *place,
            before: before.cloned(),
            after: after.cloned(),
        })
        .collect()
}
