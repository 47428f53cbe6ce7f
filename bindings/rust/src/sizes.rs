use crate::library;

/// The most servers that a store can have. Their numbers are 0 to 7, whatever it was opened with.
pub const MAX_SERVERS: usize = 8;

/// The sizes that a store is opened with: servers 1 to 8, slots on each 1 to 1,024, clients 1 to 16. The servers are those that are open at first;
/// there is room for all eight, and [`crate::Store::add`] adds one.
#[derive(Clone, Copy, Debug, PartialEq, Eq, Hash)]
pub struct Sizes {
    pub servers: usize,
    pub slots: usize,
    pub clients: usize,
}

impl Sizes {
    /// The bytes of memory that a store of these sizes needs, or `None` where a size is outside its range.
    pub fn length(self) -> Option<usize> {
        let bytes = library::length(self.servers, self.slots, self.clients);
        (bytes != 0).then_some(bytes)
    }
}
