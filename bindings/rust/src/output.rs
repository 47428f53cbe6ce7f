//! The output that a list writes its pairs to.

/// The most pairs that one list can ask for.
pub const MAX_PAIRS: usize = 32;

/// The bytes of a pair in an output: the key, then the value, each lowest byte first.
pub const PAIR_BYTES: usize = 16;

/// All pairs that an output has room for, whoever wrote there.
pub(crate) fn pairs(output: &[u8]) -> impl Iterator<Item = (u64, u64)> + '_ {
    output.as_chunks::<PAIR_BYTES>().0.iter().map(pair)
}

fn pair(bytes: &[u8; PAIR_BYTES]) -> (u64, u64) {
    let number = u128::from_le_bytes(*bytes);
    (number as u64, (number >> 64) as u64)
}
