//! What `stepshow` reads: a line of sizes, then a line for each step.

use crate::lines::{lines, BadLine};
use gemandrolo::Sizes;

#[derive(Clone, Debug, PartialEq, Eq)]
pub struct Schedule {
    pub sizes: Sizes,
    /// Kind, client, op, key, value, server.
    pub steps: Vec<[u64; 6]>,
}

/// The line of step 0: the sizes stand on line 1.
pub const FIRST_STEP_LINE: usize = 2;

impl Schedule {
    pub fn read(text: &[u8]) -> Result<Schedule, BadLine> {
        let mut lines = lines(text);
        let first = lines
            .next()
            .ok_or_else(|| BadLine::new(1, "there is none; the sizes belong here"))?;
        Ok(Schedule {
            sizes: sizes(first)?,
            steps: lines.map(step).collect::<Result<_, _>>()?,
        })
    }
}

/// The tablet that takes a step; a change of the servers is of none, whatever stands in that field.
pub fn tablet([kind, client, ..]: [u64; 6]) -> Option<u64> {
    (!(8..=10).contains(&kind)).then_some(client)
}

fn sizes(line: (usize, &[u8])) -> Result<Sizes, BadLine> {
    let [servers, slots, clients] = numbers(line, "the sizes are 3: servers, slots, clients")?
        .map(|size| usize::try_from(size).unwrap_or(usize::MAX));
    let sizes = Sizes {
        servers,
        slots,
        clients,
    };
    let ranges = "refused by 2: servers are 1 to 8, slots 1 to 1024, clients 1 to 16";
    sizes.length().ok_or_else(|| BadLine::new(line.0, ranges))?;
    Ok(sizes)
}

fn step(line: (usize, &[u8])) -> Result<[u64; 6], BadLine> {
    numbers(line, "a step has 6: kind, client, op, key, value, server")
}

/// As many numbers as are due, parted by one space.
fn numbers<const DUE: usize>(
    (line, text): (usize, &[u8]),
    due: &str,
) -> Result<[u64; DUE], BadLine> {
    if text.is_empty() {
        return Err(BadLine::new(line, "it is empty"));
    }
    let read: Result<Vec<u64>, String> = text.split(|byte| *byte == b' ').map(number).collect();
    let read = read.map_err(|why| BadLine::new(line, why))?;
    let count = read.len();
    read.try_into()
        .map_err(|_| BadLine::new(line, format!("it has {count} numbers; {due}")))
}

/// Digits only, below 2^64.
fn number(field: &[u8]) -> Result<u64, String> {
    let shown = || String::from_utf8_lossy(field).escape_debug().to_string();
    if field.is_empty() {
        return Err("numbers are parted by one space, with none before or behind".into());
    }
    if !field.iter().all(u8::is_ascii_digit) {
        return Err(format!("\"{}\" is no number", shown()));
    }
    let digits = std::str::from_utf8(field).map_err(|why| why.to_string())?;
    digits
        .parse()
        .map_err(|_| format!("{} is above 18446744073709551615", shown()))
}
