//! Each example prints what the file beside it has, and docs/USING.md shows what is so.

use gemandrolo::{Sizes, Store};

#[allow(dead_code, reason = "main")]
#[path = "../examples/district.rs"]
mod district;
#[allow(dead_code, reason = "main")]
#[path = "../examples/ears.rs"]
mod ears;

#[test]
fn district() {
    let mut said = String::new();
    let ended = district::run(&mut |line| said += &(line + "\n"));
    assert!(ended.is_ok(), "{ended:?}");
    assert_eq!(said, include_str!("../examples/district.txt"));
}

#[test]
fn ears() {
    let mut said = String::new();
    let ended = ears::run(&mut |line| said += &(line + "\n"));
    assert_eq!(ended, Ok(()));
    assert_eq!(said, include_str!("../examples/ears.txt"));
}

const USING: &str = include_str!("../../../docs/USING.md");

/// The lines between two lines of the page, the first of which starts so.
fn shown(first: &str, last: &str) -> Vec<&'static str> {
    let from = USING.lines().skip_while(|line| !line.starts_with(first));
    let lines: Vec<&str> = from.take_while(|line| *line != last).collect();
    assert!(!lines.is_empty(), "{first}");
    lines
}

/// The lines of district.rs that the page shows are there, in that order.
#[test]
fn lines_of_the_district() {
    let mut lines = include_str!("../examples/district.rs").lines();
    for line in shown("store.add(4)?;", "```") {
        assert!(lines.any(|own| own.trim() == line.trim()), "{line}");
    }
}

/// The schedule of the page: a line has a step's six numbers, then what `stepshow` prints of it: the step's number and the three of its outcome.
#[test]
fn schedule_of_the_page() {
    let sizes = Sizes {
        servers: 2,
        slots: 4,
        clients: 1,
    };
    let mut store = Store::new(sizes).expect("allowed sizes");
    let lines = shown("2 4 1 ", "```");
    for (number, line) in lines[1..].iter().enumerate() {
        let words = line.split_whitespace().take(10);
        let numbers: Vec<u64> = words.map(|word| word.parse().expect("a number")).collect();
        let (step, printed) = numbers.split_at(6);
        let outcome = store.step_words(step.try_into().expect("six"));
        assert_eq!(printed[0], number as u64);
        assert_eq!(printed[1..], outcome.numbers(), "{line}");
    }
    assert_eq!(lines.len(), 40);
}
