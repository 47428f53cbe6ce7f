//! The story of the two ears, as the README tells it.

mod json;

use gemandrolo::inspect::Body;
use player::state::{Content, Place};
use player::story::{self, Story};
use player::{page, Captions, Schedule};

const SCHEDULE: &[u8] = include_bytes!("../../../crates/stepshow/stdin");
const PRINTED: &str = include_str!("../../../crates/stepshow/stdout");
const CAPTIONS: &[u8] = include_bytes!("../ears.captions");
const ABORT: usize = 78;

fn ears() -> (Story, Captions) {
    let schedule = Schedule::read(SCHEDULE).expect("a schedule");
    let captions = Captions::read(CAPTIONS, schedule.steps.len()).expect("captions");
    (story::tell(&schedule), captions)
}

/// What is seen after a step, from the start and what each step changed.
fn seen_after(story: &Story, step: usize) -> player::state::State {
    let mut seen = story.start.clone();
    for change in story.moments[..=step].iter().flat_map(|m| &m.difference) {
        match &change.after {
            Some(content) => seen.insert(change.place, content.clone()),
            None => seen.remove(&change.place),
        };
    }
    seen
}

#[test]
fn outcomes_are_those_that_stepshow_prints() {
    let (story, _) = ears();
    let printed: Vec<&str> = PRINTED.lines().skip(1).collect();
    assert_eq!(story.moments.len(), printed.len());
    for (number, (moment, line)) in story.moments.iter().zip(printed).enumerate() {
        let [outcome, a, b] = moment.outcome.numbers();
        assert_eq!(format!("{number} {outcome} {a} {b}"), line);
    }
}

#[test]
fn the_abort() {
    let (story, _) = ears();
    let moment = &story.moments[ABORT];
    assert_eq!(
        moment.words,
        "Tablet 1 works: aborted, what it read has changed"
    );
    assert_eq!(
        moment.causes,
        ["It used what is old: node 0 at version 2, where server 0 has 3."]
    );
    assert_eq!(
        story.moments[76].changes.last().map(String::as_str),
        Some("Old from now on: tablet 1's copy of node 0.")
    );
}

#[test]
fn both_ears_are_20_at_the_end() {
    let (story, _) = ears();
    let seen = seen_after(&story, story.moments.len() - 1);
    for ear in [40, 41] {
        assert_eq!(seen.get(&Place::Key(ear)), Some(&Content::Value(20)));
    }
    let leaves = seen.values().filter_map(|content| match content {
        Content::Node(node) => match &node.body {
            Body::Leaf { pairs } => Some(pairs),
            _ => None,
        },
        _ => None,
    });
    let stored: Vec<_> = leaves.flatten().filter(|pair| pair.0 / 10 == 4).collect();
    assert_eq!(stored, [&(40, 20), &(41, 20)]);
}

/// Decisions and the abort are what a trainer stops at.
#[test]
fn what_one_jumps_to_has_a_caption() {
    let (story, captions) = ears();
    assert!(captions.title.is_some() && captions.start.is_some());
    let marked = [32, 46, 59, 75, ABORT, 87];
    for step in marked {
        assert!(captions.steps.contains_key(&step), "step {step}");
        assert!(!page::mark(&story.moments[step]).is_empty(), "step {step}");
    }
    let marks = story.moments.iter().filter(|m| !page::mark(m).is_empty());
    assert_eq!(marks.count(), marked.len());
}

/// Nothing is asked of a network or of another file.
#[test]
fn the_page_is_one_file() {
    let (story, captions) = ears();
    let page = page::write(&story, &captions);
    assert!(page.contains("<title>Two ears, two tablets</title>"));
    for asks in [
        "src=",
        "@import",
        "url(",
        "fetch(",
        "XMLHttpRequest",
        "<link rel=\"style",
    ] {
        assert!(!page.contains(asks), "{asks}");
    }
    let namespace = "http://www.w3.org/2000/svg";
    assert!(!page.replace(namespace, "").contains("http:"));
    assert!(!page.contains("https:"));
    assert!(!page.contains("{{"));
    assert!(page.len() < 200_000, "{} bytes", page.len());
}

/// The script's data is JSON, and has every step.
#[test]
fn the_data_can_be_read() {
    let (story, captions) = ears();
    let page = page::write(&story, &captions);
    let data = json::read(&page::data(&story));
    assert!(page.contains(&page::data(&story)));
    let steps = data.field("steps").list();
    assert_eq!(steps.len(), story.moments.len());
    assert_eq!(steps[ABORT].field("mark").text(), "abort");
    assert_eq!(steps[ABORT].field("prints").text(), "78 8 1 0");
    assert_eq!(steps[ABORT].field("line"), &json::Json::Number(80.0));
}
