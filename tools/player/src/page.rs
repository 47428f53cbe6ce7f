//! One HTML file that needs nothing else: the steps in words as a list that any browser shows, and beside it looks, script and the story's
//! data, from which the script draws.

use crate::captions::Captions;
use crate::encode;
use crate::schedule::{tablet, FIRST_STEP_LINE};
use crate::state::Place;
use crate::story::{Moment, Story};
use crate::words::numbered;
use gemandrolo::{Outcome, Sizes};

const PAGE: &str = include_str!("../page/page.html");
const STYLE: &str = include_str!("../page/page.css");
const SCRIPT: [&str; 4] = [
    include_str!("../page/story.js"),
    include_str!("../page/tree.js"),
    include_str!("../page/panels.js"),
    include_str!("../page/controls.js"),
];

pub fn write(story: &Story, captions: &Captions) -> String {
    let untitled = format!("A schedule of {} steps", story.moments.len());
    let title = captions.title.as_ref().unwrap_or(&untitled);
    fill(
        PAGE,
        &[
            ("title", escaped(title)),
            ("sizes", sizes(story)),
            ("style", STYLE.into()),
            ("steps", steps(story, captions)),
            ("story", data(story)),
            ("script", SCRIPT.concat()),
        ],
    )
}

/// The template with each `{{name}}` replaced; what is put in is not looked at again.
fn fill(template: &str, parts: &[(&str, String)]) -> String {
    let mut out = String::new();
    let mut rest = template;
    while let Some((before, behind)) = rest.split_once("{{") {
        let (name, after) = behind.split_once("}}").expect("a name ends");
        let part = parts.iter().find(|part| part.0 == name);
        out += before;
        out += &part.expect("a part of the page has a name").1;
        rest = after;
    }
    out + rest
}

fn escaped(text: &str) -> String {
    text.replace('&', "&amp;")
        .replace('<', "&lt;")
        .replace('>', "&gt;")
        .replace('"', "&quot;")
}

/// The sizes, and that they are those at first where servers come and go.
fn sizes(story: &Story) -> String {
    let counted = |n: usize, noun: &str| format!("{n} {noun}{}", if n == 1 { "" } else { "s" });
    let mut changes = story.moments.iter().map(|moment| tablet(moment.step));
    let at_first = if changes.any(|by| by.is_none()) {
        " at first"
    } else {
        ""
    };
    format!(
        "{} of {} each{at_first}, {}",
        counted(story.sizes.servers, "server"),
        counted(story.sizes.slots, "slot"),
        counted(story.sizes.clients, "tablet")
    )
}

/// The start and every step, each with its sentence and its caption.
fn steps(story: &Story, captions: &Captions) -> String {
    let servers = numbered("server", 0..story.sizes.servers);
    let opened = format!("A new store is opened on {servers}: the root is node 0, an empty leaf");
    let start = step_line(-1, "", &opened, captions.start.as_deref());
    let lines = story.moments.iter().enumerate().map(|(number, moment)| {
        let caption = captions.steps.get(&number).map(String::as_str);
        step_line(number as i64, mark(moment), &moment.words, caption)
    });
    start + &lines.collect::<String>()
}

fn step_line(number: i64, mark: &str, words: &str, caption: Option<&str>) -> String {
    let caption = caption.map_or(String::new(), |text| {
        format!("<p class=\"caption\">{}</p>", escaped(text))
    });
    let (words, label) = match number {
        -1 => (words, "start".to_string()),
        _ => (words, number.to_string()),
    };
    format!(
        "<li class=\"{mark}\"><a href=\"#{label}\"><b>{label}</b> <span>{}</span></a>{caption}</li>\n",
        escaped(words)
    )
}

/// What one jumps to, or "".
pub fn mark(moment: &Moment) -> &'static str {
    match (moment.step[0], moment.outcome) {
        (3 | 4, Outcome::Decided | Outcome::Committed) => "decision",
        (_, Outcome::Aborted(_)) => "abort",
        (_, Outcome::Refused(_)) => "refused",
        _ => "",
    }
}

/// How many servers are shown: up to the last one that is ever there.
fn shown_servers(story: &Story) -> usize {
    let later = story.moments.iter().flat_map(|moment| &moment.difference);
    let places = story.start.keys().chain(later.map(|change| &change.place));
    let servers = places.filter_map(|place| match place {
        Place::Metadata(server) => Some(server + 1),
        _ => None,
    });
    servers.max().unwrap_or_default()
}

/// The story as JSON, for the script.
pub fn data(story: &Story) -> String {
    let Sizes { slots, clients, .. } = story.sizes;
    let count = |n: usize| n.to_string();
    let steps = story.moments.iter().enumerate().map(step_data);
    encode::object(&[
        ("servers", count(shown_servers(story))),
        ("slots", count(slots)),
        ("tablets", count(clients)),
        ("start", encode::state(&story.start)),
        ("steps", encode::list(steps)),
    ])
}

fn step_data((number, moment): (usize, &Moment)) -> String {
    let spaced = |numbers: &[u64]| {
        let numbers: Vec<String> = numbers.iter().map(u64::to_string).collect();
        numbers.join(" ")
    };
    let [outcome, a, b] = moment.outcome.numbers();
    let tablet = tablet(moment.step).map_or(String::new(), |client| client.to_string());
    let (set, gone) = encode::difference(&moment.difference);
    let sentences = moment.causes.iter().chain(&moment.changes);
    encode::object(&[
        ("tablet", encode::text(&tablet)),
        ("mark", encode::text(mark(moment))),
        ("line", (number + FIRST_STEP_LINE).to_string()),
        ("reads", encode::text(&spaced(&moment.step))),
        (
            "prints",
            encode::text(&spaced(&[number as u64, outcome, a, b])),
        ),
        (
            "changes",
            encode::list(sentences.map(|words| encode::text(words))),
        ),
        ("set", set),
        ("gone", gone),
    ])
}
