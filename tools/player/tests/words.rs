//! Every kind of step and of outcome that a schedule can meet early, in words: a schedule, and what is said of it.

mod json;

use json::Json;
use player::story::Story;
use player::{page, story, Schedule};

const SCHEDULE: &[u8] = include_bytes!("every-kind.txt");
const WORDS: &str = include_str!("every-kind.words");

fn every_kind() -> Story {
    story::tell(&Schedule::read(SCHEDULE).expect("a schedule"))
}

/// Each step's sentence; under it what is said of causes and changes.
fn told() -> String {
    let mut told = String::new();
    for moment in every_kind().moments {
        told += &format!("{}\n", moment.words);
        for words in moment.causes.iter().chain(&moment.changes) {
            told += &format!("    {words}\n");
        }
    }
    told
}

#[test]
fn every_kind_in_words() {
    for (line, (told, due)) in told().lines().zip(WORDS.lines()).enumerate() {
        assert_eq!(told, due, "line {} of every-kind.words", line + 1);
    }
    assert_eq!(told().lines().count(), WORDS.lines().count());
}

/// What a list has written stands with its answer: in its transaction from the step on that answers it, and in the decided one.
#[test]
fn lists_in_the_data() {
    let text = |n: &u64| Json::Text(n.to_string());
    let pairs = |due: &[[u64; 2]]| {
        let pair = |pair: &[u64; 2]| Json::List(pair.iter().map(text).collect());
        Json::List(due.iter().map(pair).collect())
    };
    let data = json::read(&page::data(&every_kind()));
    let steps = data.field("steps").list();
    let asked = |step: usize, turn: &str| steps[step].field("set").field(turn).field("pairs");
    assert_eq!(asked(73, "o/0/0"), &pairs(&[]));
    assert_eq!(asked(76, "o/0/0"), &pairs(&[[5, 71]]));
    assert_eq!(asked(78, "o/0/1"), &pairs(&[]));
    assert_eq!(asked(80, "o/0/2"), &pairs(&[[5, 71], [9, 73]]));
    let decision = steps[86].field("set").object();
    let decided = decision.iter().find(|(place, _)| place.starts_with("d/"));
    let (_, decided) = decided.expect("a decided transaction");
    let listed: Vec<&Json> = decided
        .field("asked")
        .list()
        .iter()
        .map(|asked| asked.field("pairs"))
        .collect();
    let due: [&[[u64; 2]]; 5] = [&[[5, 71]], &[], &[[5, 71], [9, 73]], &[[9, 73]], &[]];
    assert!(listed.into_iter().eq(due.map(pairs).iter()));
}
