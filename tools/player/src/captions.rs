//! A schedule's side file: a title, and captions for steps. Each line is what it is for, a tab, and the text; it is for `title`, for `start`
//! (the store before its first step), or for the step of that number.

use crate::lines::{lines, BadLine};
use std::collections::BTreeMap;

#[derive(Clone, Debug, Default, PartialEq, Eq)]
pub struct Captions {
    pub title: Option<String>,
    pub start: Option<String>,
    pub steps: BTreeMap<usize, String>,
}

impl Captions {
    /// The captions for a schedule of so many steps.
    pub fn read(text: &[u8], steps: usize) -> Result<Captions, BadLine> {
        let mut captions = Captions::default();
        for (line, bytes) in lines(text) {
            let said = captions.add(bytes, steps);
            said.map_err(|why| BadLine::new(line, why))?;
        }
        Ok(captions)
    }

    fn add(&mut self, line: &[u8], steps: usize) -> Result<(), String> {
        let line = std::str::from_utf8(line).map_err(|_| "it is not UTF-8")?;
        let (place, text) = line
            .split_once('\t')
            .ok_or("it has no tab; a caption is a step's number, a tab and the text")?;
        let before = match place {
            "title" => self.title.replace(text.into()),
            "start" => self.start.replace(text.into()),
            number => self.steps.insert(step(number, steps)?, text.into()),
        };
        match before {
            Some(_) => Err(format!("{place} has a text already")),
            None => Ok(()),
        }
    }
}

fn step(number: &str, steps: usize) -> Result<usize, String> {
    let shown = number.escape_debug();
    if number.is_empty() || !number.bytes().all(|byte| byte.is_ascii_digit()) {
        return Err(format!(
            "\"{shown}\" is no step's number, nor title or start"
        ));
    }
    match number.parse() {
        Ok(step) if step < steps => Ok(step),
        _ => Err(format!("the schedule has no step {shown}")),
    }
}
