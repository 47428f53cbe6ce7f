//! `player SCHEDULE [CAPTIONS] > story.html`: runs a schedule on the proved library and writes it as one page.
//!
//! SCHEDULE is what `stepshow` reads. CAPTIONS is its side file; SCHEDULE.captions is taken where it is there and no other is named.
//! On bad input nothing is written: standard error names the line, and the status is 1.

use player::{page, story, BadLine, Captions, Schedule};
use std::fs;
use std::io::{self, Write};
use std::path::{Path, PathBuf};
use std::process::ExitCode;

fn main() -> ExitCode {
    let files: Vec<PathBuf> = std::env::args_os().skip(1).map(PathBuf::from).collect();
    let written = match &files[..] {
        [schedule] => told(schedule, beside(schedule).as_deref()),
        [schedule, captions] => told(schedule, Some(captions)),
        _ => Err("usage: player SCHEDULE [CAPTIONS] > story.html".into()),
    }
    .and_then(|page| write(&page));
    match written {
        Ok(()) => ExitCode::SUCCESS,
        Err(why) => {
            eprintln!("{why}");
            ExitCode::FAILURE
        }
    }
}

/// The side file that has the schedule's name.
fn beside(schedule: &Path) -> Option<PathBuf> {
    let mut name = schedule.to_path_buf().into_os_string();
    name.push(".captions");
    let path = PathBuf::from(name);
    path.exists().then_some(path)
}

/// The whole page.
fn told(schedule: &Path, captions: Option<&Path>) -> Result<String, String> {
    let read = Schedule::read(&bytes(schedule)?).map_err(|bad| named(schedule, bad))?;
    let captions = match captions {
        None => Captions::default(),
        Some(path) => {
            Captions::read(&bytes(path)?, read.steps.len()).map_err(|bad| named(path, bad))?
        }
    };
    Ok(page::write(&story::tell(&read), &captions))
}

fn bytes(path: &Path) -> Result<Vec<u8>, String> {
    fs::read(path).map_err(|why| format!("{}: {why}", path.display()))
}

fn named(path: &Path, bad: BadLine) -> String {
    format!("{}, {bad}", path.display())
}

fn write(page: &str) -> Result<(), String> {
    let mut out = io::stdout().lock();
    out.write_all(page.as_bytes())
        .and_then(|()| out.flush())
        .map_err(|why| format!("standard output: {why}"))
}
