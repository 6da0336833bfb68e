//! Runs a part of a node as often as the command line says, so that its instructions can be counted from outside.
//!
//! `timing PART COUNT` runs `readers`, `station`, `book` or `pool`, or `all` of them, and prints what came of it, which is the same at each run. Other words
//! write the usage line, with status 2. `docs/MEASUREMENTS.md` has the commands that count, and the last counts; the ciphers are counted by `.ci/secrets --count`.
mod book;
mod pool;
mod readers;
mod stations;

use rattle_std::process::HostRuntime;
use std::env;
use std::error::Error;
use std::process::ExitCode;

const USAGE: &str = "usage: timing readers COUNT | station COUNT | book COUNT | pool COUNT | all COUNT";

/// What a part answers: an error is a text.
type Done = Result<(), Box<dyn Error>>;
/// A part, by how often it is run.
type Part = fn(&HostRuntime, u32) -> Done;

const PARTS: [(&str, Part); 4] = [("readers", readers::run), ("station", stations::run), ("book", book::run), ("pool", pool::run)];

/// The part and the count that the words after the program's name say.
fn wanted() -> Option<(String, u32)> {
    let mut words = env::args().skip(1);
    match (words.next(), words.next(), words.next()) {
        (Some(part), Some(count), None) => Some((part, count.parse().ok()?)),
        _ => None,
    }
}

fn main() -> Result<ExitCode, Box<dyn Error>> {
    let rt = HostRuntime::of_process();
    let mut is_run = false;
    if let Some((name, count)) = wanted() {
        for (part, run) in PARTS {
            if name == part || name == "all" {
                run(&rt, count)?;
                is_run = true;
            }
        }
    }
    if is_run {
        return Ok(ExitCode::SUCCESS);
    }
    println!("{USAGE}");
    Ok(ExitCode::from(2))
}
