//! A second implementation of the opening of an options series, written from the rules
//! alone and for the eye: it tries every price and every row, and checks itself after
//! every call. See docs/REFERENCE.md.

mod arrange;
mod audit;
mod book;
mod census;
mod desk;
mod engine;
mod generate;
mod inspect;
mod market;
mod nuisance;
mod opening;
mod orders;
mod play;
mod price;
mod random;
mod ranges;
mod rules;
mod script;
mod sharing;
mod show;

use std::io::{self, Read, Write};
use std::process::ExitCode;

use audit::Violation;
use play::Player;

const USAGE: &str = "usage: reference                       plays the script on standard input
       reference generate SEED COUNT    prints a script of COUNT mornings
       reference inspect SEED COUNT [share|market|price|ranges ...]
                                        prints a script of COUNT blocks of inspection calls
       reference places                 for each line printed, the number of the line it answers
       reference census                 counts what happens in the script on standard input";

fn main() -> ExitCode {
    let arguments: Vec<String> = std::env::args().skip(1).collect();
    let words: Vec<&str> = arguments.iter().map(String::as_str).collect();
    match run(&words) {
        Ok(()) => ExitCode::SUCCESS,
        Err(message) => {
            eprintln!("{message}");
            ExitCode::FAILURE
        }
    }
}

fn run(words: &[&str]) -> Result<(), String> {
    match *words {
        [] => play_all(&standard_input()?),
        ["generate", seed, count] => print(&generate::mornings(number(seed)?, number(count)?).map_err(told)?),
        ["inspect", seed, count, ref families @ ..] => {
            print(&inspect::blocks(number(seed)?, number(count)?, families).ok_or(USAGE)?.map_err(told)?)
        }
        ["places"] => print_places(&standard_input()?),
        ["census"] => print(&census::take(&standard_input()?).map_err(told)?),
        _ => Err(USAGE.to_string()),
    }
}

fn number(word: &str) -> Result<u64, String> {
    word.parse().map_err(|_| USAGE.to_string())
}

fn told(violation: Violation) -> String {
    format!("the reference contradicts itself: {}", violation.0)
}

fn standard_input() -> Result<String, String> {
    let mut bytes = Vec::new();
    io::stdin().lock().read_to_end(&mut bytes).map_err(|error| error.to_string())?;
    Ok(String::from_utf8_lossy(&bytes).into_owned())
}

fn print(text: &str) -> Result<(), String> {
    io::stdout().lock().write_all(text.as_bytes()).map_err(|error| error.to_string())
}

/// Plays a script; what was answered before a violation is still printed.
fn play_all(script: &str) -> Result<(), String> {
    let mut player = Player::new();
    let mut answers = String::new();
    for (place, line) in script.split('\n').enumerate() {
        match player.play_line(line) {
            Ok(None) => {}
            Ok(Some(answer)) => {
                answers.push_str(&answer.text(place + 1));
                answers.push('\n');
            }
            Err(violation) => {
                print(&answers)?;
                return Err(format!("line {}: {}", place + 1, told(violation)));
            }
        }
    }
    print(&answers)
}

/// For each line that a script prints, the number of the line that it answers.
fn print_places(script: &str) -> Result<(), String> {
    let mut player = Player::new();
    let mut places = String::new();
    for (place, line) in script.split('\n').enumerate() {
        if let Some(answer) = player.play_line(line).map_err(told)? {
            for _ in answer.text(place + 1).lines() {
                places.push_str(&format!("{}\n", place + 1));
            }
        }
    }
    print(&places)
}
