//! Reads a history from standard input, as a failing test prints it, and says what the library does with it:
//! for a history with damage, whether each answer is the right one; else, whether the second implementation
//! agrees.
//!
//! With the arguments `damaged SEED NUMBER` it prints that history of the test of damaged tables.

use std::{
    env,
    io::{self, Read},
    process::ExitCode,
};

use compare_graph::{
    damaged::{self, Met},
    event::{Event, History},
    random_history,
};

fn main() -> ExitCode {
    let arguments: Vec<String> = env::args().skip(1).collect();
    let result = match &arguments[..] {
        [] => replay(),
        [damaged, seed, number] if damaged == "damaged" => print_damaged(seed, number),
        _ => Err("usage: replay < HISTORY, or replay damaged SEED NUMBER".into()),
    };
    match result {
        Ok(()) => ExitCode::SUCCESS,
        Err(error) => {
            println!("{error}");
            ExitCode::FAILURE
        }
    }
}

fn print_damaged(seed: &str, number: &str) -> Result<(), String> {
    let seed = seed.parse().map_err(|_| "the seed is not a number")?;
    let number: u64 = number.parse().map_err(|_| "the history's number is not one")?;
    print!("{}", damaged::numbered(seed, number));
    Ok(())
}

fn replay() -> Result<(), String> {
    let mut text = String::new();
    io::stdin().read_to_string(&mut text).map_err(|error| error.to_string())?;
    let history: History = text.parse()?;
    let fault = if history.is_damaged() {
        damaged::first_fault(&history, &Met::default())
    } else {
        random_history::first_difference(&history)
    };
    match fault {
        None => {
            println!("{} events: the library does as it should", history.events.len());
            Ok(())
        }
        Some((number, fault)) => {
            let event = number.checked_sub(1).and_then(|number| history.events.get(number));
            let event = event.map_or("at the start or the end".into(), Event::to_string);
            Err(format!("event {number}, {event}: {fault}"))
        }
    }
}
