//! The lines of a worker's log.

use std::{fmt, str::FromStr};

#[derive(Clone, Copy, Debug, PartialEq, Eq)]
pub enum Line {
    /// The add of a job of the plan ended.
    Added { job: usize },
    /// A job was found in a place of the queue, in which none had been found before.
    Queued { name: u32, place: usize },
    /// A job was handed out, told to be spoiled or not, with so many taken from the queue and put in it before.
    HandedOut { name: u32, spoiled: bool, taken: usize, put: usize },
    /// The work of a job starts.
    Start { name: u32, ticket: u32 },
    /// Its work is over, and its finish is about to be posted.
    End { name: u32, ticket: u32 },
    /// Its finish as good was turned away, since it is spoiled.
    TurnedAway { name: u32 },
    /// Its finish ended.
    Finished { name: u32 },
    /// Minutes were loaded, or refused since a job had entered.
    Load { taken: bool },
}

impl fmt::Display for Line {
    fn fmt(&self, f: &mut fmt::Formatter<'_>) -> fmt::Result {
        match self {
            Line::Added { job } => write!(f, "added {job}"),
            Line::Queued { name, place } => write!(f, "queued {name} {place}"),
            Line::HandedOut { name, spoiled, taken, put } => {
                write!(f, "handed-out {name} {} {taken} {put}", if *spoiled { "spoiled" } else { "sound" })
            }
            Line::Start { name, ticket } => write!(f, "start {name} {ticket}"),
            Line::End { name, ticket } => write!(f, "end {name} {ticket}"),
            Line::TurnedAway { name } => write!(f, "turned-away {name}"),
            Line::Finished { name } => write!(f, "finished {name}"),
            Line::Load { taken } => f.write_str(if *taken { "loaded" } else { "not-loaded" }),
        }
    }
}

impl FromStr for Line {
    type Err = String;

    fn from_str(text: &str) -> Result<Line, String> {
        let words: Vec<&str> = text.split(' ').collect();
        let number = |word: &str| word.parse::<u32>().map_err(|_| format!("not a line of a log: {text}"));
        match words[..] {
            ["added", job] => Ok(Line::Added { job: number(job)? as usize }),
            ["queued", name, place] => Ok(Line::Queued { name: number(name)?, place: number(place)? as usize }),
            ["handed-out", name, told @ ("spoiled" | "sound"), taken, put] => {
                let (taken, put) = (number(taken)? as usize, number(put)? as usize);
                Ok(Line::HandedOut { name: number(name)?, spoiled: told == "spoiled", taken, put })
            }
            ["start", name, ticket] => Ok(Line::Start { name: number(name)?, ticket: number(ticket)? }),
            ["end", name, ticket] => Ok(Line::End { name: number(name)?, ticket: number(ticket)? }),
            ["turned-away", name] => Ok(Line::TurnedAway { name: number(name)? }),
            ["finished", name] => Ok(Line::Finished { name: number(name)? }),
            ["loaded"] => Ok(Line::Load { taken: true }),
            ["not-loaded"] => Ok(Line::Load { taken: false }),
            _ => Err(format!("not a line of a log: {text}")),
        }
    }
}
