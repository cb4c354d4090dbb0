//! Histories as lines of text, so that a printed one can be read back:
//!
//!     tables 4 2 2 2 slack 0 0 0 0 0 fill 0 guard 8
//!     add 0 name 5 class 0 grower 0 count 2 names 1 2
//!     finish 0 5 1
//!     step 0 sizes 4 2 2 3
//!     get 1 short queue 5
//!     whole-add 0 name 6 class 0 grower 0 count 1 names 5
//!     whole-finish 0 6 0
//!     load 1 2 3 5 8 10 15 20 30 45 60 90 120 180 240 1440
//!     sheet 0 entry name 7 class 0 grower 0 count 0 names entry name 8 class 0 grower 0 count 1 names 7 stray 3
//!     lay-out 4 2 2 2
//!     set jobs 6 3
//!
//! The first line has the sizes first laid out (jobs, arcs, bits, workers), the words that each table has
//! more, the seed of the words before (0: zeros), and the guard words around each table. A finish has its name and the
//! number of its outcome, 0 for good and any other for failed. An item may end in
//! `sizes`, those that it brings, and in `short`, a table and the words of it that are lent. A sheet has its entries
//! and, after `stray`, how many words follow them that make no whole row. `set` alters a word. An empty line and one
//! that starts with # say nothing.

use std::{fmt, str::FromStr};

use second_implementation::{
    graph::Sizes,
    history::Item,
    sheet::{Entry, Names, MAX_NAMES},
};

use crate::{
    event::{Call, Event, History},
    tables::{Setup, NAMES},
};

struct Numbers<'a, T>(&'a [T]);

impl<T: fmt::Display> fmt::Display for Numbers<'_, T> {
    fn fmt(&self, f: &mut fmt::Formatter<'_>) -> fmt::Result {
        self.0.iter().try_for_each(|number| write!(f, " {number}"))
    }
}

fn sizes_text(sizes: &Sizes) -> String {
    format!("{} {} {} {}", sizes.jobs, sizes.arcs, sizes.bits, sizes.workers)
}

impl fmt::Display for History {
    fn fmt(&self, f: &mut fmt::Formatter<'_>) -> fmt::Result {
        let Setup { sizes, slack, fill, guard } = &self.setup;
        writeln!(f, "tables {} slack{} fill {fill} guard {guard}", sizes_text(sizes), Numbers(slack))?;
        self.events.iter().try_for_each(|event| writeln!(f, "{event}"))
    }
}

impl fmt::Display for Event {
    fn fmt(&self, f: &mut fmt::Formatter<'_>) -> fmt::Result {
        match self {
            Event::LayOut(sizes) => write!(f, "lay-out {}", sizes_text(sizes)),
            Event::Set { table, place, value } => write!(f, "set {} {place} {value}", NAMES[*table]),
            Event::Call(call) => {
                write_item(&call.item, f)?;
                if let Some(sizes) = &call.sizes {
                    write!(f, " sizes {}", sizes_text(sizes))?;
                }
                if let Some((table, len)) = call.short {
                    write!(f, " short {} {len}", NAMES[table])?;
                }
                Ok(())
            }
        }
    }
}

fn write_item(item: &Item, f: &mut fmt::Formatter<'_>) -> fmt::Result {
    match item {
        Item::PostAdd { worker, entry } => write!(f, "add {worker} {}", entry_text(entry)),
        Item::PostFinish { worker, name, outcome } => write!(f, "finish {worker} {name} {outcome}"),
        Item::Step { worker } => write!(f, "step {worker}"),
        Item::Get { worker } => write!(f, "get {worker}"),
        Item::Add { worker, entry } => write!(f, "whole-add {worker} {}", entry_text(entry)),
        Item::Finish { worker, name, outcome } => write!(f, "whole-finish {worker} {name} {outcome}"),
        Item::Load { minutes } => write!(f, "load{}", Numbers(minutes)),
        Item::AddSheet { worker, entries, stray } => {
            write!(f, "sheet {worker}")?;
            entries.iter().try_for_each(|entry| write!(f, " entry {}", entry_text(entry)))?;
            if *stray > 0 {
                write!(f, " stray {stray}")?;
            }
            Ok(())
        }
    }
}

fn entry_text(entry: &Entry) -> String {
    let Entry { name, prerequisites: Names { count, names }, class, grower } = entry;
    let used = MAX_NAMES - names.iter().rev().take_while(|name| **name == 0).count();
    let names = Numbers(&names[..used.max(*count.min(&MAX_NAMES))]);
    format!("name {name} class {class} grower {grower} count {count} names{names}")
}

/// The words of a line that are still to be read.
struct Line<'a> {
    words: std::iter::Peekable<std::str::SplitWhitespace<'a>>,
}

impl<'a> Line<'a> {
    fn new(line: &'a str) -> Line<'a> {
        Line { words: line.split_whitespace().peekable() }
    }

    fn word(&mut self) -> Result<&'a str, String> {
        self.words.next().ok_or_else(|| "the line ends too early".into())
    }

    fn number<T: FromStr>(&mut self) -> Result<T, String> {
        let word = self.word()?;
        word.parse().map_err(|_| format!("not a number: {word}"))
    }

    /// The word that must come next.
    fn expect(&mut self, wanted: &str) -> Result<(), String> {
        match self.word()? {
            word if word == wanted => Ok(()),
            word => Err(format!("{word} stands where {wanted} should")),
        }
    }

    fn field<T: FromStr>(&mut self, name: &str) -> Result<T, String> {
        self.expect(name)?;
        self.number()
    }

    fn sizes(&mut self) -> Result<Sizes, String> {
        Ok(Sizes { jobs: self.number()?, arcs: self.number()?, bits: self.number()?, workers: self.number()? })
    }

    fn table(&mut self) -> Result<usize, String> {
        let name = self.word()?;
        NAMES.iter().position(|table| *table == name).ok_or_else(|| format!("no table is called {name}"))
    }

    /// The rest of the line, where `name` comes next.
    fn optional<T>(
        &mut self,
        name: &str,
        read: impl FnOnce(&mut Self) -> Result<T, String>,
    ) -> Result<Option<T>, String> {
        if self.words.next_if_eq(&name).is_none() {
            return Ok(None);
        }
        read(self).map(Some)
    }

    fn setup(&mut self) -> Result<Setup, String> {
        self.expect("tables")?;
        let sizes = self.sizes()?;
        if !sizes.within_limits() {
            return Err("the sizes first laid out are off their limits".into());
        }
        self.expect("slack")?;
        let mut slack = [0; 5];
        slack.iter_mut().try_for_each(|words| self.number().map(|number| *words = number))?;
        Ok(Setup { sizes, slack, fill: self.field("fill")?, guard: self.field("guard")? })
    }

    fn event(&mut self) -> Result<Event, String> {
        let item = match self.word()? {
            "lay-out" => return Ok(Event::LayOut(self.sizes()?)),
            "set" => return Ok(Event::Set { table: self.table()?, place: self.number()?, value: self.number()? }),
            "add" => Item::PostAdd { worker: self.number()?, entry: self.entry()? },
            "finish" => Item::PostFinish { worker: self.number()?, name: self.number()?, outcome: self.number()? },
            "step" => Item::Step { worker: self.number()? },
            "get" => Item::Get { worker: self.number()? },
            "whole-add" => Item::Add { worker: self.number()?, entry: self.entry()? },
            "whole-finish" => Item::Finish { worker: self.number()?, name: self.number()?, outcome: self.number()? },
            "sheet" => self.sheet()?,
            "load" => Item::Load { minutes: self.numbers(usize::MAX)? },
            word => return Err(format!("no item is called {word}")),
        };
        let sizes = self.optional("sizes", |line| line.sizes())?;
        let short = self.optional("short", |line| Ok((line.table()?, line.number()?)))?;
        Ok(Event::Call(Call { item, sizes, short }))
    }

    fn entry(&mut self) -> Result<Entry, String> {
        let (name, class, grower) = (self.field("name")?, self.field("class")?, self.field("grower")?);
        let mut prerequisites = Names { count: self.field("count")?, names: [0; MAX_NAMES] };
        self.expect("names")?;
        let names = self.numbers(MAX_NAMES)?;
        prerequisites.names[..names.len()].copy_from_slice(&names);
        Ok(Entry { name, prerequisites, class, grower })
    }

    /// As many numbers as come next, but no more than these.
    fn numbers(&mut self, most: usize) -> Result<Vec<u32>, String> {
        let mut numbers = Vec::new();
        let is_number = |word: &&str| word.starts_with(|first: char| first.is_ascii_digit());
        while numbers.len() < most && self.words.peek().map_or(false, is_number) {
            numbers.push(self.number()?);
        }
        Ok(numbers)
    }

    fn sheet(&mut self) -> Result<Item, String> {
        let worker = self.number()?;
        let mut entries = Vec::new();
        while let Some(entry) = self.optional("entry", |line| line.entry())? {
            entries.push(entry);
        }
        let stray = self.optional("stray", |line| line.number())?.unwrap_or(0);
        Ok(Item::AddSheet { worker, entries, stray })
    }

    fn end(&mut self) -> Result<(), String> {
        self.words.next().map_or(Ok(()), |word| Err(format!("{word} stands where the line should end")))
    }
}

fn read_line<T>((number, line): (usize, &str), read: impl FnOnce(&mut Line) -> Result<T, String>) -> Result<T, String> {
    let mut words = Line::new(line);
    let value = read(&mut words).and_then(|value| words.end().map(|()| value));
    value.map_err(|error| format!("line {}: {error}: {line}", number + 1))
}

impl FromStr for History {
    type Err = String;

    fn from_str(text: &str) -> Result<History, String> {
        let said = |line: &&str| !line.trim().is_empty() && !line.trim().starts_with('#');
        let mut lines = text.lines().enumerate().filter(|(_, line)| said(line));
        let setup = read_line(lines.next().ok_or("the text is empty")?, |line| line.setup())?;
        let events = lines.map(|line| read_line(line, |line| line.event())).collect::<Result<_, _>>()?;
        Ok(History { setup, events })
    }
}

#[cfg(test)]
mod tests {
    use super::*;
    use crate::{damaged, generate};
    use compare_sheets::random::Random;

    #[test]
    fn printed_histories_are_read_back() {
        for number in 0..300 {
            let mut random = Random::new(number, "text");
            let history = generate::history(&mut random);
            assert_eq!(history.to_string().parse(), Ok(history.clone()));
            let damaged = damaged::history(&mut random);
            assert_eq!(damaged.to_string().parse(), Ok(damaged));
        }
    }

    #[test]
    fn faults_are_named() {
        let first = "tables 4 2 2 2 slack 0 0 0 0 0 fill 0 guard 8\n";
        let fault = |line: &str| format!("{first}\n# a comment\n{line}").parse::<History>().unwrap_err();
        assert_eq!(fault("step"), "line 4: the line ends too early: step");
        assert_eq!(fault("step x"), "line 4: not a number: x: step x");
        assert_eq!(fault("get 0 short words 1"), "line 4: no table is called words: get 0 short words 1");
        assert_eq!(fault("get 0 1"), "line 4: 1 stands where the line should end: get 0 1");
        assert!("".parse::<History>().is_err());
    }
}
