//! The room of a sheet in unproved Rust, by the library's algorithm: one entry after another is read, its list is
//! searched for its own name and for names that stand twice, and the names that have entered are kept in 4,096 chains.

use second_implementation::{
    bucket::bucket,
    refusal,
    sheet::{self, Entry, ReadError},
};
use taskgraph::raw::{Room, MAX_ARCS, MAX_JOBS};

const BITS: u32 = 12;
const PLACES: usize = MAX_JOBS as usize;

/// The names that have entered, and for each 1 more than the place of the one before it in its chain, or 0.
struct Names {
    heads: [u16; 1 << BITS],
    names: [u32; PLACES],
    links: [u16; PLACES],
    count: usize,
}

impl Names {
    fn new() -> Names {
        Names { heads: [0; 1 << BITS], names: [0; PLACES], links: [0; PLACES], count: 0 }
    }

    fn has(&self, name: u32) -> bool {
        let mut next = self.heads[bucket(name, BITS) as usize];
        while next != 0 {
            let place = usize::from(next) - 1;
            if self.names[place] == name {
                return true;
            }
            next = self.links[place];
        }
        false
    }

    /// Takes a name for which there is room.
    fn enter(&mut self, name: u32) {
        let head = &mut self.heads[bucket(name, BITS) as usize];
        self.names[self.count] = name;
        self.links[self.count] = *head;
        self.count += 1;
        *head = self.count as u16;
    }
}

/// What the library answers.
pub fn room_of_sheet(sheet: &[u8]) -> Room {
    let mut names = Names::new();
    let (mut at, mut entries, mut arcs) = (0, 0, 0);
    loop {
        match sheet::read_entry(sheet, at) {
            Err(error) => return unreadable(error),
            Ok(None) => {
                let jobs = entries;
                return Room { jobs, arcs, steps: 4 * jobs + 3 * arcs, ..Room::default() };
            }
            Ok(Some((entry, end))) => {
                let (number, place) = turned_away(&entry, &names, arcs);
                if number != 0 {
                    return behind(sheet, end, Room { number, entry: entries, place, ..Room::default() });
                }
                names.enter(entry.name);
                arcs += entry.prerequisites.count as u32;
                entries += 1;
                at = end;
            }
        }
    }
}

/// The number by which an entry is turned away, or 0, and for 6 the place.
fn turned_away(entry: &Entry, names: &Names, arcs: u32) -> (u32, u32) {
    let list = &entry.prerequisites.names[..entry.prerequisites.count];
    let twice = (1..list.len()).any(|place| list[..place].contains(&list[place]));
    if twice || list.contains(&entry.name) {
        return (refusal::ARGUMENTS, 0);
    }
    if let Some(place) = list.iter().position(|name| !names.has(*name)) {
        return (refusal::UNKNOWN_NAME, place as u32);
    }
    if names.has(entry.name) {
        return (refusal::NAME_PRESENT, 0);
    }
    if names.count == PLACES || MAX_ARCS - arcs < list.len() as u32 {
        return (refusal::FULL, 0);
    }
    (0, 0)
}

/// The room of an entry that is turned away, unless something behind it cannot be read.
fn behind(sheet: &[u8], mut at: usize, room: Room) -> Room {
    loop {
        match sheet::read_entry(sheet, at) {
            Err(error) => return unreadable(error),
            Ok(None) => return room,
            Ok(Some((_, end))) => at = end,
        }
    }
}

fn unreadable(error: ReadError) -> Room {
    Room { number: error.number(), at: error.offset(), ..Room::default() }
}
