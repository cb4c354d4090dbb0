//! A history as a case: the library must do as the second implementation does, event by event.

use compare_sheets::case::Case;

use crate::{event::History, world::World};

pub struct RandomHistory(pub History);

/// The number of the first event that differs, from 1, and how; 0 is the first laying out.
pub fn first_difference(history: &History) -> Option<(usize, String)> {
    let mut world = match World::new(&history.setup) {
        Ok(world) => world,
        Err(difference) => return Some((0, difference)),
    };
    let mut events = history.events.iter().enumerate();
    events.find_map(|(number, event)| world.apply(event).err().map(|difference| (number + 1, difference)))
}

impl Case for RandomHistory {
    fn difference(&self) -> Option<String> {
        first_difference(&self.0).map(|(number, difference)| format!("event {number}: {difference}"))
    }

    fn smaller(&self) -> Box<dyn Iterator<Item = Self> + '_> {
        Box::new(self.0.smaller().map(RandomHistory))
    }

    fn show(&self) -> String {
        format!("(to be read back by `cargo run --release -p compare_graph --bin replay`)\n{}", self.0)
    }
}
