//! What helps an entry that needs a job which is not there.

use std::collections::{HashMap, HashSet, VecDeque};

use crate::Sheet;

/// What is known of the names of a sheet once all its entries were tried.
#[derive(Default)]
pub(crate) struct Remedies {
    named: HashMap<u32, Named>,
    /// The circle of each entry. An entry and a name have the same number exactly if the entry needs the name in vain,
    /// itself or through others, and one that has the name needs the entry so.
    circle: Vec<usize>,
}

/// What is known of a name.
struct Named {
    /// All that have it, rising.
    entries: Vec<usize>,
    /// The one that was accepted, or else the one that some order would bring, which needs no other that has the name.
    best: Option<usize>,
    circle: usize,
    /// One that has the name and is in its circle.
    circled: Option<usize>,
}

/// Another entry that has a name, and what helps.
#[derive(Clone, Copy, Debug, PartialEq, Eq)]
pub(crate) enum Remedy {
    /// No other entry has the name.
    Nowhere,
    /// It comes later, and some order brings it before.
    Later(usize),
    /// It is refused, or cannot be read, whatever the order.
    Refused(usize),
    /// It is in a circle with the entry that needs it.
    Circle(usize),
}

/// What came of an entry.
#[derive(Clone, Copy, Debug, PartialEq, Eq)]
pub(crate) enum Came {
    /// It was accepted.
    Accepted,
    /// It was refused for names or for room, which another order may mend.
    Refused,
    /// It is refused in any order.
    Faulty,
}

impl Remedies {
    /// Of a sheet, the names that are there before it, and what came of its entries.
    pub fn new(sheet: &Sheet, before: HashSet<u32>, came: &[Came]) -> Remedies {
        let mut entries: HashMap<u32, Vec<usize>> = HashMap::new();
        for (number, entry) in sheet.entries.iter().enumerate() {
            if let Some(name) = entry.name {
                entries.entry(name).or_default().push(number);
            }
        }
        let hoped = brought(sheet, &before, |_| true);
        let mut best = brought(sheet, &before, |number| came[number] != Came::Faulty);
        let accepted = came.iter().enumerate().filter(|(_, came)| **came == Came::Accepted);
        best.extend(accepted.filter_map(|(number, _)| Some((sheet.entries[number].name?, number))));
        // A place for each entry, and after them one for each name.
        let names: HashMap<u32, usize> = entries.keys().copied().zip(came.len()..).collect();
        let circle = circles(&arrows(sheet, &names, &hoped));
        let named = entries.into_iter().map(|(name, entries)| {
            let circle_of_name = circle[names[&name]];
            let circled = entries.iter().copied().find(|entry| circle[*entry] == circle_of_name);
            (name, Named { best: best.get(&name).copied(), circle: circle_of_name, circled, entries })
        });
        Remedies { named: named.collect(), circle }
    }

    /// What helps an entry that needs a name.
    pub fn of(&self, number: usize, name: u32) -> Remedy {
        let named = match self.named.get(&name) {
            Some(named) => named,
            None => return Remedy::Nowhere,
        };
        if let Some(best) = named.best {
            return if best > number { Remedy::Later(best) } else { Remedy::Refused(best) };
        }
        match named.circled {
            Some(other) if named.circle == self.circle[number] => Remedy::Circle(other),
            _ => {
                named.entries.iter().find(|other| **other != number).map_or(Remedy::Nowhere, |it| Remedy::Refused(*it))
            }
        }
    }
}

/// For each name the entry that brings it first, where those entries that count are taken as soon as all their names
/// are there.
fn brought(sheet: &Sheet, before: &HashSet<u32>, counts: impl Fn(usize) -> bool) -> HashMap<u32, usize> {
    let mut missing = vec![0; sheet.entries.len()];
    let mut waiting: HashMap<u32, Vec<usize>> = HashMap::new();
    let mut next = VecDeque::new();
    for (number, entry) in sheet.entries.iter().enumerate().filter(|(number, _)| counts(*number)) {
        let needed: HashSet<u32> = entry.needs().iter().copied().filter(|name| !before.contains(name)).collect();
        missing[number] = needed.len();
        if needed.is_empty() {
            next.push_back(number);
        }
        needed.into_iter().for_each(|name| waiting.entry(name).or_default().push(number));
    }
    let mut brought = HashMap::new();
    while let Some(number) = next.pop_front() {
        let name = sheet.entries[number].name.filter(|name| !before.contains(name) && !brought.contains_key(name));
        if let Some(name) = name {
            brought.insert(name, number);
            for freed in waiting.remove(&name).into_iter().flatten() {
                missing[freed] -= 1;
                if missing[freed] == 0 {
                    next.push_back(freed);
                }
            }
        }
    }
    brought
}

/// From each entry to the names that it needs and no order brings, whatever else is mended, and from each name to the
/// entries that have it.
fn arrows(sheet: &Sheet, names: &HashMap<u32, usize>, hoped: &HashMap<u32, usize>) -> Vec<Vec<usize>> {
    let mut arrows = vec![Vec::new(); sheet.entries.len() + names.len()];
    for (number, entry) in sheet.entries.iter().enumerate() {
        let in_vain = entry.needs().iter().filter(|name| !hoped.contains_key(name));
        arrows[number] = in_vain.filter_map(|name| names.get(name).copied()).collect();
        if let Some(place) = entry.name.and_then(|name| names.get(&name)) {
            arrows[*place].push(number);
        }
    }
    arrows
}

/// The circle of each place, by Kosaraju's algorithm: a place is in the circle of the last to be left, on the way along
/// all arrows, that reaches it against them.
fn circles(arrows: &[Vec<usize>]) -> Vec<usize> {
    let mut against = vec![Vec::new(); arrows.len()];
    for (place, leads_to) in arrows.iter().enumerate() {
        leads_to.iter().for_each(|other| against[*other].push(place));
    }
    let mut left = Vec::new();
    let mut met = vec![false; arrows.len()];
    (0..arrows.len()).for_each(|place| walk(place, arrows, &mut met, |past| left.push(past)));
    let mut circle = vec![0; arrows.len()];
    let mut met = vec![false; arrows.len()];
    for place in left.into_iter().rev() {
        walk(place, &against, &mut met, |member| circle[member] = place);
    }
    circle
}

/// Visits what can be reached from there and was not met, each after all that is reached from it. A list in place of
/// calls of itself, as a sheet may be a chain of any length.
fn walk(start: usize, arrows: &[Vec<usize>], met: &mut [bool], mut leave: impl FnMut(usize)) {
    if std::mem::replace(&mut met[start], true) {
        return;
    }
    let mut path = vec![(start, arrows[start].iter())];
    while let Some((place, rest)) = path.last_mut() {
        match rest.next() {
            Some(next) if !std::mem::replace(&mut met[*next], true) => path.push((*next, arrows[*next].iter())),
            Some(_) => {}
            None => {
                leave(*place);
                path.pop();
            }
        }
    }
}

#[cfg(test)]
mod tests {
    use super::{
        Remedy::{Circle, Later, Nowhere, Refused},
        *,
    };
    use crate::text;

    /// The remedy of each name that each entry needs, where none was accepted and these are faulty.
    fn remedies(sheet: &[u8], faulty: &[usize]) -> Vec<Vec<Remedy>> {
        let sheet = text::read(sheet);
        let came = |number| if faulty.contains(&number) { Came::Faulty } else { Came::Refused };
        let came: Vec<Came> = (0..sheet.entries.len()).map(came).collect();
        let remedies = Remedies::new(&sheet, HashSet::new(), &came);
        let of = |(number, names): (usize, &[u32])| names.iter().map(|name| remedies.of(number, *name)).collect();
        sheet.entries.iter().map(|entry| entry.needs()).enumerate().map(of).collect()
    }

    #[test]
    fn circles_are_found_and_no_more() {
        // 1 and 2 need each other; 3 needs them; 4, 5 and 6 are a circle, and need 3 too; 8 is possible.
        let sheet = b"1 needs 2\n2 needs 1\n3 needs 1\n4 needs 5\n5 needs 6 3\n6 needs 4\n7 needs 8\n8\n";
        let circles = [vec![Circle(1)], vec![Circle(0)], vec![Refused(0)], vec![Circle(4)]];
        let others = [vec![Circle(5), Refused(2)], vec![Circle(3)], vec![Later(7)], vec![]];
        assert_eq!(remedies(sheet, &[]), [circles, others].concat());
    }

    #[test]
    fn of_a_name_that_stands_twice_the_entry_that_some_order_brings_is_told() {
        assert_eq!(remedies(b"2 needs 1\n1 needs 2\n1\n", &[]), [vec![Later(2)], vec![Refused(0)], vec![]]);
        assert_eq!(remedies(b"2 needs 1 9\n1\n", &[]), [vec![Later(1), Nowhere], vec![]]);
        let first = [vec![Later(3)], vec![Refused(0)], vec![Refused(1)], vec![]];
        assert_eq!(remedies(b"2 needs 3\n1 needs 2\n2 needs 1\n3\n", &[]), first);
        let second = [vec![Later(2)], vec![Later(3)], vec![Later(3)], vec![]];
        assert_eq!(remedies(b"1 needs 2\n2 needs 3\n2 needs 3\n3\n", &[1]), second);
        assert_eq!(remedies(b"1 needs 2\n2\n", &[1]), [vec![Refused(1)], vec![]]);
        let mended = [vec![Refused(1)], vec![Refused(0)], vec![]];
        assert_eq!(remedies(b"2 needs 3\n3 needs 2\n2\n", &[1, 2]), mended);
    }

    #[test]
    fn many_of_one_name_take_little() {
        let sheet = "1 needs 1\n".repeat(20_000);
        assert_eq!(remedies(sheet.as_bytes(), &[])[7], [Circle(0)]);
    }
}
