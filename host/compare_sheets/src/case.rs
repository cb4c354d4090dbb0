//! An input on which the library must answer as expected, and the comparison of a whole test.

use std::{
    fmt::Debug,
    time::{Duration, Instant},
};

use crate::random::{seed, Random};

pub trait Case: Sized {
    /// What the library answers and what is expected where they differ, or `None` where they agree.
    fn difference(&self) -> Option<String>;

    /// Smaller cases, to look for a shorter difference among, the boldest cuts first.
    fn smaller(&self) -> Box<dyn Iterator<Item = Self> + '_>;

    /// The input, for a reader.
    fn show(&self) -> String;
}

/// The difference of one answer, if there is one.
pub fn differ<T: PartialEq + Debug>(what: &str, library: T, expected: T) -> Option<String> {
    (library != expected).then(|| format!("{what}\n  library  {library:?}\n  expected {expected:?}"))
}

/// The comparisons of one test.
pub struct Comparison {
    test: &'static str,
    seed: u64,
    compared: u64,
}

impl Comparison {
    pub fn new(test: &'static str) -> (Comparison, Random) {
        let seed = seed();
        (Comparison { test, seed, compared: 0 }, Random::new(seed, test))
    }

    /// Panics with the shortest differing input that can be found, if the library differs.
    pub fn check<C: Case>(&mut self, case: C) {
        self.compared += 1;
        if case.difference().is_some() {
            let case = shortest_failing(case);
            panic!(
                "{}, seed {}, input {}: the library differs\n{}\nin {}",
                self.test,
                self.seed,
                self.compared,
                case.show(),
                case.difference().expect("the case differs"),
            );
        }
    }

    /// Says how many inputs were compared. The line stands alone also where the test's own is open.
    pub fn finish(self) {
        println!("\ncompared {} inputs: {} (seed {})", self.compared, self.test, self.seed);
    }
}

/// How long smaller cases are tried for a failing one.
const SEARCH_TIME: Duration = Duration::from_secs(20);

/// Follows smaller cases that still differ, as far as there are any and the time allows.
pub fn shortest_failing<C: Case>(mut case: C) -> C {
    let end = Instant::now() + SEARCH_TIME;
    loop {
        let mut in_time = case.smaller().take_while(|_| Instant::now() < end);
        let found = in_time.find(|smaller| smaller.difference().is_some());
        drop(in_time);
        match found {
            Some(smaller) => case = smaller,
            None => return case,
        }
    }
}

#[cfg(test)]
mod tests {
    use super::*;
    use crate::shrink;

    /// Differs where a 7 stands before a 9.
    struct Sevens(Vec<u8>);

    impl Case for Sevens {
        fn difference(&self) -> Option<String> {
            let seven = self.0.iter().position(|byte| *byte == 7)?;
            self.0[seven..].contains(&9).then(|| String::from("seven before nine"))
        }

        fn smaller(&self) -> Box<dyn Iterator<Item = Self> + '_> {
            Box::new(shrink::shorter(&self.0, 1).chain(shrink::lower_bytes(&self.0)).map(Sevens))
        }

        fn show(&self) -> String {
            shrink::hex(&self.0)
        }
    }

    #[test]
    fn the_shortest_failing_input_is_found() {
        let mut random = Random::new(1, "shrink");
        let mut bytes: Vec<u8> = (0..5_000).map(|_| random.byte() & 15).collect();
        bytes.extend([7, 9]);
        assert_eq!(shortest_failing(Sevens(bytes)).0, [7, 9]);
    }
}
