//! The day of a sheet: what the library's day list says, by rounds.

use taskgraph::day_list;

/// A worker works on a job.
#[derive(Clone, Copy, Debug, PartialEq, Eq)]
pub struct Worked {
    /// The worker's number.
    pub worker: u32,
    /// The job's name.
    pub name: u32,
}

/// A day.
#[derive(Clone, Debug, Default, PartialEq, Eq)]
pub struct Day {
    /// The entries that are refused, and by which numbers; those of jobs that are there before are not told.
    pub refused: Vec<(usize, u32)>,
    /// The jobs that entered.
    pub jobs: usize,
    /// The workers.
    pub workers: u32,
    /// Who works on what in each round.
    pub rounds: Vec<Vec<Worked>>,
    /// The jobs that are not finished.
    pub left: usize,
}

impl Day {
    /// The day of a packed sheet that can be read, with 1 to 16 workers. Its first entries, so many, are of jobs that
    /// are there before, and are not counted among its own.
    ///
    /// # Panics
    /// Where there are more or fewer; and where the day list is not as `docs/RULES.md` has it ("The board and the day
    /// list"), which is proved.
    pub fn of(sheet: &[u8], before: usize, workers: u32) -> Day {
        let list = day_list(sheet, workers).expect("there are 1 to 16 workers");
        let mut day = Day::default();
        for line in list.lines() {
            day.take(line).expect("a line of the day list");
        }
        day.refused.retain(|(entry, _)| *entry >= before);
        day.refused.iter_mut().for_each(|(entry, _)| *entry -= before);
        day
    }

    fn take(&mut self, line: &str) -> Option<()> {
        let words: Vec<&str> = line.split(' ').collect();
        let number = |place: usize| words.get(place)?.parse::<u32>().ok();
        match words[0] {
            "refused" => self.refused.push((number(1)? as usize, number(2)?)),
            "jobs" => (self.jobs, self.workers) = (number(1)? as usize, number(3)?),
            "left" => self.left = number(1)? as usize,
            _ => self.hand_out(Worked { name: number(1)?, worker: number(2)? }),
        }
        Some(())
    }

    /// In a round the workers get in turn, so a worker that is not past the last begins a round.
    fn hand_out(&mut self, worked: Worked) {
        let same = self.rounds.last().and_then(|round| round.last()).filter(|last| last.worker < worked.worker);
        if same.is_none() {
            self.rounds.push(Vec::new());
        }
        self.rounds.last_mut().expect("a round was begun").push(worked);
    }
}
