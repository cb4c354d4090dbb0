//! The day list (docs/RULES.md, "The board and the day list"): from the bytes of a sheet to the lines
//! that are printed.

use std::fmt::Write;

use crate::{
    graph::{refused, Answer, Graph, Outcome, Refusal, Reply, Sizes, MAX_WORKERS},
    refusal,
    sheet::{read_sheet, Entry},
    totals::Label,
};

/// The longest sheet, in bytes.
pub const MAX_SHEET: usize = 32_768;

const JOBS: u32 = 256;
const ARCS: u32 = 1_024;
const BITS: u32 = 4;

/// What the day list prints of a sheet with so many workers; 1 for a number of workers off its limits.
pub fn day_list(sheet: &[u8], workers: u32) -> Result<String, Refusal> {
    if !(1..=MAX_WORKERS).contains(&workers) {
        return refused(refusal::SIZE);
    }
    if sheet.len() > MAX_SHEET {
        return Ok(format!("broken {MAX_SHEET} {}\n", refusal::CUT));
    }
    let mut entries = Vec::new();
    match read_sheet(sheet, &mut entries) {
        Err(error) => Ok(format!("broken {} {}\n", error.offset(), error.number())),
        Ok(()) => Ok(Day::new(workers).run(&entries)),
    }
}

/// A graph and the lines printed so far.
struct Day {
    graph: Graph,
    text: String,
}

impl Day {
    fn new(workers: u32) -> Day {
        let sizes = Sizes { jobs: JOBS, arcs: ARCS, bits: BITS, workers };
        Day { graph: Graph::lay_out(sizes).expect("the sizes are within their limits"), text: String::new() }
    }

    fn run(mut self, entries: &[Entry]) -> String {
        for (number, entry) in entries.iter().enumerate() {
            if let Err(refusal) = self.add(entry) {
                self.line(format_args!("refused {number} {}", refusal.number));
            }
        }
        let workers = self.graph.sizes().workers;
        self.line(format_args!("jobs {} workers {workers}", self.graph.jobs().len()));
        let mut handed_out = 0;
        loop {
            let before = handed_out;
            self.round(&mut handed_out);
            if handed_out == before {
                break;
            }
        }
        let left = self.graph.jobs().iter().filter(|job| job.label != Label::Finished).count();
        self.line(format_args!("left {left}"));
        self.text
    }

    fn line(&mut self, line: std::fmt::Arguments<'_>) {
        writeln!(self.text, "{line}").expect("a string takes all");
    }

    /// Worker 0 adds an entry, run whole.
    fn add(&mut self, entry: &Entry) -> Answer {
        self.graph.post_add(self.graph.sizes(), 0, entry)?;
        self.steps(0)
    }

    /// Steps of a worker to the end of its call.
    fn steps(&mut self, worker: u32) -> Answer {
        loop {
            let reply = self.graph.step(self.graph.sizes(), worker)?;
            if reply != Reply::GoingOn {
                return Ok(reply);
            }
        }
    }

    /// Each worker gets, then each holder finishes, as good.
    fn round(&mut self, handed_out: &mut usize) {
        let sizes = self.graph.sizes();
        let mut held = Vec::new();
        for worker in 0..sizes.workers {
            if let Ok(Reply::HandedOut { name, .. }) = self.graph.get(sizes, worker) {
                self.line(format_args!("{handed_out} {name} {worker}"));
                *handed_out += 1;
                held.push((worker, name));
            }
        }
        for (worker, name) in held {
            let posted = self.graph.post_finish(sizes, worker, name, Outcome::Good);
            assert_eq!(posted, Ok(Reply::Posted), "a holder finishes what it holds");
            assert_eq!(self.steps(worker), Ok(Reply::Ended), "a finish ends");
        }
    }
}

#[cfg(test)]
mod tests {
    use super::*;

    const FOUR_JOBS: [u8; 29] = [1, 1, 0, 0, 0, 1, 2, 0, 0, 0, 1, 3, 0, 0, 0, 3, 4, 0, 0, 0, 2, 1, 0, 0, 0, 2, 0, 0, 0];

    #[test]
    fn the_four_jobs() {
        let lines = "jobs 4 workers 2\n0 1 0\n1 2 1\n2 3 0\n3 4 1\nleft 0\n";
        assert_eq!(day_list(&FOUR_JOBS, 2).unwrap(), lines);
    }

    #[test]
    fn the_four_jobs_with_other_numbers_of_workers() {
        let alone = "jobs 4 workers 1\n0 1 0\n1 2 0\n2 3 0\n3 4 0\nleft 0\n";
        assert_eq!(day_list(&FOUR_JOBS, 1).unwrap(), alone);
        let many = "jobs 4 workers 16\n0 1 0\n1 2 1\n2 3 2\n3 4 0\nleft 0\n";
        assert_eq!(day_list(&FOUR_JOBS, 16).unwrap(), many);
        assert_eq!(day_list(&FOUR_JOBS, 0), refused(1));
        assert_eq!(day_list(&FOUR_JOBS, 17), refused(1));
    }

    #[test]
    fn heavier_jobs_first() {
        let sheet = [
            &[1, 1, 0, 0, 0][..],
            &[5, 2, 0, 0, 0, 3], // class 3
            &[5, 3, 0, 0, 0, 3],
            &[5, 4, 0, 0, 0, 15],
            &[7, 5, 0, 0, 0, 1, 4, 0, 0, 0, 15], // needs 4, class 15
            &[1, 6, 0, 0, 0],
        ];
        let lines = "jobs 6 workers 2\n0 4 0\n1 2 1\n2 5 0\n3 3 1\n4 1 0\n5 6 1\nleft 0\n";
        assert_eq!(day_list(&sheet.concat(), 2).unwrap(), lines);
    }

    #[test]
    fn case_9_the_empty_sheet() {
        assert_eq!(day_list(&[], 2).unwrap(), "jobs 0 workers 2\nleft 0\n");
    }

    #[test]
    fn refused_entries_come_first() {
        let sheet = [
            &[3, 4, 0, 0, 0, 1, 9, 0, 0, 0][..], // needs 9, which is not there
            &[1, 1, 0, 0, 0],
            &[1, 1, 0, 0, 0],                            // once more
            &[3, 2, 0, 0, 0, 2, 1, 0, 0, 0, 1, 0, 0, 0], // 1 twice in its list
        ];
        let lines = "refused 0 6\nrefused 2 7\nrefused 3 5\njobs 1 workers 2\n0 1 0\nleft 0\n";
        assert_eq!(day_list(&sheet.concat(), 2).unwrap(), lines);
    }

    #[test]
    fn a_257th_job_is_refused() {
        let sheet: Vec<u8> = (0..257_u32).flat_map(|name| [1, name as u8, (name >> 8) as u8, 0, 0]).collect();
        let text = day_list(&sheet, 2).unwrap();
        assert!(text.starts_with("refused 256 8\njobs 256 workers 2\n0 0 0\n1 1 1\n"));
        assert!(text.ends_with("\n255 255 1\nleft 0\n"));
    }

    #[test]
    fn broken_sheets_print_one_line() {
        assert_eq!(day_list(&FOUR_JOBS[..28], 2).unwrap(), "broken 20 12\n");
        assert_eq!(day_list(&[2], 2).unwrap(), "broken 0 13\n");
        assert_eq!(day_list(&[5, 7, 0, 0, 0, 0], 2).unwrap(), "broken 5 14\n");
        assert_eq!(day_list(&[0; 32_769], 2).unwrap(), "broken 32768 12\n");
        assert_eq!(day_list(&[0; 32_768], 2).unwrap(), "broken 0 13\n");
    }

    #[test]
    fn the_greatest_output() {
        // 256 jobs with names of ten digits, then as many refused entries as the sheet takes.
        let mut sheet = Vec::new();
        for name in (1..=256_u32).map(|low| u32::MAX - low) {
            sheet.push(1);
            sheet.extend(name.to_le_bytes());
        }
        let entry = sheet[..5].to_vec();
        while sheet.len() + 5 <= MAX_SHEET {
            sheet.extend(&entry);
        }
        assert_eq!(day_list(&sheet, 2).unwrap().len(), 97_979);
    }
}
