//! Cases of the day list.

use compare_sheets::{
    case::{differ, Case},
    guarded::Output,
    shrink,
};
use second_implementation::{day_list::day_list, refusal};
use taskgraph::raw::{self, Day};

/// A sheet, a number of workers and an output of `out_len` bytes.
pub struct DayList {
    pub sheet: Vec<u8>,
    pub workers: u32,
    pub out_len: usize,
}

/// More than the greatest output has.
pub const ROOM: usize = 100_000;

impl DayList {
    fn expected(&self, out: &mut [u8]) -> Day {
        match day_list(&self.sheet, self.workers) {
            Err(refused) => Day { number: refused.number, bytes: 0 },
            Ok(text) => match out.get_mut(..text.len()) {
                None => Day { number: refusal::NO_ROOM, bytes: 0 },
                Some(out) => {
                    out.copy_from_slice(text.as_bytes());
                    Day { number: 0, bytes: text.len() }
                }
            },
        }
    }
}

impl Case for DayList {
    fn difference(&self) -> Option<String> {
        let mut by_library = Output::<u8>::new(self.out_len);
        let mut by_second = by_library.clone();
        let day = raw::day_list(&self.sheet, self.workers, by_library.lent());
        let expected = self.expected(by_second.lent());
        differ("tg_day_list", day, expected).or_else(|| {
            let text = |out: &mut Output<u8>| String::from_utf8_lossy(&out.lent()[..expected.bytes]).into_owned();
            let lines = differ("what is printed", text(&mut by_library), text(&mut by_second));
            lines.or_else(|| Output::difference("tg_day_list", &by_library, &by_second))
        })
    }

    fn smaller(&self) -> Box<dyn Iterator<Item = Self> + '_> {
        let with_sheet = |sheet| DayList { sheet, ..*self };
        let sheets = shrink::shorter(&self.sheet, 1).chain(shrink::lower_bytes(&self.sheet)).map(with_sheet);
        let workers = shrink::lower(u64::from(self.workers)).map(|workers| DayList {
            sheet: self.sheet.clone(),
            workers: workers as u32,
            ..*self
        });
        let lens =
            shrink::lower_size(self.out_len).map(|out_len| DayList { sheet: self.sheet.clone(), out_len, ..*self });
        Box::new(sheets.chain(workers).chain(lens))
    }

    fn show(&self) -> String {
        let DayList { sheet, workers, out_len } = self;
        format!(
            "{workers} workers, {out_len} bytes of output, a sheet of {} bytes: {}",
            sheet.len(),
            shrink::hex(sheet)
        )
    }
}
