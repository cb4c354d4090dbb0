//! Counts instructions with valgrind's callgrind: the same program takes as many on the same input each time,
//! whatever else the machine does, which cannot be said of its time.

use std::{
    env,
    process::{Command, ExitCode},
};

/// What is counted: `call`, and nothing of what comes before and after. Callgrind finds it by its name.
#[inline(never)]
#[no_mangle]
pub fn counted(call: &mut dyn FnMut()) {
    call();
}

/// What the library and another take for the same.
pub struct Row {
    pub name: String,
    pub library: u64,
    pub other: u64,
    /// How many times the other's the library may take; `None` where that is only shown.
    pub most: Option<f64>,
    /// The library's time as a multiple of the other's, which is shown and not judged.
    pub time: f64,
}

impl Row {
    fn ratio(&self) -> f64 {
        self.library as f64 / self.other as f64
    }

    fn is_over(&self) -> bool {
        self.most.map_or(false, |most| self.ratio() > most)
    }
}

/// Instructions within `counted` where this program runs with other arguments.
///
/// The environment is left out: it moves the stack, and may hold options of valgrind.
pub fn instructions(arguments: &[&str]) -> u64 {
    let program = env::current_exe().expect("this program has a path");
    let path = env::var_os("PATH").unwrap_or_default();
    let mut valgrind = Command::new("valgrind");
    valgrind.args(["--tool=callgrind", "--toggle-collect=counted", "--callgrind-out-file=/dev/stdout"]);
    valgrind.arg(program).args(arguments).env_clear().env("PATH", path);
    let output = valgrind.output().expect("valgrind is there: Debian has it in valgrind");
    let errors = String::from_utf8_lossy(&output.stderr);
    assert!(output.status.success(), "{arguments:?} under callgrind: {}\n{errors}", output.status);
    let profile = String::from_utf8_lossy(&output.stdout);
    let total = profile.lines().find_map(|line| line.strip_prefix("totals: "));
    let total = total.and_then(|total| total.trim().parse().ok()).unwrap_or(0);
    assert!(total > 0, "callgrind counted nothing for {arguments:?}\n{errors}");
    total
}

/// Rows of one kind: what they are, and what the two columns of counts are.
pub struct Table {
    pub title: &'static str,
    pub library: &'static str,
    pub other: &'static str,
    pub rows: Vec<Row>,
}

/// Prints the counts, and fails where the library takes more than it may.
pub fn judge(tables: &[Table]) -> ExitCode {
    println!("Instructions, counted by callgrind; their ratio is judged, that of the times is not.");
    tables.iter().for_each(print);
    let mut status = ExitCode::SUCCESS;
    for table in tables {
        for row in table.rows.iter().filter(|row| row.is_over()) {
            println!("too many instructions: {}, {}", table.title, row.name);
            status = ExitCode::FAILURE;
        }
    }
    status
}

fn print(table: &Table) {
    let line = |cells: [&str; 6]| {
        let [name, library, other, ratio, most, time] = cells;
        println!("{name:<32} {library:>12} {other:>14} {ratio:>6} {most:>8} {time:>6}");
    };
    line([table.title, table.library, table.other, "ratio", "at most", "times"]);
    for row in &table.rows {
        let [library, other] = [row.library, row.other].map(|count| count.to_string());
        let shown = |ratio: f64| format!("{ratio:.2}");
        let [ratio, time] = [row.ratio(), row.time].map(shown);
        let most = row.most.map_or("-".into(), shown);
        line([&row.name, &library, &other, &ratio, &most, &time]);
    }
}
