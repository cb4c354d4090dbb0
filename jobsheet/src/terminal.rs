//! What differs at a terminal: colours, and a line of progress where more than a second passes.

use std::{
    env,
    io::Write,
    os::raw::c_int,
    sync::{
        atomic::{AtomicBool, AtomicUsize, Ordering::Relaxed},
        Arc,
    },
    thread::{self, JoinHandle},
    time::Duration,
};

use crate::number::grouped;

extern "C" {
    fn isatty(descriptor: c_int) -> c_int;
}

/// One of the three streams that a program is given.
#[derive(Clone, Copy, Debug, PartialEq, Eq)]
pub enum Stream {
    /// Standard input.
    Input = 0,
    /// Standard output.
    Output = 1,
    /// Standard error.
    Error = 2,
}

impl Stream {
    /// Whether a person sits there.
    pub fn is_terminal(self) -> bool {
        // SAFETY: any descriptor may be asked for; one that is closed is no terminal.
        unsafe { isatty(self as c_int) == 1 }
    }

    /// Whether it is a terminal that knows more than lines.
    fn is_able(self) -> bool {
        self.is_terminal() && env::var_os("TERM").map_or(false, |name| name != "dumb")
    }

    /// Whether colours may be used: at a terminal that is not dumb, unless NO_COLOR is set to anything.
    pub fn has_colours(self) -> bool {
        self.is_able() && env::var_os("NO_COLOR").map_or(true, |value| value.is_empty())
    }
}

/// How text is set off.
#[derive(Clone, Copy, Debug, PartialEq, Eq)]
pub enum Paint {
    /// Something wrong.
    Red,
    /// All is well.
    Green,
    /// A heading.
    Bold,
}

/// The text in a colour, or as it is.
pub fn painted(text: &str, paint: Paint, colours: bool) -> String {
    let code = match paint {
        Paint::Red => 31,
        Paint::Green => 32,
        Paint::Bold => 1,
    };
    if colours {
        format!("\x1b[{code}m{text}\x1b[0m")
    } else {
        text.into()
    }
}

/// How long nothing is said, and how often the line is written anew then.
const SILENCE: Duration = Duration::from_secs(1);
const AGAIN: Duration = Duration::from_millis(200);

/// How far the work has come. A thread of its own shows it, so that a read that waits is seen too.
pub struct Progress {
    state: Arc<State>,
    thread: Option<JoinHandle<()>>,
}

#[derive(Default)]
struct State {
    done: AtomicUsize,
    stage: AtomicUsize,
    ended: AtomicBool,
}

/// A part of the work.
#[derive(Clone, Copy, Debug, PartialEq, Eq)]
pub enum Stage {
    /// A person types a sheet, and is not to be disturbed.
    Typing = 0,
    /// A file is read.
    Reading = 1,
    /// Its entries are added to a graph.
    Judging = 2,
    /// A picture is made.
    Drawing = 3,
    /// The answer is written.
    Writing = 4,
}

/// What is counted in each part of the work.
const COUNTED: [&str; 5] = ["", "bytes read", "entries judged", "jobs drawn", "bytes written"];

impl Progress {
    /// Progress that nobody sees.
    pub fn silent() -> Progress {
        Progress { state: Arc::default(), thread: None }
    }

    /// Progress on standard error, if that is a terminal that is not dumb.
    pub fn shown() -> Progress {
        let mut progress = Progress::silent();
        if Stream::Error.is_able() {
            let state = Arc::clone(&progress.state);
            progress.thread = thread::Builder::new().spawn(move || show(&state)).ok();
        }
        progress
    }

    /// Another part of the work begins.
    pub fn begin(&self, stage: Stage) {
        self.state.done.store(0, Relaxed);
        self.state.stage.store(stage as usize, Relaxed);
    }

    /// So much of it is done.
    pub fn at(&self, done: usize) {
        self.state.done.store(done, Relaxed);
    }
}

impl Drop for Progress {
    /// Takes the line away.
    fn drop(&mut self) {
        self.state.ended.store(true, Relaxed);
        if let Some(thread) = self.thread.take() {
            thread.thread().unpark();
            // A thread that failed has shown nothing more, and that is all there is to it.
            drop(thread.join());
        }
    }
}

fn show(state: &State) {
    thread::park_timeout(SILENCE);
    let mut written = false;
    while !state.ended.load(Relaxed) {
        let counted = COUNTED[state.stage.load(Relaxed)];
        if !counted.is_empty() {
            say(&format!("\r\x1b[Kjobsheet: {} {counted}", grouped(state.done.load(Relaxed))));
            written = true;
        }
        thread::park_timeout(AGAIN);
    }
    if written {
        say("\r\x1b[K");
    }
}

/// Says a line on standard error. One that cannot be said is no reason to stop.
pub fn tell(line: &str) {
    say(&format!("{line}\n"));
}

fn say(text: &str) {
    let mut error = std::io::stderr();
    drop(error.write_all(text.as_bytes()).and_then(|()| error.flush()));
}
