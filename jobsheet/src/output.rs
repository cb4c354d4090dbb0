//! Answers, written to standard output, or to a file atomically.

use std::{
    ffi::OsString,
    fs::{self, File},
    io::{self, BufWriter, ErrorKind, Write},
    os::unix::io::RawFd,
    path::{Path, PathBuf},
    process,
};

use crate::{
    input::{shown_name, Stop},
    streams::{descriptor, duplicate, is_usable, is_writable},
    terminal::{Progress, Stage, Stream},
};

/// Where an answer goes.
pub struct Output {
    to: BufWriter<Box<dyn Write>>,
    name: String,
    /// The file that is written, and the name that it gets when it is whole.
    kept: Option<(PathBuf, PathBuf)>,
}

/// How often another name is tried for the file that is written first.
const TRIES: u32 = 100;

impl Output {
    /// Standard output, or a file. A file that is there stays as it is until the new one is whole.
    pub fn open(file: &Option<OsString>) -> Result<Output, Stop> {
        match file {
            Some(file) if file != "-" => {
                let name = shown_name(file);
                Output::of_file(Path::new(file), &name).map_err(|error| cannot(&name, &error))
            }
            _ => Output::of_stream(1, "standard output").map_err(|error| cannot("standard output", &error)),
        }
    }

    /// A stream that is open already, which is gone on with.
    fn of_stream(descriptor: RawFd, name: &str) -> io::Result<Output> {
        let to = duplicate(descriptor)?;
        if !is_writable(&to) || descriptor < 3 && !is_usable(descriptor) {
            return Err(io::Error::new(ErrorKind::Other, "it is not open for writing"));
        }
        Ok(Output::over(Box::new(to), name.into(), None))
    }

    fn of_file(file: &Path, name: &str) -> io::Result<Output> {
        if let Some(descriptor) = descriptor(file) {
            return Output::of_stream(descriptor, name);
        }
        let over = |to: Box<dyn Write>, kept| Ok(Output::over(to, name.into(), kept));
        // A link keeps leading where it leads; one that leads nowhere is an error.
        let path = match fs::symlink_metadata(file) {
            Ok(_) => fs::canonicalize(file)?,
            Err(_) => file.into(),
        };
        let found = fs::metadata(&path).ok();
        if found.as_ref().map_or(false, |found| !found.is_file()) {
            return over(Box::new(File::options().write(true).open(&path)?), None);
        }
        if found.is_some() {
            // What may not be written is not replaced either.
            File::options().write(true).open(&path)?;
        }
        let (opened, beside) = create_beside(&path)?;
        let output = over(Box::new(opened), Some((beside.clone(), path)))?;
        if let Some(found) = found {
            fs::set_permissions(&beside, found.permissions())?;
        }
        Ok(output)
    }

    fn over(to: Box<dyn Write>, name: String, kept: Option<(PathBuf, PathBuf)>) -> Output {
        Output { to: BufWriter::new(to), name, kept }
    }

    /// The answer is whole.
    fn finish(mut self) -> Result<(), Stop> {
        let mut done = self.to.flush();
        if let (Ok(()), Some((beside, path))) = (&done, &self.kept) {
            done = fs::rename(beside, path);
        }
        done.map(|()| self.kept = None).map_err(|error| cannot(&self.name, &error))
    }

    /// Writes by a function, and ends. A terminal shows the answer itself; otherwise progress tells how much of it
    /// there is.
    pub fn write_by(
        mut self,
        progress: Progress,
        write: impl FnOnce(&mut dyn Write) -> io::Result<()>,
    ) -> Result<(), Stop> {
        let progress = if self.kept.is_none() && Stream::Output.is_terminal() {
            drop(progress);
            Progress::silent()
        } else {
            progress
        };
        progress.begin(Stage::Writing);
        let mut counted = Counted { to: &mut self.to, progress: &progress, written: 0 };
        write(&mut counted).map_err(|error| cannot(&self.name, &error))?;
        self.finish()
    }
}

impl Drop for Output {
    /// What was not finished leaves nothing behind.
    fn drop(&mut self) {
        if let Some((beside, _)) = &self.kept {
            drop(fs::remove_file(beside));
        }
    }
}

/// A writer that tells how much was written.
struct Counted<'a> {
    to: &'a mut dyn Write,
    progress: &'a Progress,
    written: usize,
}

impl Write for Counted<'_> {
    fn write(&mut self, part: &[u8]) -> io::Result<usize> {
        let taken = self.to.write(part)?;
        self.written += taken;
        self.progress.at(self.written);
        Ok(taken)
    }

    fn flush(&mut self) -> io::Result<()> {
        self.to.flush()
    }
}

/// A new file in the same folder, under a name that nobody has.
fn create_beside(path: &Path) -> io::Result<(File, PathBuf)> {
    let mut number = 0;
    loop {
        let beside = path.with_file_name(format!(".jobsheet.{}.{number}", process::id()));
        match File::options().write(true).create_new(true).open(&beside) {
            Err(error) if error.kind() == ErrorKind::AlreadyExists && number < TRIES => number += 1,
            opened => return opened.map(|opened| (opened, beside)),
        }
    }
}

fn cannot(name: &str, error: &io::Error) -> Stop {
    Stop(format!("{name} cannot be written: {error}"))
}
