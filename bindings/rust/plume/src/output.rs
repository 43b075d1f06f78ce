//! Where answers go: standard output, a file, or a folder.

use crate::fault::{Answer, Fault};
use std::io::Write;
use std::path::{Path, PathBuf};

/// Says something to the person at the keyboard.
pub fn say(words: &str) {
    eprintln!("plume: {words}");
}

/// Prints on standard output. A reader that has gone is no fault of ours.
pub fn print(bytes: &[u8]) -> Answer<()> {
    let mut out = std::io::stdout().lock();
    match out.write_all(bytes).and_then(|()| out.flush()) {
        Err(error) if error.kind() != std::io::ErrorKind::BrokenPipe => Err(Fault::disk("standard output", &error)),
        _ => Ok(()),
    }
}

/// Which file each input is written to.
pub struct Target {
    folder: Option<PathBuf>,
    file: Option<PathBuf>,
    written: Vec<PathBuf>,
}

impl Target {
    /// Several inputs, a folder, or a name that ends with a slash: a file for each below it. The folder is made where there
    /// is none.
    pub fn new(out: Option<&str>, inputs: usize) -> Answer<Target> {
        let mut target = Target { folder: None, file: None, written: Vec::new() };
        match out {
            None | Some("-") if inputs > 1 => return Err(Fault::usage("several files need a folder: -o FOLDER/")),
            None | Some("-") => {}
            Some(out) if inputs > 1 || out.ends_with('/') || Path::new(out).is_dir() => {
                std::fs::create_dir_all(out).map_err(|error| Fault::disk(out, &error))?;
                target.folder = Some(out.into());
            }
            Some(out) => target.file = Some(out.into()),
        }
        Ok(target)
    }

    /// Writes what came of an input, and says where.
    pub fn write(&mut self, input: &str, name: &str, ending: &str, bytes: &[u8]) -> Answer<()> {
        let path = match (&self.folder, &self.file) {
            (Some(folder), _) => folder.join(format!("{name}.{ending}")),
            (None, Some(file)) => file.clone(),
            (None, None) => return print(bytes),
        };
        let shown = path.display().to_string();
        if self.written.contains(&path) {
            return Err(Fault::misused(input, format!("{shown} was written for another file of that name already")));
        }
        if is_same(&path, Path::new(input)) {
            return Err(Fault::misused(input, "this would be written over itself: name another file by -o"));
        }
        replace(&path, bytes).map_err(|error| Fault::disk(&shown, &error))?;
        self.written.push(path);
        Ok(())
    }
}

fn is_same(one: &Path, other: &Path) -> bool {
    matches!((one.canonicalize(), other.canonicalize()), (Ok(one), Ok(other)) if one == other)
}

/// The whole file or none: it is written beside its place and then put there. What is no plain file, such as a pipe, is
/// written as it is.
fn replace(path: &Path, bytes: &[u8]) -> std::io::Result<()> {
    if path.exists() && !path.is_file() {
        return std::fs::write(path, bytes);
    }
    let mut beside = path.as_os_str().to_owned();
    beside.push(format!(".{}.new", std::process::id()));
    let put = std::fs::write(&beside, bytes).and_then(|()| std::fs::rename(&beside, path));
    if put.is_err() {
        let _ = std::fs::remove_file(&beside);
    }
    put
}

/// Whether standard error is a terminal, by what Linux calls it. Rust itself tells it from 1.70 on, and Debian 12 has 1.63.
fn is_terminal() -> bool {
    let name = std::fs::read_link("/proc/self/fd/2").unwrap_or_default();
    ["/dev/pts/", "/dev/tty", "/dev/console"].iter().any(|start| name.to_string_lossy().starts_with(start))
}

/// A line on a terminal that says how far many files are.
pub struct Progress {
    all: usize,
    is_shown: bool,
}

impl Progress {
    pub fn new(all: usize) -> Progress {
        Progress { all, is_shown: all > 1 && is_terminal() }
    }

    pub fn at(&self, done: usize, file: &str) {
        if self.is_shown {
            eprint!("\r\x1b[K{} of {}: {file}", done + 1, self.all);
        }
    }

    /// Makes room for a line of words.
    pub fn clear(&self) {
        if self.is_shown {
            eprint!("\r\x1b[K");
        }
    }
}
