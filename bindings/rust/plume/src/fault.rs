//! What went wrong, in words, and the status that the program ends with.

use guineaplume::{ParseGgrError, Refusal};
use std::fmt;

/// Judged no, or two depths became one.
pub const FAULTY: u8 = 1;
/// The command line, a file or the disk.
pub const USAGE: u8 = 2;
/// The library answered with the number of a refusal.
pub const REFUSED: u8 = 3;
/// A file that could not be read as what it is.
pub const UNREAD: u8 = 4;

/// One thing that went wrong.
#[derive(Debug)]
pub struct Fault {
    /// What the program ends with where nothing worse happens.
    pub status: u8,
    file: String,
    line: usize,
    words: String,
}

pub type Answer<T> = Result<T, Fault>;

impl Fault {
    /// Of no file.
    pub fn usage(words: impl Into<String>) -> Fault {
        Fault { status: USAGE, file: String::new(), line: 0, words: words.into() }
    }

    /// Of a file that cannot be opened, read or written.
    pub fn disk(file: &str, error: &std::io::Error) -> Fault {
        Fault { status: USAGE, file: file.into(), line: 0, words: error.to_string() }
    }

    /// Of a file that is not used as it was meant.
    pub fn misused(file: &str, words: impl Into<String>) -> Fault {
        Fault { status: USAGE, file: file.into(), line: 0, words: words.into() }
    }

    /// A line that is not read; 0 where no line is to blame.
    pub fn unread(file: &str, line: usize, words: impl Into<String>) -> Fault {
        Fault { status: UNREAD, file: file.into(), line, words: words.into() }
    }

    /// A refusal of the library's, with its number and its words.
    pub fn refused(file: &str, refusal: Refusal) -> Fault {
        Fault::refused_since(file, 0, refusal, "")
    }

    /// The same, with what the reader of it may want to know.
    pub fn refused_since(file: &str, line: usize, refusal: Refusal, more: &str) -> Fault {
        let words = format!("refused {}: {refusal}{more}", refusal.number());
        Fault { status: REFUSED, file: file.into(), line, words }
    }

    /// A refusal of a GIMP text, with its line.
    pub fn gimp(file: &str, error: ParseGgrError) -> Fault {
        Fault::refused_since(file, error.line, error.refusal, "")
    }
}

impl fmt::Display for Fault {
    fn fmt(&self, f: &mut fmt::Formatter<'_>) -> fmt::Result {
        f.write_str("plume: ")?;
        match (self.file.as_str(), self.line) {
            ("", _) => {}
            (file, 0) => write!(f, "{file}: ")?,
            (file, line) => write!(f, "{file}:{line}: ")?,
        }
        f.write_str(&self.words)
    }
}
