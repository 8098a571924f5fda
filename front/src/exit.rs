//! How the programs end: the exit statuses, which are those of the proved program, and what kept the machine from its work.

use crate::btx::MemoryRefused;
use crate::job::Note;
use crate::terminal::plain;
use std::ffi::OsString;
use std::fmt;
use std::io::{self, Write};
use std::os::unix::ffi::OsStringExt;
use std::process::ExitCode;

/// How a program ends.
#[derive(Debug, Clone, Copy, PartialEq, Eq)]
pub enum Status {
    /// The job ran to its end without an error message; or the help or the version was printed.
    Finished = 0,
    /// The words of the command line, or the name of an output, are refused.
    Refused = 1,
    /// The job ran to its end, and its log has error messages.
    Errors = 2,
    /// A limit was met, or there is no top `.aux` file.
    Limit = 3,
    /// The budget was spent.
    Stopped = 4,
    /// Memory was refused.
    Memory = 5,
    /// A file couldn't be read, or an output couldn't be written.
    Device = 6,
}

impl From<Status> for ExitCode {
    fn from(status: Status) -> ExitCode {
        ExitCode::from(status as u8)
    }
}

impl Status {
    /// The status of a run that the library did, by its number there.
    pub fn of_report(status: u32) -> Status {
        match status {
            0 => Status::Finished,
            2 => Status::Errors,
            3 => Status::Limit,
            4 => Status::Stopped,
            _ => Status::Device,
        }
    }
}

/// The name under which a program was called.
#[derive(Debug, Clone)]
pub struct Name(String);

impl Name {
    /// The last part of the program's path.
    pub fn of(path: Option<OsString>) -> Name {
        let path = path.map(OsString::into_vec).unwrap_or_default();
        let last = path.rsplit(|byte| *byte == b'/').next().unwrap_or_default();
        Name(if last.is_empty() { "bibtex-search".into() } else { plain(last) })
    }

    /// Whether it is this one.
    pub fn is(&self, name: &str) -> bool {
        self.0 == name
    }

    /// Says something on standard error. Where that takes nothing, the exit status has to do.
    pub fn say(&self, what: impl fmt::Display) {
        let _ = writeln!(io::stderr(), "{self}: {what}");
    }

    /// Says that standard output takes no more, and answers what that means for the exit status.
    pub fn unprinted(&self, fault: &io::Error) -> Status {
        self.say(format_args!("standard output takes no more: {}", words_of(fault)));
        Status::Device
    }
}

impl fmt::Display for Name {
    fn fmt(&self, out: &mut fmt::Formatter<'_>) -> fmt::Result {
        out.write_str(&self.0)
    }
}

/// The endings of top files that can't be meant.
const OTHER_ENDINGS: [&str; 4] = [".tex.aux", ".pdf.aux", ".bbl.aux", ".blg.aux"];
/// Those of files that no job is named by.
const NO_JOBS: [&str; 2] = [".bib.aux", ".bst.aux"];

/// Why a job isn't run, or what it gave isn't kept.
#[derive(Debug)]
pub enum Failure {
    /// There is no top `.aux` file of this name, for this reason.
    NoTop(Vec<u8>, String),
    /// TeX's `openin_any` doesn't allow that the top `.aux` file is read.
    NotRead(Note),
    /// TeX's `openout_any`, whose value follows, doesn't allow an output of this name.
    NotAllowed(Vec<u8>, Vec<u8>),
    /// Memory was refused.
    Memory,
    /// The system refused something of the file at this path: what couldn't be done, and why.
    Device(Vec<u8>, &'static str, String),
}

/// The system's words for a fault, without its number.
pub fn words_of(fault: &io::Error) -> String {
    let words = fault.to_string();
    words.split(" (os error").next().unwrap_or(&words).to_string()
}

impl Failure {
    /// The file at a path can't be read. TeX's library begins the path with `./` where the file is in the present folder.
    pub fn unread(path: &[u8], fault: io::Error) -> Failure {
        let path = path.strip_prefix(b"./").unwrap_or(path);
        match fault.kind() {
            io::ErrorKind::OutOfMemory => Failure::Memory,
            _ => Failure::Device(path.to_vec(), "can't be read", words_of(&fault)),
        }
    }

    /// The output at a path can't be written.
    pub fn unwritten(path: &[u8], fault: &io::Error) -> Failure {
        Failure::Device(path.to_vec(), "can't be written", words_of(fault))
    }

    /// The failure, where it is the top file that couldn't be read.
    pub fn of_top(self, top: &[u8]) -> Failure {
        match self {
            Failure::Device(_, _, reason) => Failure::NoTop(top.to_vec(), reason),
            other => other,
        }
    }

    /// The exit status.
    pub fn status(&self) -> Status {
        match self {
            Failure::NoTop(..) | Failure::NotRead(_) => Status::Limit,
            Failure::NotAllowed(..) => Status::Refused,
            Failure::Memory => Status::Memory,
            Failure::Device(..) => Status::Device,
        }
    }
}

impl From<MemoryRefused> for Failure {
    fn from(MemoryRefused: MemoryRefused) -> Failure {
        Failure::Memory
    }
}

impl fmt::Display for Failure {
    fn fmt(&self, out: &mut fmt::Formatter<'_>) -> fmt::Result {
        match self {
            Failure::NoTop(name, reason) => {
                write!(out, "I couldn't open file name `{}': {reason}", plain(name))?;
                if NO_JOBS.iter().any(|ending| name.ends_with(ending.as_bytes())) {
                    return write!(out, " (JOB is the name of a document, without an ending)");
                }
                let stem = OTHER_ENDINGS.iter().find_map(|ending| name.strip_suffix(ending.as_bytes()));
                stem.map_or(Ok(()), |stem| write!(out, " (JOB is a name without an ending: {})", plain(stem)))
            }
            Failure::NotRead(note) => note.fmt(out),
            Failure::NotAllowed(name, value) => {
                write!(out, "Not writing to {} (openout_any = {}).", plain(name), plain(value))
            }
            Failure::Memory => write!(out, "out of memory"),
            Failure::Device(path, what, reason) => write!(out, "{} {what}: {reason}", plain(path)),
        }
    }
}

#[cfg(test)]
mod tests {
    use super::*;

    #[test]
    fn a_failure_says_what_and_where() {
        let fault = io::Error::from_raw_os_error(13);
        assert_eq!(Failure::unread(b"./a/b.bib", fault).to_string(), "a/b.bib can't be read: Permission denied");
        let no_top = |name: &[u8]| Failure::NoTop(name.into(), "it is a folder".into());
        assert_eq!(no_top(b"a.aux").status(), Status::Limit);
        assert_eq!(no_top(b"a.aux").to_string(), "I couldn't open file name `a.aux': it is a folder");
        assert!(no_top(b"b/a.tex.aux").to_string().ends_with(" (JOB is a name without an ending: b/a)"));
        assert!(no_top(b"paper.pdf.aux").to_string().ends_with(" (JOB is a name without an ending: paper)"));
        assert!(no_top(b"refs.bib.aux").to_string().ends_with(" (JOB is the name of a document, without an ending)"));
        let memory = io::Error::from(io::ErrorKind::OutOfMemory);
        assert_eq!(Failure::unread(b"a", memory).status(), Status::Memory);
    }
}
