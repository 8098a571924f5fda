//! The files of a job, found and read.

use crate::btx;
use crate::exit::Failure;
use crate::kpathsea::Format;
use crate::search::{Search, path_of};
use crate::system::trying;
use crate::terminal::plain;
use std::collections::HashSet;
use std::fmt;
use std::fs;
use std::io::{self, ErrorKind, Read};
use std::os::unix::fs::MetadataExt;

/// One more byte than a file may have: the library reports a file of this length as too long.
const MOST_READ: u64 = 1 << 31;

/// A file that a job names.
#[derive(Debug, Clone, PartialEq, Eq)]
pub struct File {
    /// Its name as the job has it, with its ending: `paper.aux`, `plain.bst`, `refs.bib`.
    pub name: Vec<u8>,
    /// What stands in it; None where it isn't there.
    pub bytes: Option<Vec<u8>>,
    /// Where it was found; empty where it wasn't.
    pub path: Vec<u8>,
}

/// The files of a job. Of two with one name the first counts.
#[derive(Debug, Clone, Default, PartialEq, Eq)]
pub struct Files {
    /// The name of the top `.aux` file.
    pub top: Vec<u8>,
    /// All files that the job names, in the order in which the run asks for them: the top file first, each included `.aux` file after
    /// the file that names it, then the style and the databases.
    pub all: Vec<File>,
}

impl Files {
    /// The file of this name, where it was found.
    pub fn file(&self, name: &[u8]) -> Option<&File> {
        self.all.iter().find(|file| file.name == name).filter(|file| file.bytes.is_some())
    }

    /// What stands in the file of this name, where it was found.
    pub fn bytes(&self, name: &[u8]) -> Option<&[u8]> {
        self.file(name)?.bytes.as_deref()
    }

    /// The files with this ending that were found (`.aux`, `.bst`, `.bib`).
    pub fn with_ending<'a>(&'a self, ending: &'a str) -> impl Iterator<Item = &'a File> {
        self.all.iter().filter(move |file| file.name.ends_with(ending.as_bytes()) && file.bytes.is_some())
    }
}

/// The numbers by which the system knows a file: its device's and its own.
pub type FileNumber = (u64, u64);

/// What stands where a file may be.
enum Place {
    /// A file: its bytes, and its number.
    File(Vec<u8>, FileNumber),
    /// None, for this reason.
    Empty(&'static str),
}

/// Why a file isn't there of which nothing else is known.
pub const NO_SUCH_FILE: &str = "there is no such file";
const FOLDER: &str = "it is a folder";
const NO_ORDINARY_FILE: &str = "it is no ordinary file";
const TOO_LONG_A_NAME: &str = "File name too long";
const NO_NAME_OF_A_FILE: &str = "no file has such a name";
const LINKS_TO_THEMSELVES: &str = "Too many levels of symbolic links";
const NOT_ALLOWED: &str = "TeX's set-up doesn't allow that it is read";

/// Why a file of a job doesn't count although something is there.
#[derive(Debug, Clone, PartialEq, Eq)]
pub struct Note {
    name: Vec<u8>,
    reason: &'static str,
    /// The value of TeX's `openin_any`.
    openin: Vec<u8>,
}

impl fmt::Display for Note {
    fn fmt(&self, out: &mut fmt::Formatter<'_>) -> fmt::Result {
        match self.reason {
            NOT_ALLOWED => {
                write!(out, "Not reading from {} (openin_any = {}).", plain(&self.name), plain(&self.openin))
            }
            reason => write!(out, "{}: {reason}", plain(&self.name)),
        }
    }
}

/// The number of the fault of links that lead back to themselves.
const LINKS_IN_A_CIRCLE: i32 = 40;

/// Why nothing can be a file of the job there; None where it is the machine that keeps us from it.
pub fn why_missing(fault: &io::Error) -> Option<&'static str> {
    match fault.kind() {
        ErrorKind::NotFound | ErrorKind::NotADirectory => Some(NO_SUCH_FILE),
        ErrorKind::InvalidFilename => Some(TOO_LONG_A_NAME),
        ErrorKind::InvalidInput => Some(NO_NAME_OF_A_FILE),
        _ if fault.raw_os_error() == Some(LINKS_IN_A_CIRCLE) => Some(LINKS_TO_THEMSELVES),
        _ => None,
    }
}

/// Whether a reason is that nothing can be a file of the job there, and not that the machine keeps us from it.
pub fn is_of_missing(reason: &str) -> bool {
    let all = [NO_SUCH_FILE, FOLDER, NO_ORDINARY_FILE, TOO_LONG_A_NAME, NO_NAME_OF_A_FILE, LINKS_TO_THEMSELVES];
    all.contains(&reason)
}

/// A file or a folder that the machine couldn't read, and the number of its fault.
pub type Unread = (Vec<u8>, i32);

/// What the machine couldn't read at this path; None where the fault says that nothing is there, or that the user may not read it.
pub fn unread_at(path: &[u8], fault: &io::Error) -> Option<Unread> {
    let is_of_machine = fault.kind() != ErrorKind::PermissionDenied && why_missing(fault).is_none();
    fault.raw_os_error().filter(|_| is_of_machine).map(|number| (path.to_vec(), number))
}

/// Reads a file. Only ordinary files count: of a folder, a pipe or a device nothing is read.
fn read(path: &[u8]) -> io::Result<Place> {
    read_ordinary(path).or_else(|fault| why_missing(&fault).map(Place::Empty).ok_or(fault))
}

fn read_ordinary(path: &[u8]) -> io::Result<Place> {
    let data = fs::metadata(path_of(path))?;
    if data.is_dir() {
        return Ok(Place::Empty(FOLDER));
    } else if !data.is_file() {
        return Ok(Place::Empty(NO_ORDINARY_FILE));
    }
    let file = fs::File::open(path_of(path))?;
    let number = (data.dev(), data.ino());
    if data.len() >= MOST_READ {
        // That it is too long is all that the library says of it. As long as zeros are only read, they take no memory.
        return Ok(Place::File(vec![0; MOST_READ as usize], number));
    }
    let mut bytes = Vec::new();
    // One byte more than there are, so that the end is seen without more room.
    trying(|| bytes.try_reserve_exact(data.len() as usize + 1)).map_err(|_| ErrorKind::OutOfMemory)?;
    trying(|| file.take(MOST_READ).read_to_end(&mut bytes))?;
    Ok(Place::File(bytes, number))
}

/// A database that a user names by its path: what stands in it, or why there is none. A failure is the machine's.
pub fn read_database(path: &[u8]) -> Result<Result<Vec<u8>, &'static str>, Failure> {
    match read(path).map_err(|fault| Failure::unread(path, fault))? {
        Place::File(bytes, _) => Ok(Ok(bytes)),
        Place::Empty(reason) => Ok(Err(reason)),
    }
}

/// A style that a user names, found and read; where there is none, what stands in its place, if anything does. A failure is the machine's.
pub fn find_style(search: &Search, name: &[u8]) -> Result<Result<File, Option<&'static str>>, Failure> {
    let mut finder = Finder::new(search, b"");
    let file = finder.look_for(name.to_vec())?;
    let reason = finder.notes.pop().map(|note| note.reason);
    Ok(if file.bytes.is_some() { Ok(file) } else { Err(reason) })
}

/// Finds the files of a job.
pub struct Finder<'a> {
    search: &'a Search,
    files: Files,
    /// The folder of the top `.aux` file, with a `/`; empty where that is the present one.
    beside: Vec<u8>,
    /// The files that don't count although something is there, and why.
    pub notes: Vec<Note>,
    /// The files that were read.
    pub read: HashSet<FileNumber>,
}

impl<'a> Finder<'a> {
    /// A finder for the job of this top file.
    pub fn new(search: &'a Search, top: &[u8]) -> Finder<'a> {
        let folder = top.iter().rposition(|byte| *byte == b'/').map_or(0, |at| at + 1);
        let files = Files { top: top.to_vec(), all: Vec::new() };
        Finder { search, files, beside: top[..folder].to_vec(), notes: Vec::new(), read: HashSet::new() }
    }

    /// Finds the top file. It is a failure where it isn't there.
    pub fn find_top(&mut self) -> Result<(), Failure> {
        let top = self.files.top.clone();
        let file = self.find(top.clone()).map_err(|failure| failure.of_top(&top))?;
        if file.bytes.is_none() {
            return Err(match self.notes.pop() {
                Some(note) if note.reason == NOT_ALLOWED => Failure::NotRead(note),
                note => Failure::NoTop(top, note.map_or(NO_SUCH_FILE, |note| note.reason).to_string()),
            });
        }
        self.files.all.push(file);
        Ok(())
    }

    /// Finds all other files. A failure is what kept the machine from it; a file that isn't there is none.
    pub fn find_all(&mut self) -> Result<Files, Failure> {
        loop {
            let names = btx::needs(&self.files.top, &self.files.all)?;
            // The style and the databases are named last, once all `.aux` files are known.
            let are_last = !names.iter().any(|name| name.ends_with(b".aux"));
            let mut asked = HashSet::new();
            for name in names {
                if asked.insert(name.clone()) {
                    let file = self.find(name)?;
                    self.files.all.push(file);
                }
            }
            if are_last {
                return Ok(std::mem::take(&mut self.files));
            }
        }
    }

    /// Finds a file and reads it, where TeX's set-up allows that.
    fn find(&mut self, name: Vec<u8>) -> Result<File, Failure> {
        if !self.search.may_read(&name) {
            self.note(&name, NOT_ALLOWED);
            return Ok(File { name, bytes: None, path: Vec::new() });
        }
        self.look_for(name)
    }

    /// Finds a file and reads it.
    fn look_for(&mut self, name: Vec<u8>) -> Result<File, Failure> {
        for path in self.places(&name) {
            match read(&path).map_err(|fault| Failure::unread(&path, fault))? {
                Place::File(bytes, number) => {
                    self.read.insert(number);
                    return Ok(File { name, bytes: Some(bytes), path });
                }
                Place::Empty(NO_SUCH_FILE) => {}
                Place::Empty(reason) => self.note(&name, reason),
            }
        }
        let is_searched = name.ends_with(b".bst") || name.ends_with(b".bib");
        if let Some((path, number)) = self.search.unread().filter(|_| is_searched) {
            return Err(Failure::unread(&path, io::Error::from_raw_os_error(number)));
        }
        Ok(File { name, bytes: None, path: Vec::new() })
    }

    fn note(&mut self, name: &[u8], reason: &'static str) {
        let openin = self.search.value(c"openin_any").unwrap_or_default();
        self.notes.push(Note { name: name.to_vec(), reason, openin });
    }

    /// Where a file may be, the likelier place first.
    fn places(&self, name: &[u8]) -> Vec<Vec<u8>> {
        let format = match name {
            _ if name.ends_with(b".bst") => Format::Style,
            _ if name.ends_with(b".bib") => Format::Database,
            _ if name.starts_with(b"/") || self.beside.is_empty() || name == self.files.top => {
                return vec![name.to_vec()];
            }
            _ => return vec![name.to_vec(), [&self.beside, name].concat()],
        };
        // What stands in the place of a file that wasn't found says why that is.
        let found = self.search.find(name, format).or_else(|| self.search.in_its_place(name, format));
        found.into_iter().collect()
    }
}

#[cfg(test)]
mod tests {
    use super::*;

    #[test]
    fn the_first_file_of_a_name_counts() {
        let file = |name: &str, bytes: Option<&str>| File {
            name: name.into(),
            bytes: bytes.map(|bytes| bytes.into()),
            path: Vec::new(),
        };
        let all = vec![file("a.aux", Some("1")), file("b.bib", None), file("b.bib", Some("2"))];
        let files = Files { top: b"a.aux".into(), all };
        assert_eq!(files.bytes(b"a.aux"), Some(&b"1"[..]));
        assert_eq!(files.bytes(b"b.bib"), None);
        assert_eq!(files.with_ending(".aux").count(), 1);
    }

    #[test]
    fn folders_and_missing_files_are_no_files() {
        assert!(matches!(read(b"/"), Ok(Place::Empty("it is a folder"))));
        assert!(matches!(read(b"/nonexistent/a"), Ok(Place::Empty(NO_SUCH_FILE))));
        assert!(matches!(read(b"/dev/null"), Ok(Place::Empty("it is no ordinary file"))));
        assert!(matches!(read(&[b'a'; 5000]), Ok(Place::Empty("File name too long"))));
        assert!(is_of_missing("it is a folder") && !is_of_missing("Permission denied"));
    }
}
