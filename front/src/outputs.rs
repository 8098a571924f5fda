//! The list and the log of a job: opened before its run, and written after it.
//!
//! What stood there stays until both can be written: they are opened without being emptied, and before the first is emptied there is room
//! on the disk for the whole of both. The log is written first, so that no new list ever stands beside an old log.

use crate::exit::Failure;
use crate::job::FileNumber;
use crate::search::path_of;
use crate::system::{close_file, lock, reserve};
use std::collections::HashSet;
use std::fs::{self, OpenOptions};
use std::io::{self, ErrorKind, Write};
use std::os::unix::fs::{FileTypeExt, MetadataExt};
use std::path::PathBuf;
use std::thread;
use std::time::{Duration, Instant};

/// How long a run waits at most until another one has written, and after how much time it looks again.
const LONGEST_WAIT: Duration = Duration::from_secs(2);
const MOMENT: Duration = Duration::from_millis(5);

/// An output.
#[derive(Debug)]
struct Output {
    name: Vec<u8>,
    /// The open file; None where a pipe stands there, which isn't opened before it is written.
    file: Option<fs::File>,
    /// Its number; None where it is no ordinary file.
    number: Option<FileNumber>,
    /// How many bytes the old file has on the disk.
    has_room: u64,
    /// Where the file was made, if it wasn't there.
    made: Option<PathBuf>,
}

/// Opens a file, which is made where it isn't there; and whether it was made.
fn open_or_make(name: &[u8]) -> io::Result<(fs::File, bool)> {
    let path = path_of(name);
    match OpenOptions::new().write(true).open(path) {
        Err(fault) if fault.kind() == ErrorKind::NotFound => {
            let made = OpenOptions::new().write(true).create(true).truncate(false).open(path)?;
            Ok((made, true))
        }
        opened => Ok((opened?, false)),
    }
}

impl Output {
    fn open(name: &[u8]) -> io::Result<Output> {
        let unopened = |number| Output { name: name.to_vec(), file: None, number, has_room: 0, made: None };
        if fs::metadata(path_of(name)).is_ok_and(|data| data.file_type().is_fifo()) {
            return Ok(unopened(None));
        }
        let (file, is_made) = open_or_make(name)?;
        let data = file.metadata()?;
        let made = if is_made { fs::canonicalize(path_of(name)).ok() } else { None };
        let number = data.is_file().then(|| (data.dev(), data.ino()));
        Ok(Output { file: Some(file), has_room: 512 * data.blocks(), made, ..unopened(number) })
    }

    /// Makes sure that the disk has room for `len` bytes.
    fn reserve(&self, len: usize) -> io::Result<()> {
        match &self.file {
            Some(file) if self.number.is_some() => reserve(file, len as u64, self.has_room),
            _ => Ok(()),
        }
    }

    /// Replaces what stood there.
    fn write(self, bytes: &[u8]) -> io::Result<()> {
        let mut file = match self.file {
            Some(file) => file,
            None => OpenOptions::new().write(true).open(path_of(&self.name))?,
        };
        if self.number.is_some() {
            file.set_len(0)?;
        }
        file.write_all(bytes)?;
        close_file(file)
    }

    /// Whether its name leads to the file that was opened: another run that made this file, and failed, has removed it.
    fn is_in_place(&self) -> bool {
        let is_it = |number| fs::metadata(path_of(&self.name)).is_ok_and(|data| number == (data.dev(), data.ino()));
        self.number.is_none_or(is_it)
    }

    /// The output, opened once more where its name leads to that file no longer.
    fn renewed(self) -> Result<Output, Failure> {
        if self.is_in_place() {
            return Ok(self);
        }
        Output::open(&self.name).map_err(|fault| Failure::unwritten(&self.name, &fault))
    }

    /// Whether this run made the file, and nothing stands in it.
    fn is_made_and_empty(&self) -> bool {
        let is_empty = |file: &fs::File| file.metadata().is_ok_and(|data| data.len() == 0);
        self.made.is_some() && self.file.as_ref().is_some_and(is_empty) && self.is_in_place()
    }

    /// Leaves all as it was.
    fn leave(self) {
        if self.is_made_and_empty()
            && let Some(path) = self.made
        {
            // Where it can't be removed, an empty file stays.
            let _ = fs::remove_file(path);
        }
    }
}

/// The list and the log of a job.
#[derive(Debug)]
pub struct Outputs {
    list: Output,
    log: Output,
}

impl Outputs {
    /// Opens both. `read` are the files that the job reads: none of them may be overwritten.
    pub fn open(list: &[u8], log: &[u8], read: &HashSet<FileNumber>) -> Result<Outputs, Failure> {
        let log = Output::open(log).map_err(|fault| Failure::unwritten(log, &fault))?;
        let list = match Output::open(list) {
            Ok(list) => list,
            Err(fault) => {
                log.leave();
                return Err(Failure::unwritten(list, &fault));
            }
        };
        let outputs = Outputs { list, log };
        match outputs.clash(read) {
            Some(failure) => {
                outputs.leave();
                Err(failure)
            }
            None => Ok(outputs),
        }
    }

    /// An output that is a file of the job as well, under another name.
    fn clash(&self, read: &HashSet<FileNumber>) -> Option<Failure> {
        let refuse = |output: &Output, why: &str| {
            Some(Failure::Device(output.name.clone(), "can't be written", why.to_string()))
        };
        if self.list.number.is_some() && self.list.number == self.log.number {
            return refuse(&self.list, "it is the same file as the log");
        }
        let is_read = |output: &&Output| output.number.is_some_and(|number| read.contains(&number));
        let output = [&self.list, &self.log].into_iter().find(is_read)?;
        refuse(output, "it is the same file as one that the job reads")
    }

    /// Leaves all as it was before. What another run wrote meanwhile stays too, with an empty list beside its log.
    pub fn leave(self) {
        self.wait_for_others();
        if self.log.made.is_none() || self.log.is_made_and_empty() {
            self.list.leave();
            self.log.leave();
        }
    }

    /// Both, opened once more where another run has removed them.
    fn renewed(self) -> Result<Outputs, Failure> {
        Ok(Outputs { log: self.log.renewed()?, list: self.list.renewed()? })
    }

    /// Makes sure that the disk has room for both.
    fn reserve(&self, list_len: usize, log_len: usize) -> Result<(), Failure> {
        [(&self.log, log_len), (&self.list, list_len)]
            .into_iter()
            .try_for_each(|(output, len)| output.reserve(len).map_err(|fault| Failure::unwritten(&output.name, &fault)))
    }

    /// Waits, for a while, as long as another run of the same job writes its list and log: what stands there is then of one run.
    fn wait_for_others(&self) {
        let end = Instant::now() + LONGEST_WAIT;
        let Some(list) = self.list.file.as_ref().filter(|_| self.list.number.is_some()) else { return };
        while !lock(list) && Instant::now() < end {
            thread::sleep(MOMENT);
        }
    }

    /// Replaces both by what a run wrote. Where there is no room for it, all stays as it was.
    pub fn replace(self, list: &[u8], log: &[u8]) -> Result<(), Failure> {
        self.wait_for_others();
        let outputs = self.renewed()?;
        outputs.wait_for_others();
        if let Err(failure) = outputs.reserve(list.len(), log.len()) {
            outputs.leave();
            return Err(failure);
        }
        let (list_name, log_name) = (outputs.list.name.clone(), outputs.log.name.clone());
        if let Err(fault) = outputs.log.write(log) {
            outputs.list.leave();
            return Err(Failure::unwritten(&log_name, &fault));
        }
        outputs.list.write(list).map_err(|fault| Failure::unwritten(&list_name, &fault))
    }
}

#[cfg(test)]
mod tests {
    use super::*;
    use std::os::unix::ffi::OsStrExt;

    /// A new folder, removed at the end.
    struct Room(PathBuf);

    impl Room {
        fn new(name: &str) -> Room {
            let folder = std::env::temp_dir().join(format!("bibtex-front-{}-{name}", std::process::id()));
            fs::create_dir(&folder).unwrap();
            Room(folder)
        }

        fn path(&self, name: &str) -> Vec<u8> {
            self.0.join(name).as_os_str().as_bytes().to_vec()
        }

        fn text(&self, name: &str) -> Option<String> {
            fs::read_to_string(self.0.join(name)).ok()
        }

        fn open(&self) -> Result<Outputs, Failure> {
            Outputs::open(&self.path("a.bbl"), &self.path("a.blg"), &HashSet::new())
        }
    }

    impl Drop for Room {
        fn drop(&mut self) {
            let _ = fs::remove_dir_all(&self.0);
        }
    }

    #[test]
    fn old_outputs_stay_until_they_are_replaced() {
        let room = Room::new("stay");
        fs::write(room.0.join("a.bbl"), "old list").unwrap();
        room.open().unwrap().leave();
        assert_eq!((room.text("a.bbl").as_deref(), room.text("a.blg")), (Some("old list"), None));
        room.open().unwrap().replace(b"new", b"log").unwrap();
        assert_eq!((room.text("a.bbl").as_deref(), room.text("a.blg").as_deref()), (Some("new"), Some("log")));
    }

    #[test]
    fn what_stands_there_is_of_one_run() {
        let room = Room::new("two");
        let (first, second) = (room.open().unwrap(), room.open().unwrap());
        assert!(lock(first.list.file.as_ref().unwrap()));
        let other = thread::spawn(move || second.replace(b"2", b"2"));
        thread::sleep(20 * MOMENT);
        assert_eq!(room.text("a.blg").as_deref(), Some(""));
        first.replace(b"first", b"first").unwrap();
        other.join().unwrap().unwrap();
        assert_eq!((room.text("a.bbl").as_deref(), room.text("a.blg").as_deref()), (Some("2"), Some("2")));
    }

    #[test]
    fn a_run_that_fails_takes_nothing_from_another_one() {
        let room = Room::new("fails");
        let (first, second) = (room.open().unwrap(), room.open().unwrap());
        first.leave();
        second.replace(b"", b"log").unwrap();
        assert_eq!((room.text("a.bbl").as_deref(), room.text("a.blg").as_deref()), (Some(""), Some("log")));
        fs::remove_file(room.0.join("a.bbl")).unwrap();
        fs::remove_file(room.0.join("a.blg")).unwrap();
        let (first, second) = (room.open().unwrap(), room.open().unwrap());
        second.replace(b"", b"log").unwrap();
        first.leave();
        assert_eq!((room.text("a.bbl").as_deref(), room.text("a.blg").as_deref()), (Some(""), Some("log")));
    }

    #[test]
    fn an_output_that_cannot_be_opened_changes_nothing() {
        let room = Room::new("folder");
        fs::create_dir(room.0.join("a.bbl")).unwrap();
        let failure = room.open().unwrap_err();
        assert!(failure.to_string().ends_with("a.bbl can't be written: Is a directory"), "{failure}");
        assert_eq!(room.text("a.blg"), None);
    }

    #[test]
    fn one_file_is_no_two_outputs() {
        let room = Room::new("one");
        fs::write(room.0.join("a.bbl"), "old").unwrap();
        std::os::unix::fs::symlink("a.bbl", room.0.join("a.blg")).unwrap();
        assert!(room.open().unwrap_err().to_string().contains("same file as the log"));
        assert_eq!(room.text("a.bbl").as_deref(), Some("old"));
    }

    #[test]
    fn an_input_is_not_overwritten() {
        let room = Room::new("input");
        fs::write(room.0.join("a.bbl"), "old").unwrap();
        let data = fs::metadata(room.0.join("a.bbl")).unwrap();
        let read = HashSet::from([(data.dev(), data.ino())]);
        let failure = Outputs::open(&room.path("a.bbl"), &room.path("a.blg"), &read).unwrap_err();
        assert!(failure.to_string().contains("the job reads"));
        assert_eq!((room.text("a.bbl").as_deref(), room.text("a.blg")), (Some("old"), None));
    }
}
