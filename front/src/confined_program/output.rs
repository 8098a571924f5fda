//! The list and the log of a job. Before the run they are checked, and stay as they are: the program empties them as it begins to write.

use super::files::look_at;
use super::names::FileName;
use super::stop::Stop;
use super::words::Job;
use crate::exit::words_of;
use crate::system;
use std::fs::{File, Metadata};
use std::io::{Read, Seek, SeekFrom};
use std::os::unix::fs::MetadataExt;
use std::thread;
use std::time::{Duration, SystemTime, UNIX_EPOCH};

/// How long a change of a file may have the same time as the one before: a tick of the system's clock, and more.
const TICK: Duration = Duration::from_millis(20);

/// An output of the job.
pub struct Output {
    name: FileName,
    /// What an earlier run left, and how that was before this run.
    old: Option<(File, Metadata)>,
}

impl Output {
    /// Checks that this file can be written, without a change to it.
    fn check(name: FileName) -> Result<Output, Stop> {
        let refuse = |error| Stop::device(format!("{} can't be written: {}", name.shown(), words_of(&error)));
        if look_at(&name)?.is_none() {
            system::may_make_files().map_err(refuse)?;
            return Ok(Output { name, old: None });
        }
        let mut options = File::options();
        let file = system::no_links(options.read(false).write(true)).open(name.path()).map_err(refuse)?;
        let known = file.metadata().map_err(refuse)?;
        wait_for_another_time(&known);
        Ok(Output { name, old: Some((file, known)) })
    }

    /// Empties what an earlier run left, unless this run has written to it.
    fn empty_what_is_old(&self) {
        if let Some((file, before)) = &self.old
            && file.metadata().is_ok_and(|now| is_unchanged(before, &now))
        {
            // (where that fails, the status says that there is no new list)
            let _ = file.set_len(0);
        }
    }

    /// Whether it is the log of this run, and of one that came to its end. (A file system that keeps whole seconds alone can't show a change within one.)
    pub fn is_of_ended_run(&self) -> bool {
        let is_old = self.old.as_ref().is_some_and(|(file, before)| {
            before.ctime_nsec() != 0 && file.metadata().is_ok_and(|now| is_unchanged(before, &now))
        });
        !is_old && self.last_line().starts_with("Ended: ")
    }

    /// The name for people.
    pub fn shown(&self) -> String {
        self.name.shown()
    }

    /// How many bytes it has now.
    pub fn length(&self) -> u64 {
        std::fs::symlink_metadata(self.name.path()).map_or(0, |known| known.len())
    }

    /// The last line of it, as far as it is within the last bytes.
    pub fn last_line(&self) -> String {
        let text = self.end().unwrap_or_default();
        let text = text.trim_ascii_end();
        let line = text.rsplit(|&byte| byte == b'\n').next().unwrap_or_default();
        String::from_utf8_lossy(line).into_owned()
    }

    /// The last thousand bytes.
    fn end(&self) -> std::io::Result<Vec<u8>> {
        let mut options = File::options();
        let mut file = system::no_links(options.read(true)).open(self.name.path())?;
        let length = file.metadata()?.len();
        file.seek(SeekFrom::Start(length.saturating_sub(1000)))?;
        let mut text = Vec::new();
        file.take(1000).read_to_end(&mut text)?;
        Ok(text)
    }
}

/// Whether a file is as it was.
fn is_unchanged(before: &Metadata, now: &Metadata) -> bool {
    let state = |known: &Metadata| (known.len(), known.ctime(), known.ctime_nsec());
    state(before) == state(now)
}

/// Waits until a change of a file has another time than its last one, which may have been a moment ago.
fn wait_for_another_time(known: &Metadata) {
    let (Ok(seconds), Ok(nanoseconds)) = (u64::try_from(known.ctime()), u32::try_from(known.ctime_nsec())) else {
        return;
    };
    let changed = UNIX_EPOCH + Duration::new(seconds, nanoseconds);
    let ago = SystemTime::now().duration_since(changed).unwrap_or_default();
    thread::sleep(TICK.saturating_sub(ago));
}

/// The outputs of a job.
pub struct Outputs {
    pub list: Output,
    pub log: Output,
}

impl Outputs {
    /// Checks that both can be written, without a change to either.
    pub fn check(job: &Job) -> Result<Outputs, Stop> {
        Ok(Outputs { list: Output::check(job.list()?)?, log: Output::check(job.log()?)? })
    }

    /// Empties what an earlier run left where the system ended this one before it wrote: so no old list stands for its own.
    pub fn empty_what_is_old(&self) {
        self.list.empty_what_is_old();
        self.log.empty_what_is_old();
    }
}
