//! The look at the job's inputs, before the run: each name that the job gives is one of this folder, and each file is an ordinary one and not
//! too long. What can't be measured is refused; what isn't there, or may not be read, is missing to the program too.

use super::limits::{Limits, bytes};
use super::names::{FileName, names_in};
use super::stop::Stop;
use super::watch::Watch;
use super::words::Request;
use crate::exit::Status;
use crate::exit::words_of;
use crate::job::why_missing;
use crate::system;
use std::collections::HashSet;
use std::fs::{self, File, Metadata};
use std::io::{self, ErrorKind, Read};

/// Whether an error says that there is no such file, or can't be one of this name.
pub fn is_absent(error: &io::Error) -> bool {
    matches!(error.kind(), ErrorKind::NotFound | ErrorKind::InvalidFilename | ErrorKind::InvalidInput)
}

/// Why a file can't be looked at or opened that may be there: something else stands in its place now, or the machine fails.
fn unopened(name: &FileName, what: &str, error: &io::Error) -> Stop {
    let reason = format!("{} can't be {what}: {}", name.shown(), words_of(error));
    match error.kind() {
        ErrorKind::OutOfMemory => Stop::new(Status::Memory as u8, reason),
        _ if why_missing(error).is_some() => Stop::refused(reason),
        _ => Stop::device(reason),
    }
}

/// What is known of the file of this name, which is an ordinary one; none if it isn't there.
pub fn look_at(name: &FileName) -> Result<Option<Metadata>, Stop> {
    let known = match fs::symlink_metadata(name.path()) {
        Ok(known) => known,
        Err(error) if is_absent(&error) => return Ok(None),
        Err(error) => return Err(unopened(name, "looked at", &error)),
    };
    if known.is_symlink() {
        return Err(Stop::refused(format!("{} is a link", name.shown())));
    }
    if !known.is_file() {
        return Err(Stop::refused(format!("{} is no ordinary file", name.shown())));
    }
    Ok(Some(known))
}

/// Refuses a file of `length` bytes that doesn't have less than `most` KB.
fn check_length(name: &FileName, length: u64, most: u64) -> Result<(), Stop> {
    if length < bytes(most) {
        return Ok(());
    }
    Err(Stop::refused(format!("{} has {most} KB or more", name.shown())))
}

/// The bytes of an `.aux` file; none if it may not be read.
fn read_aux(name: &FileName, limits: &Limits) -> Result<Option<Vec<u8>>, Stop> {
    let mut options = File::options();
    let file = match system::no_links(options.read(true)).open(name.path()) {
        Ok(file) => file,
        Err(error) if is_absent(&error) || error.kind() == ErrorKind::PermissionDenied => return Ok(None),
        Err(error) => return Err(unopened(name, "opened", &error)),
    };
    let mut text = Vec::new();
    if let Err(error) = file.take(bytes(limits.aux)).read_to_end(&mut text) {
        return Err(Stop::device(format!("{} can't be read: {}", name.shown(), words_of(&error))));
    }
    check_length(name, text.len() as u64, limits.aux)?;
    Ok(Some(text))
}

/// The files that were named so far.
struct Named {
    seen: HashSet<FileName>,
    waiting: Vec<FileName>,
}

impl Named {
    /// Takes the names of an `.aux` file. A name that is longer than any file's is left out.
    fn take(&mut self, text: &[u8], limits: &Limits) -> Result<(), Stop> {
        for name in names_in(text) {
            let name = FileName::check(&name)?;
            if !name.is_short() || self.seen.contains(&name) {
                continue;
            }
            if self.seen.len() as u64 == limits.names {
                return Err(Stop::refused(format!("the .aux files name more than {} files", limits.names)));
            }
            self.seen.insert(name.clone());
            self.waiting.push(name);
        }
        Ok(())
    }

    /// Looks at a file, and through it if it is an `.aux` file. The answer is whether it can be read.
    fn look_through(&mut self, name: &FileName, limits: &Limits) -> Result<bool, Stop> {
        let Some(known) = look_at(name)? else {
            return Ok(false);
        };
        if !name.is_aux() {
            check_length(name, known.len(), limits.input)?;
            return Ok(true);
        }
        check_length(name, known.len(), limits.aux)?;
        match read_aux(name, limits)? {
            Some(text) => self.take(&text, limits).map(|()| true),
            None => Ok(false),
        }
    }
}

/// Checks the top `.aux` file, and all files that are named from there.
pub fn check_inputs(request: &Request, watch: &Watch) -> Result<(), Stop> {
    let mut named = Named { seen: HashSet::new(), waiting: Vec::new() };
    let top = request.job.top()?;
    if !named.look_through(&top, &request.limits)? {
        let status = Status::Limit as u8;
        return Err(Stop::new(status, format!("I couldn't open file name `{}'{}", top.shown(), request.job.hint())));
    }
    while let Some(name) = named.waiting.pop() {
        watch.check()?;
        if name != top {
            named.look_through(&name, &request.limits)?;
        }
    }
    Ok(())
}
