//! Messages on what was not found: entries, parents, and files.

use super::{Explainer, between, missing_key, shown_path};
use crate::advice::{Section, Seen};
use crate::document::Named;
use crate::log::Message;
use crate::search::path_of;
use crate::shown_line::ShownLine;
use crate::sources::Spot;
use crate::terminal::plain;
use crate::text::split_first;
use crate::{beside, missing_entry};
use std::collections::HashSet;
use std::io::{self, Write};

/// What is said of a line of an `.aux` file that isn't what an author edits.
const OF_CITE: &str = "(LaTeX writes this line for a `\\cite` in the document)";

/// What is known of entries that weren't found.
#[derive(Default)]
pub(super) struct Missing {
    /// How many keys have no entry since a database isn't there or has none.
    lost_keys: u64,
    /// Whether it was said of a file that wasn't found what its name is meant to be.
    is_renamed: bool,
    /// The entries whose parents weren't found.
    pub(super) children: HashSet<Vec<u8>>,
    /// The parents that weren't found, of which it was said where they may be.
    parents: HashSet<Vec<u8>>,
    /// The commands of the lines of `.aux` files that a message was about.
    pub(super) faulty_commands: HashSet<Vec<u8>>,
}

impl<'a, W: Write> Explainer<'a, W> {
    /// Whether a message is about a key without an entry of which no more can be said than of one before. Then it is counted.
    pub(super) fn is_lost(&mut self, message: &Message<'a>) -> bool {
        let Some(key) = missing_key(message.text) else { return false };
        let files = self.files;
        let is_lost = missing_entry::is_lost(self.entries(), files, key);
        self.missing.lost_keys += u64::from(is_lost);
        is_lost && self.missing.lost_keys > 1
    }

    /// What is said of the keys that were counted; once.
    pub(super) fn texts_of_lost(&mut self) -> Vec<String> {
        let (count, files) = (std::mem::take(&mut self.missing.lost_keys), self.files);
        let lost = missing_entry::lost(self.entries(), files);
        let place = lost.and_then(|clue| clue.place.clone()).filter(|_| count > 1);
        let keys =
            if count == 2 { "1 more key has".into() } else { format!("{} more keys have", count.saturating_sub(1)) };
        let place = place.map(|place| if count == 2 { place } else { place.replacen("it may", "they may", 1) });
        place.iter().map(|place| format!("({keys} no entry: {place})")).collect()
    }

    /// Says more of a message without a place; whether it was said what to do.
    pub(super) fn unplaced(&mut self, message: &Message<'a>) -> io::Result<bool> {
        let text = message.text;
        if let Some(spot) = self.sources.spot(message) {
            self.show_named_file(&spot, text)?;
            let meant = beside::meant(text, self.files);
            meant.map_or(Ok(()), |meant| self.page.put_place(&meant))?;
            let advice = self.folder_of_job(text).or_else(|| self.older_names(text));
            let advice = advice.or_else(|| missing_entry::empty_name(self.files).filter(|_| text.ends_with(b" .bib")));
            let advice = advice.or_else(|| self.other_database(text, spot.line));
            self.missing.is_renamed |= advice.is_some();
            return advice.map_or(Ok(false), |advice| self.page.put_advice_once(&advice).map(|()| true));
        }
        if let Some(child) = between(text, b"A bad cross reference--entry \"", b"\" refers to entry \"") {
            return self.bad_parent(child, text);
        }
        let child = between(text, b"you've nested cross references--entry \"", b"\" refers to entry \"");
        if let Some(key) = child {
            return self.show_entry("for", key).map(|_| false);
        }
        if text.starts_with(b"I found no ") {
            return self.found_no_command(text);
        }
        self.of_style(text).map(|()| false)
    }

    /// What to do about a file that stands beside the `.aux` file, where the job is run from another folder.
    fn folder_of_job(&self, message: &[u8]) -> Option<String> {
        let slash = self.files.top.iter().rposition(|byte| *byte == b'/')?;
        let (folder, top) = (&self.files.top[..slash], &self.files.top[slash + 1..]);
        let (_, name) = named_file(message)?;
        let is_there = path_of(&[folder, b"/", name].concat()).is_file();
        let variable = if name.ends_with(b".bst") { "BSTINPUTS" } else { "BIBINPUTS" };
        let job = plain(top.strip_suffix(b".aux").unwrap_or(top));
        is_there.then(|| Seen::InFolderOfJob.with(&[&plain(folder), &plain(name), &job, variable]))
    }

    /// What to do about a database whose name is likely to be another one: the command as it is meant.
    fn other_database(&self, message: &[u8], line: &[u8]) -> Option<String> {
        let (_, name) = named_file(message).filter(|(named, _)| *named == Named::Database)?;
        let meant = beside::database_meant(name, self.files)?;
        let names = between(line, b"\\bibdata{", b"}")?.split(|byte| *byte == b',');
        let stem = name.strip_suffix(b".bib")?;
        let names: Vec<&[u8]> = names.map(|its| if its == stem || its == name { &meant[..] } else { its }).collect();
        Some(Seen::OtherDatabase.with(&[&plain(&names.join(&b","[..])), &plain(name)]))
    }

    /// What to do about a file that the document doesn't name any more.
    fn older_names(&mut self, message: &[u8]) -> Option<String> {
        let (named, name) = named_file(message)?;
        let document = self.document();
        let document = document.as_ref().as_ref()?;
        let names = document.names(named);
        let (_, number) = *names.first()?;
        let stem = name.get(..name.len() - ENDING)?;
        let is_named = names.iter().any(|(its, _)| *its == name || *its == stem);
        let all: Vec<&[u8]> = names.iter().map(|(name, _)| *name).collect();
        let command = if named == Named::Style { "bibliographystyle" } else { "bibliography" };
        let command = format!("\\{command}{{{}}}", plain(&all.join(&b","[..])));
        let at = format!("{}:{number}", plain(shown_path(&document.file)));
        (!is_named).then(|| Seen::OlderNames.with(&[&at, &command]))
    }

    /// Says of a parent that wasn't found where it may be. The run logs a second message about it, of which nothing more is said then.
    fn bad_parent(&mut self, child: &'a [u8], text: &'a [u8]) -> io::Result<bool> {
        self.show_entry("for", child)?;
        self.missing.children.insert(child.to_ascii_lowercase());
        let Some((_, parent)) = bad_reference(text) else { return Ok(false) };
        // (a run that says so has read the child)
        if self.entries().is_empty() {
            return Ok(false);
        }
        let (files, document) = (self.files, self.document());
        let clue = missing_entry::clue(self.entries(), files, document.as_ref().as_ref(), parent);
        self.missing.parents.insert(parent.to_ascii_lowercase());
        let is_nowhere = clue.place.is_none() && self.entries().entry(parent).is_none();
        clue.place.map_or(Ok(()), |place| self.page.put_place(&place))?;
        let absent = || is_nowhere.then(|| Seen::NoParent.with(&[&plain(parent)]));
        let Some(advice) = clue.advice.or_else(absent) else { return Ok(false) };
        self.page.put_advice_once(&advice).map(|()| true)
    }

    /// Says of an entry that wasn't found where its key is named, where the entry may be, and what to do.
    pub(super) fn missing_entry(&mut self, key: &'a [u8], text: &[u8]) -> io::Result<()> {
        self.cited(key)?;
        if self.missing.parents.contains(&key.to_ascii_lowercase()) {
            return Ok(());
        }
        let (files, document) = (self.files, self.document());
        let clue = missing_entry::clue(self.entries(), files, document.as_ref().as_ref(), key);
        clue.place.map_or(Ok(()), |place| self.page.put_place(&place))?;
        let is_of_name = missing_entry::lost_database(files).is_some() && self.missing.is_renamed;
        match clue.advice {
            // (what to do about the database's name was said above)
            Some(advice) if is_of_name && advice.starts_with("look for ") => Ok(()),
            Some(advice) => self.page.put_advice_once(&advice),
            None => self.advise(&[Section::Entries], text),
        }
    }

    /// Where the document names a key, a database or a style; whether that was found.
    pub(super) fn show_in_document(&mut self, named: Named, name: &[u8]) -> io::Result<bool> {
        let document = self.document();
        let found = document.as_ref().as_ref().and_then(|document| Some((document, document.place_of(named, name)?)));
        let Some((document, (line, number, place))) = found else { return Ok(false) };
        let name = plain(shown_path(&document.file));
        let lines = ShownLine { name: &name, number, line, mark: Some(place) }.lines(self.page.terminal);
        self.page.put_lines(&lines).map(|()| true)
    }

    /// The line of the document that names a file which wasn't found, or else that of the `.aux` file.
    fn show_named_file(&mut self, spot: &Spot<'a>, message: &[u8]) -> io::Result<()> {
        let (named, whole) = named_file(message).unwrap_or((Named::Database, b""));
        let stem = &whole[..whole.len().saturating_sub(ENDING)];
        if self.show_in_document(named, stem)? || self.show_in_document(named, whole)? {
            return Ok(());
        }
        self.page.show_line(spot)
    }

    /// Where a key is cited, or named as a parent.
    fn cited(&mut self, key: &'a [u8]) -> io::Result<()> {
        if self.sources.names().key(key).is_some() && self.show_in_document(Named::Key, key)? {
            return Ok(());
        }
        if let Some(named) = self.sources.names().key(key) {
            let Some(spot) = self.sources.spot_of_name(named, key.len()) else { return Ok(()) };
            self.page.show_line(&spot)?;
            return self.page.put_place_once(OF_CITE);
        }
        let Some((database, end)) = self.entries().parent(key) else { return Ok(()) };
        let (file, number) = (database.file, database.text.line_of(end.saturating_sub(1)));
        let line = database.text.line(number);
        self.page.show_line(&Spot { file, number, line, part: None, item: None })
    }
}

/// How many bytes the ending of a database or a style has.
const ENDING: usize = 4;

/// The database or the style that a message says wasn't found.
fn named_file(message: &[u8]) -> Option<(Named, &[u8])> {
    let database = message.strip_prefix(b"I couldn't open database file ").map(|name| (Named::Database, name));
    database.or_else(|| message.strip_prefix(b"I couldn't open style file ").map(|name| (Named::Style, name)))
}

/// The child and the parent of the message on a parent that isn't there.
fn bad_reference(text: &[u8]) -> Option<(&[u8], &[u8])> {
    let rest = text.strip_prefix(b"A bad cross reference--entry \"")?;
    let (child, rest) = split_first(rest, b"\" refers to entry \"")?;
    Some((child, rest.strip_suffix(b"\", which doesn't exist")?))
}
