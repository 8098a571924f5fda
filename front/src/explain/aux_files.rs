//! Messages on `.aux` files: where they stand, and what to do in the document.

use super::{Explainer, MOST_OF_SCENE, between, shown_path};
use crate::advice::{Section, Seen};
use crate::aux_text::{broken_off, cited_keys, not_taken};
use crate::document::{Document, Named, Typed, job_that_includes};
use crate::log::Message;
use crate::shown_line::ShownLine;
use crate::terminal::plain;
use crate::text::{find, split_first};
use std::io::{self, Write};

impl<'a, W: Write> Explainer<'a, W> {
    pub(super) fn in_aux_file(&mut self, message: &Message<'a>) -> io::Result<()> {
        let Some(spot) = self.sources.spot(message) else { return self.advise(&[Section::Aux], message.text) };
        self.page.show_line(&spot)?;
        self.missing.faulty_commands.extend(command_of(spot.line).map(<[u8]>::to_vec));
        self.show_part(message.text)?;
        self.show_named_twice(message.text, spot.line)?;
        let end = self.sources.text(&spot.file.name).map(|text| text.bytes.len() - text.span(spot.number).1);
        let is_last = end == Some(0) && message.text == b"No \"}\"";
        if let Some(broken) = broken_off(self.files).filter(|file| is_last && file.name == spot.file.name) {
            return self.page.put_advice_once(&Seen::AuxBreaksOff.with(&[&plain(shown_path(broken))]));
        }
        if message.text == b"White space in argument" {
            let lost: Vec<String> = not_taken(spot.line).iter().map(|name| format!("`{}`", plain(name))).collect();
            let dots = if lost.len() > MOST_OF_SCENE { ", .." } else { "" };
            let shown = lost[..lost.len().min(MOST_OF_SCENE)].join(", ");
            self.page.put_place(&format!("not taken from this line: {shown}{dots}"))?;
            if let Some(keys) = self.keys_without_commas(spot.line) {
                return self.page.put_advice_once(&Seen::CommasBetweenKeys.with(&[&keys]));
            }
        }
        let advice = self.each_included(message.text).or_else(|| self.other_style(message.text));
        match advice {
            Some(advice) => self.page.put_advice_once(&advice),
            None => self.advise(&[Section::Aux], message.text),
        }
    }

    /// The keys of entries that stand in one citation with whitespace between them, with commas in its place.
    fn keys_without_commas(&mut self, line: &'a [u8]) -> Option<String> {
        let entries = self.entries();
        not_taken(line).into_iter().find_map(|name| {
            let words: Vec<&[u8]> = name.split(u8::is_ascii_whitespace).filter(|word| !word.is_empty()).collect();
            let are_keys = words.len() > 1 && words.iter().all(|word| entries.entry(word).is_some());
            are_keys.then(|| plain(&words.join(&b","[..])))
        })
    }

    /// Which file was looked through for a command, whether it is of another program, and whether it is older than the document; whether it was said what to do.
    pub(super) fn found_no_command(&mut self, text: &[u8]) -> io::Result<bool> {
        let Some(top) = self.files.with_ending(".aux").next() else { return Ok(false) };
        let name = plain(shown_path(top));
        self.page.put_place_once(&format!("{name}: the whole file was read, and those that it includes"))?;
        let is_faulty = between(text, b"I found no ", b" command")
            .is_some_and(|command| self.missing.faulty_commands.contains(command));
        if is_faulty {
            return self.page.put_place("this may follow from the error above: that line wasn't taken").map(|()| true);
        }
        let stem = name.strip_suffix(".aux").unwrap_or(&name);
        let advice = if let Some(broken) = broken_off(self.files) {
            Some(Seen::AuxBreaksOff.with(&[&plain(shown_path(broken))]))
        } else if let Some(whole) = job_that_includes(self.files) {
            Some(of_include(&name, whole))
        } else if self.is_of_biblatex() {
            Some(Seen::OfBiblatex.with(&[stem]))
        } else {
            let document = self.document();
            let document = document.as_ref().as_ref();
            document.and_then(|document| self.typed(document, text).or_else(|| advice_of_document(document, text)))
        };
        advice.map_or(Ok(false), |advice| self.page.put_advice_once(&advice).map(|()| true))
    }

    /// What to do about a document without citations in which keys are typed.
    fn typed(&mut self, document: &Document, error: &[u8]) -> Option<String> {
        let entries = self.entries();
        let typed = document.typed_keys(|key| entries.entry(key).is_some());
        let ((keys, number), more) = typed.split_first()?;
        let (keys, at) = (plain(keys), format!("{}:{number}", plain(shown_path(&document.file))));
        let shown = more.iter().map(|(keys, number)| format!("`[{}]` in line {number}", plain(keys)));
        let (typed, more) = (format!("[{keys}]"), more_typed(shown));
        (error == b"I found no \\citation commands").then(|| Seen::TypedCitation.with(&[&keys, &typed, &at, &more]))
    }

    /// Says of keys that are typed in the document, of entries that are there, that they are no citations.
    pub(super) fn typed_beside_citations(&mut self, document: &Document) -> io::Result<()> {
        let is_nothing_cited = cited_keys(self.files).next().is_none();
        let entries = self.entries();
        let typed = document.typed(|key| entries.entry(key).is_some());
        // (of a document without a citation that was said at the error)
        let Some((first, more)) = typed.split_first().filter(|_| !is_nothing_cited) else { return Ok(()) };
        let names = first.keys.iter().filter_map(|key| Some(entries.entry(key)?.item.key?.name));
        let keys = plain(&names.collect::<Vec<_>>().join(&b","[..]));
        let name = plain(shown_path(&document.file));
        writeln!(self.page.out, "No message is about this, but a citation may be meant:")?;
        let Typed { line, number, place, .. } = *first;
        let lines = ShownLine { name: &name, number, line, mark: Some(place) }.lines(self.page.terminal);
        self.page.put_lines(&lines)?;
        let more = more_typed(more.iter().map(|typed| format!("`{}` in line {}", plain(typed.text), typed.number)));
        let at = format!("{name}:{number}");
        self.page.put_advice_once(&Seen::TypedCitation.with(&[&keys, &plain(first.text), &at, &more]))
    }

    /// Shows the line of the document that reads a part whose `.aux` file isn't there.
    fn show_part(&mut self, error: &[u8]) -> io::Result<()> {
        let part = error.strip_prefix(b"I couldn't open auxiliary file ").and_then(|name| name.strip_suffix(b".aux"));
        let document = self.document();
        let found = document.as_ref().as_ref().and_then(|document| Some((document, document.line_of_part(part?)?)));
        let Some((document, (number, line))) = found else { return Ok(()) };
        let name = plain(shown_path(&document.file));
        let lines = ShownLine { name: &name, number, line, mark: None }.lines(self.page.terminal);
        self.page.put_lines(&lines)
    }

    /// Shows where the document has what an error of the `.aux` file calls another one: a style, a database, or a key in another spelling.
    fn show_named_twice(&mut self, error: &'a [u8], line: &'a [u8]) -> io::Result<()> {
        if let Some((_, key)) =
            error.strip_prefix(b"Case mismatch error between cite keys ").and_then(|keys| split_first(keys, b" and "))
        {
            self.show_in_document(Named::Key, key)?;
            let found =
                self.entries().entry(key).and_then(|stored| Some((stored.database.file, stored.item.key?.name)));
            let Some((file, name)) = found else { return Ok(()) };
            return self.page.put_place(&format!("{} has `{}`", plain(shown_path(file)), plain(name)));
        }
        let named = match error {
            b"Illegal, another \\bibstyle command" => Named::Style,
            b"Illegal, another \\bibdata command" => Named::Database,
            _ => return Ok(()),
        };
        let argument = line.split(|byte| matches!(byte, b'{' | b'}')).nth(1).unwrap_or_default();
        let first = argument.split(|byte| *byte == b',').next().unwrap_or_default();
        self.show_in_document(named, first.trim_ascii()).map(|_| ())
    }

    /// What to do about a second style or database, where several files that are included have some of their own: those are the jobs.
    fn each_included(&self, error: &[u8]) -> Option<String> {
        if ![&b"Illegal, another \\bibstyle command"[..], b"Illegal, another \\bibdata command"].contains(&error) {
            return None;
        }
        let has_list =
            |bytes: &[u8]| [&b"\\bibstyle{"[..], b"\\bibdata{"].iter().all(|word| find(bytes, word).is_some());
        let of_own = self.files.with_ending(".aux").skip(1).filter(|file| file.bytes.as_deref().is_some_and(has_list));
        let jobs: Vec<String> =
            of_own.map(|file| plain(file.name.strip_suffix(b".aux").unwrap_or(&file.name))).collect();
        let dots = if jobs.len() > MOST_OF_SCENE { ", .." } else { "" };
        let shown: Vec<String> = jobs.iter().take(MOST_OF_SCENE).map(|job| format!("`{job}`")).collect();
        (jobs.len() > 1).then(|| Seen::EachIncluded.with(&[&format!("{}{dots}", shown.join(", "))]))
    }

    /// What to do about a second style: which of them is in effect, and where the document names both.
    fn other_style(&mut self, error: &[u8]) -> Option<String> {
        if error != b"Illegal, another \\bibstyle command" {
            return None;
        }
        let document = self.document();
        let document = document.as_ref().as_ref()?;
        let names = document.names(Named::Style);
        let [(first, first_line), .., (last, last_line)] = names[..] else { return None };
        let (path, first, last) = (plain(shown_path(&document.file)), plain(first), plain(last));
        Some(Seen::OtherStyle.with(&[&first, &format!("{path}:{first_line}"), &last, &last_line.to_string()]))
    }

    /// Whether the job is of a document with `biblatex` whose bibliography another program makes.
    fn is_of_biblatex(&self) -> bool {
        let top = self.files.with_ending(".aux").next().and_then(|file| file.bytes.as_deref());
        top.is_some_and(|bytes| find(bytes, b"\\abx@aux@").is_some())
    }
}

/// More typed citations, in words.
fn more_typed(all: impl ExactSizeIterator<Item = String>) -> String {
    let count = all.len();
    let dots = if count > MOST_OF_SCENE { ", .." } else { "" };
    let shown: Vec<String> = all.take(MOST_OF_SCENE).collect();
    if count == 0 { String::new() } else { format!(", and {count} more so: {}{dots}", shown.join(", ")) }
}

/// The command that a line of an `.aux` file begins with.
fn command_of(line: &[u8]) -> Option<&[u8]> {
    let end = line.iter().position(|byte| *byte == b'{')?;
    line.starts_with(b"\\").then(|| &line[..end])
}

/// What to do about an `.aux` file that `\include` has made: the job to run instead, where it is known.
fn of_include(name: &str, whole: Option<Vec<u8>>) -> String {
    let Some(whole) = whole else { return Seen::OfSomeInclude.with(&[name]) };
    let whole = plain(&whole);
    Seen::OfInclude.with(&[whole.strip_suffix(".aux").unwrap_or(&whole), &whole, name])
}

/// What to do about a command that the `.aux` file lacks, by the document: it has the command, or has its neighbour.
fn advice_of_document(document: &Document, error: &[u8]) -> Option<String> {
    let name = plain(shown_path(&document.file));
    let command = match error {
        b"I found no \\bibdata command" => "\\bibliography",
        b"I found no \\bibstyle command" => "\\bibliographystyle",
        _ => return None,
    };
    if let Some(line) = document.line_of(command.as_bytes()) {
        return Some(Seen::OlderAux.with(&[&format!("{name}:{line}"), command]));
    }
    let line = document.line_of(b"\\bibliography").filter(|_| command == "\\bibliographystyle")?;
    Some(Seen::NoStyleInDocument.with(&[&format!("{name}:{line}")]))
}
