//! What is said after the messages of a run that came to its end: what no message is about.

use super::{Explainer, MOST_OF_SCENE, shown_path};
use crate::advice::Seen;
use crate::aux_text::cited_keys;
use crate::database::Folded;
use crate::document::{Document, Named};
use crate::hints::{Of, hints};
use crate::shown_line::ShownLine;
use crate::style_read::StyleRead;
use crate::terminal::plain;
use crate::text::Text;
use crate::unsaid::{Unsaid, after_ends};
use std::collections::HashSet;
use std::io::{self, Write};

impl<'a, W: Write> Explainer<'a, W> {
    /// The fields after the end of an entry, of which the run logs nothing.
    pub(super) fn after_ends(&mut self) -> io::Result<()> {
        let (files, terminal) = (self.files, self.page.terminal);
        let (shown, more) = after_ends(self.entries(), files);
        let shown: Vec<(Vec<String>, String)> =
            shown.into_iter().map(|shown| (shown.lines(terminal), shown.advice)).collect();
        if !shown.is_empty() {
            writeln!(self.page.out, "No message is about these fields, which stand after the end of their entry:")?;
        }
        for (lines, advice) in shown {
            self.page.put_lines(&lines)?;
            self.page.put_advice(&advice)?;
        }
        let entries = if more == 1 { "1 more entry has" } else { &format!("{more} more entries have") };
        if more > 0 { self.page.put_place(&format!("({entries} fields after the end)")) } else { Ok(()) }
    }

    /// Lines, and what to do about them.
    fn put_all(&mut self, shown: Vec<(Vec<String>, String)>) -> io::Result<()> {
        shown.iter().try_for_each(|(lines, advice)| {
            self.page.put_lines(lines)?;
            self.page.put_advice_once(advice)
        })
    }

    /// What the run doesn't log of the entries that are cited.
    pub(super) fn unsaid(&mut self) -> io::Result<()> {
        let style = self.sources.style_names();
        let (strings, files, terminal) = (self.known_strings(), self.files, self.page.terminal);
        let document = self.document();
        let lacked_fields = std::mem::take(&mut self.styles.lacked_fields);
        let mut unsaid = Unsaid::new(self.entries(), files, &style, &strings, document.as_ref().as_ref());
        unsaid.leave_out(&lacked_fields);
        let (more, unread) = (unsaid.more(), unsaid.unread());
        let misspelt: Vec<_> = unsaid
            .misspelt()
            .into_iter()
            .map(|(shown, item)| (shown.lines(terminal).into_iter().chain([item]).collect(), shown.advice))
            .collect();
        let mut shown: Vec<(Vec<String>, String)> =
            unsaid.shown().into_iter().map(|shown| (shown.lines(terminal), shown.advice)).collect();
        // (what was said at a message isn't said again)
        shown.retain(|(_, advice)| !self.page.has_given(advice));
        if !shown.is_empty() {
            writeln!(self.page.out, "BibTeX has no message on these, but they may not be meant so:")?;
        }
        self.put_all(shown)?;
        if more > 0 {
            self.page.put_place(&format!("({more} more {} like these)", if more == 1 { "is" } else { "are" }))?;
        }
        unread.map_or(Ok(()), |unread| writeln!(self.page.out, "{unread}"))?;
        self.put_all(misspelt)?;
        let document = document.as_ref().as_ref();
        document.map_or(Ok(()), |document| self.unsaid_of_document(document))?;
        self.all_listed(document)
    }

    /// What no message is about in the style, though the list may be another one by it than is meant.
    pub(super) fn unsaid_of_style(&mut self) -> io::Result<()> {
        let Some((file, bytes)) = self.sources.style().and_then(|file| Some((file, file.bytes.as_deref()?))) else {
            return Ok(());
        };
        let name = plain(shown_path(file));
        let hints = hints(&StyleRead::new(bytes));
        for hint in hints.iter().filter(|hint| matches!(hint.sort, Of::List | Of::Test)).take(MOST_OF_SCENE) {
            self.put_unsaid_of_style(&name)?;
            self.page.put_place(&format!("{name}:{}: {}", hint.line, hint.text))?;
        }
        self.put_unequal()
    }

    /// Begins what is said of a style that no message is about; once.
    pub(super) fn put_unsaid_of_style(&mut self, name: &str) -> io::Result<()> {
        let text = format!("No message is about this, but the list may be wrong by it (`bibtex-lint {name}`):");
        if self.page.said.insert(text.clone()) { writeln!(self.page.out, "{text}") } else { Ok(()) }
    }

    /// What no message is about in the document: a style that doesn't fit its package, and keys that aren't in it any more.
    fn unsaid_of_document(&mut self, document: &Document) -> io::Result<()> {
        let style = self.sources.style().and_then(|file| file.name.strip_suffix(b".bst")).unwrap_or(b"");
        let name = plain(shown_path(&document.file));
        if let Some(number) = document.line_of_unfit_style(style) {
            let line = Text::new(document.file.bytes.as_deref().unwrap_or(b"")).line(number);
            writeln!(self.page.out, "No message is about this, and LaTeX stops at it or prints `?`:")?;
            let lines = ShownLine { name: &name, number, line, mark: None }.lines(self.page.terminal);
            self.page.put_lines(&lines)?;
            let style = plain(style);
            let fit = if ["plain", "unsrt", "abbrv"].contains(&&style[..]) {
                format!("{style}nat")
            } else {
                "plainnat".into()
            };
            self.page.put_advice_once(&Seen::NatbibStyle.with(&[&fit, &style]))?;
        }
        self.named_with_ending(document)?;
        self.cited_since(document)?;
        self.typed_beside_citations(document)?;
        let (mut seen, files) = (HashSet::new(), self.files);
        let new = cited_keys(files).filter(|key| *key != b"*" && seen.insert(Folded(key)));
        let lacked: Vec<&[u8]> = new.filter(|key| document.lacks(key)).collect();
        let entries = self.entries();
        let lacked: Vec<String> =
            lacked.iter().filter(|key| entries.entry(key).is_some()).map(|key| format!("`{}`", plain(key))).collect();
        if lacked.is_empty() {
            return Ok(());
        }
        let dots = if lacked.len() > MOST_OF_SCENE { ", .." } else { "" };
        let shown = lacked[..lacked.len().min(MOST_OF_SCENE)].join(", ");
        writeln!(
            self.page.out,
            "(The `.aux` file cites what isn't in {name}: {shown}{dots}. Run LaTeX again, if they aren't cited any more.)"
        )
    }

    /// A database that the document names with its ending.
    fn named_with_ending(&mut self, document: &Document) -> io::Result<()> {
        let names = document.names(Named::Database);
        let has_ending = |name: &[u8]| name.ends_with(b".bib");
        let Some((name, _)) = names.iter().find(|(name, _)| has_ending(name)) else { return Ok(()) };
        let Some((line, number, place)) = document.place_of(Named::Database, name) else { return Ok(()) };
        let file = plain(shown_path(&document.file));
        writeln!(self.page.out, "This was found, but other programs look for a file of another name:")?;
        let lines = ShownLine { name: &file, number, line, mark: Some(place) }.lines(self.page.terminal);
        self.page.put_lines(&lines)?;
        let stems = names.iter().map(|(name, _)| plain(name.strip_suffix(b".bib").unwrap_or(name)));
        self.page.put_advice_once(&Seen::EndingInName.with(&[&stems.collect::<Vec<_>>().join(",")]))
    }
}
