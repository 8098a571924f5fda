//! What no message is about besides entries and the style's text: a document that cites more than its `.aux` file, a list of all entries, and one whose longest label is empty.

use super::{Explainer, MOST_OF_SCENE, shown_path};
use crate::advice::Seen;
use crate::aux_text::cited_keys;
use crate::code_places::{Code, Declared};
use crate::database::Folded;
use crate::document::{Document, Named};
use crate::shown_line::ShownLine;
use crate::style_text::Kind;
use crate::terminal::plain;
use crate::text::{Text, find};
use std::collections::HashSet;
use std::io::{self, Write};

/// How a list begins whose longest label is empty.
const WITHOUT_LABEL: &[u8] = b"\\begin{thebibliography}{}";

impl<'a, W: Write> Explainer<'a, W> {
    /// The keys that are cited by their names, and whether all entries are.
    fn cited_by_name(&self) -> (HashSet<Folded<'a>>, bool) {
        let files = self.files;
        let mut keys: HashSet<Folded<'a>> = cited_keys(files).map(Folded).collect();
        let has_all = keys.remove(&Folded(b"*"));
        (keys, has_all)
    }

    /// Says of a document that is newer than its `.aux` file which entries it cites that this one doesn't have.
    pub(super) fn cited_since(&mut self, document: &Document) -> io::Result<()> {
        let (cited, has_all) = self.cited_by_name();
        let Some(top) = self.files.with_ending(".aux").next().filter(|_| !has_all) else { return Ok(()) };
        let is_new = |key: &[u8]| !cited.contains(&Folded(key));
        let keys = document.names(Named::Key);
        let entries = self.entries();
        let new: Vec<&[u8]> = keys
            .into_iter()
            .map(|(key, _)| key)
            .filter(|key| is_new(key) && *key != b"*" && entries.entry(key).is_some())
            .collect();
        let Some(first) = new.first().filter(|_| document.is_newer_than(&top.path)) else { return Ok(()) };
        let (name, aux) = (plain(shown_path(&document.file)), plain(shown_path(top)));
        writeln!(self.page.out, "No message is about this, since {aux} is older than {name}:")?;
        for key in new.iter().take(MOST_OF_SCENE) {
            let Some((line, number, place)) = document.place_of(Named::Key, key) else { continue };
            let lines = ShownLine { name: &name, number, line, mark: Some(place) }.lines(self.page.terminal);
            self.page.put_lines(&lines)?;
        }
        let more = new.len().saturating_sub(MOST_OF_SCENE);
        if more > 0 {
            self.page.put_place(&format!("({more} more are cited there)"))?;
        }
        self.page.put_advice_once(&Seen::RunOlderAux.with(&[&name, &aux, &plain(first)]))
    }

    /// Says that all entries are listed, where some are cited by name as well.
    pub(super) fn all_listed(&mut self, document: Option<&Document>) -> io::Result<()> {
        let (cited, has_all) = self.cited_by_name();
        if !has_all || cited.is_empty() {
            return Ok(());
        }
        let in_document = document.and_then(|document| {
            let (_, number, _) = document.place_of(Named::Key, b"*")?;
            Some((shown_path(&document.file).to_vec(), number))
        });
        let in_aux = self.sources.names().key(b"*").map(|named| (shown_path(named.file).to_vec(), named.number));
        let Some((path, number)) = in_document.or(in_aux) else { return Ok(()) };
        let entries = self.entries();
        let others =
            entries.each().filter(|stored| stored.item.key.is_none_or(|key| !cited.contains(&Folded(key.name))));
        match others.count() {
            0 => Ok(()),
            count => writeln!(
                self.page.out,
                "(The list has all entries by `\\nocite{{*}}`, {}:{number}: {count} that nothing else cites.)",
                plain(&path)
            ),
        }
    }

    /// Says of a list with labels whose longest one is empty which variable of the style has it, and where that is assigned.
    pub(super) fn empty_label(&mut self) -> io::Result<()> {
        if find(self.list, WITHOUT_LABEL).is_none() || find(self.list, b"\\bibitem").is_none() {
            return Ok(());
        }
        let Some((file, bytes)) = self.sources.style().and_then(|file| Some((file, file.bytes.as_deref()?))) else {
            return Ok(());
        };
        let (name, code) = (plain(shown_path(file)), Code::new(bytes));
        let Some((variable, written)) = variable_of_label(&code) else { return Ok(()) };
        let is_filled = |place: &usize| place.checked_sub(2).is_some_and(|value| code.of(value) != b"\"\"");
        let assigned = code.assignments_to(variable).iter().copied().filter(is_filled);
        let lines: Vec<String> = assigned.take(MOST_OF_SCENE).map(|place| code.line(place).to_string()).collect();
        let (variable, line) = (plain(variable), code.line(written));
        let advice = match lines.is_empty() {
            true => format!("assign the longest label to `{variable}`: nothing in {name} does"),
            false => format!(
                "see why no entry comes to where `{variable}` gets a label ({name}, line {}), such as a test before that",
                lines.join(", line ")
            ),
        };
        writeln!(self.page.out, "No message is about this, and LaTeX sets the labels into the margin:")?;
        self.page.put_place("the list begins with `\\begin{thebibliography}{}`, without the longest label")?;
        let source = Text::new(bytes);
        let lines =
            ShownLine { name: &name, number: line, line: source.line(line), mark: None }.lines(self.page.terminal);
        self.page.put_lines(&lines)?;
        self.page.put_advice(&advice)
    }
}

/// The variable that a style writes after `\begin{thebibliography}{`, and its token.
fn variable_of_label<'a>(code: &Code<'a>) -> Option<(&'a [u8], usize)> {
    let is_before = |at: &usize| {
        code.kind(*at) == Kind::Text
            && code.of(*at).ends_with(&[&WITHOUT_LABEL[..WITHOUT_LABEL.len() - 1], b"\""].concat())
    };
    let mut after = (0..code.count().saturating_sub(1)).filter(is_before).map(|at| at + 1);
    let is_text = |at: &usize| matches!(code.declared(code.of(*at)), Some(Declared::Text { .. }));
    after.find(is_text).map(|at| (code.of(at), at))
}
