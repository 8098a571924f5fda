//! Warnings of a style: the entry that each is about, and what of it is lost or misspelt.

use super::{Explainer, between};
use crate::advice::{self, Section, Seen};
use crate::database::Inside;
use crate::entries::Stored;
use crate::lacking;
use crate::log::{Message, Place, Severity};
use crate::missing_entry::{Clue, lost_fields, meant_field};
use crate::repeats::Warnings;
use crate::terminal::plain;
use crate::text::split_first;
use std::io::{self, Write};

/// What to do about two fields of which a style takes one: `can't use both volume and number fields in KEY`.
fn one_of_both(warning: &[u8]) -> Option<String> {
    let (first, second) = split_first(between(warning, b"can't use both ", b" fields in ")?, b" and ")?;
    Some(Seen::OneOfBoth.with(&[&plain(first), &plain(second)]))
}

/// Of how many warnings of a style it is looked for whether their entry shows what was meant.
const MOST_HINTS: u64 = 1_000;

/// What is known of the warnings of a style.
pub(super) struct StyleWarnings<'a> {
    pub(super) equal: Warnings<'a>,
    /// Of how many more warnings it is looked for what was meant.
    hints: u64,
}

impl Default for StyleWarnings<'_> {
    fn default() -> Self {
        StyleWarnings { equal: Warnings::default(), hints: MOST_HINTS }
    }
}

impl<'a, W: Write> Explainer<'a, W> {
    /// Whether a warning of a style only differs from others by the key of an entry, which doesn't show what was meant.
    pub(super) fn is_equal(&mut self, line: &'a [u8], message: &Message<'a>) -> bool {
        let is_of_style = message.severity == Severity::Warning && message.place == Place::Nowhere;
        if !is_of_style || advice::find(&[Section::Aux, Section::Run, Section::Entries], message.text).is_some() {
            return false;
        }
        let Some(key) = self.key_in(message.text) else { return false };
        self.warnings.hints = self.warnings.hints.saturating_sub(1);
        if self.warnings.hints > 0
            && self.origins_of(key, message.text).iter().any(|text| !self.page.said.contains(text))
        {
            return false;
        }
        self.warnings.equal.has(line, message.text, key)
    }

    /// The key of an entry at the end of a warning, or at its beginning.
    pub(super) fn key_in(&mut self, text: &'a [u8]) -> Option<&'a [u8]> {
        let mut words = text.split(u8::is_ascii_whitespace).filter(|word| !word.is_empty());
        let first = words.next()?;
        let last = words.next_back().unwrap_or(first);
        [last, first].into_iter().find(|word| self.entries().entry(word).is_some())
    }

    /// A style's own warning often ends with the entry's key, or begins with it.
    pub(super) fn of_style(&mut self, text: &'a [u8]) -> io::Result<()> {
        let Some(key) = self.key_in(text) else { return Ok(()) };
        self.show_entry("for", key)?;
        if let Some(cause) = self.cause_of(key, text) {
            self.page.said.insert(cause.clone());
            return self.page.put_place(&cause);
        }
        let (places, advice) = self.lost_of(key, text);
        places.iter().try_for_each(|text| self.page.put_place_once(text))?;
        let advice = advice.or_else(|| one_of_both(text));
        advice.map_or(Ok(()), |advice| self.page.put_advice_once(&advice))
    }

    /// What is said of a style's warning: the error above from which it follows, or what of its entry is lost.
    fn origins_of(&mut self, key: &[u8], warning: &[u8]) -> Vec<String> {
        let cause = self.cause_of(key, warning);
        cause.map_or_else(|| self.lost_of(key, warning).0, |cause| vec![cause])
    }

    /// What of an entry is lost, where a style's warning may come from that, and what to do: a field of another name, or text after its end.
    fn lost_of(&mut self, key: &[u8], warning: &[u8]) -> (Vec<String>, Option<String>) {
        let style = self.sources.style_names();
        let entries = self.entries();
        let Some(stored) = entries.entry(key) else { return (Vec::new(), None) };
        let (meant, lost) = (meant_field(&style, stored, warning).unwrap_or_default(), lost_fields(stored));
        let is_seen = meant != Clue::default() || lost.is_some();
        let lacking = if is_seen { None } else { lacking::clue(entries, &style, stored, warning) };
        let lacking = lacking.unwrap_or_default();
        ([meant.place, lost, lacking.place].into_iter().flatten().collect(), meant.advice.or(lacking.advice))
    }

    /// The error above from which a style's warning of this entry follows: the entry wasn't read to its end, or a string of it isn't defined.
    fn cause_of(&mut self, key: &[u8], warning: &[u8]) -> Option<String> {
        let Stored { database, item } = self.entries().entry(key)?;
        if item.fault.is_some() {
            let at = crate::mistakes::line_of(database.file, &database.text, item.end);
            return Some(format!("this may follow from the error above: from {at} on, nothing of the entry is read"));
        }
        let (bytes, inside) = (database.text.bytes, Inside::of(database.text.bytes, item));
        if self.missing.children.contains(&key.to_ascii_lowercase()) {
            return Some("this may follow from the error above: the entry's parent wasn't found".into());
        }
        let of_fields = inside.fields.iter().zip(&inside.values);
        let words = || warning.split(|byte| !byte.is_ascii_alphanumeric() && !b"-_.".contains(byte));
        let named = of_fields.filter(|(field, _)| words().any(|word| field.eq_ignore_ascii_case(word)));
        let values: Vec<&[u8]> = named.map(|(_, value)| &bytes[value.clone()]).collect();
        let name = values.into_iter().find(|value| self.databases.strings.is_undefined(value))?;
        Some(format!("this follows from above: the string `{}` isn't defined", plain(name)))
    }
}
