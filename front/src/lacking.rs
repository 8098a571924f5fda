//! Fields that a style's warning misses and that nothing else of the entry explains: which ones to add, and to which entry.

use crate::advice::Seen;
use crate::database::{Inside, bare};
use crate::entries::{Entries, Stored};
use crate::explain::begins_item;
use crate::missing_entry::Clue;
use crate::style_read::StyleNames;
use crate::terminal::plain;
use crate::text::{find, split_first};

/// How the warnings of usual styles begin that miss a field, before the names of fields.
const BEGINNINGS: [&[u8]; 5] = [b"empty ", b"missing ", b"to sort, need ", b"there's a ", b"need "];

/// The fields that an entry has, with their values.
fn fields<'a>(stored: Stored<'_, 'a>) -> Vec<(&'a [u8], &'a [u8])> {
    let bytes = stored.database.text.bytes;
    let inside = Inside::of(bytes, stored.item);
    inside.fields.iter().zip(&inside.values).map(|(name, value)| (*name, &bytes[value.clone()])).collect()
}

/// The value of the first field of this name that isn't empty.
fn value_of<'a>(fields: &[(&'a [u8], &'a [u8])], name: &[u8]) -> Option<&'a [u8]> {
    let found = fields.iter().find(|(field, value)| field.eq_ignore_ascii_case(name) && !bare(value).is_empty());
    found.map(|(_, value)| *value)
}

/// The fields that a warning misses, as it names them; none where it is no such warning.
fn missed<'w>(style: &StyleNames<'_>, warning: &'w [u8]) -> Vec<&'w [u8]> {
    let Some(rest) = BEGINNINGS.iter().find_map(|begin| warning.strip_prefix(*begin)) else { return Vec::new() };
    // (`there's a month but no year`: the first name is of a field that is there)
    let rest = if warning.starts_with(b"there's a ") {
        split_first(rest, b" but no ").map_or(&b""[..], |(_, rest)| rest)
    } else {
        rest
    };
    // (`need key or journal for a to crossref p`: what the child can't take from its parent)
    let is_of_parent = warning.starts_with(b"need ") && find(rest, b" to crossref ").is_some();
    let before_entry = if is_of_parent { &b" for "[..] } else { b" in " };
    let names = find(rest, before_entry).map_or(&b""[..], |end| &rest[..end]);
    let words = names.split(|byte| !byte.is_ascii_alphanumeric() && !b"-_.".contains(byte));
    words.filter(|word| !word.is_empty() && style.has_field(word)).collect()
}

/// What is said of an entry of which a style's warning misses fields: what its parent has, and what to add.
pub fn clue(entries: &Entries<'_>, style: &StyleNames<'_>, stored: Stored<'_, '_>, warning: &[u8]) -> Option<Clue> {
    let own = fields(stored);
    let missed = missed(style, warning);
    let names: Vec<&[u8]> = missed.iter().copied().filter(|name| value_of(&own, name).is_none()).collect();
    let first = *names.first()?;
    if let Some(parent) = stored.item.parents.first().and_then(|parent| entries.entry(parent.key)) {
        return of_parent(parent, first);
    }
    let shown: Vec<String> = names.iter().map(|name| format!("`{}`", plain(name))).collect();
    let is_there = own.iter().any(|(field, _)| field.eq_ignore_ascii_case(first));
    let is_part = stored.item.kind.eq_ignore_ascii_case(b"inbook") && names == [&b"chapter"[..], b"pages"];
    let shown = shown.join(" or ");
    let advice = match () {
        () if is_there => Seen::FillField.with(&[&plain(first)]),
        () if is_part => Seen::AddPart.with(&[&shown]),
        () => Seen::AddField.with(&[&shown]),
    };
    Some(Clue { place: None, advice: Some(advice) })
}

/// The same of an entry whose parent doesn't have the field either.
fn of_parent(parent: Stored<'_, '_>, name: &[u8]) -> Option<Clue> {
    let its = fields(parent);
    let item = begins_item(parent.database.file, &parent.database.text, parent.item);
    let missed = plain(name);
    if value_of(&its, name).is_some() {
        return None;
    }
    let title = value_of(&its, b"title").filter(|_| name.eq_ignore_ascii_case(b"booktitle"));
    let (has, advice) = match title {
        Some(title) => ("has `title` and no", Seen::AddBooktitle.with(&[&plain(title)])),
        None => ("has no", Seen::AddToParent.with(&[&missed])),
    };
    Some(Clue { place: Some(format!("its parent {has} `{missed}`: {item}")), advice: Some(advice) })
}

#[cfg(test)]
mod tests {
    use super::*;
    use crate::job::{File, Files};

    fn said(database: &str, warning: &str) -> (Option<String>, Option<String>) {
        let file = File { name: b"d.bib".to_vec(), bytes: Some(database.into()), path: b"./d.bib".to_vec() };
        let files = Files { top: b"a.aux".to_vec(), all: vec![file] };
        let entries = Entries::new(&files);
        let style = StyleNames::new(b"ENTRY {author booktitle chapter key month pages title year}{}{}");
        let clue = clue(&entries, &style, entries.entry(b"k").unwrap(), warning.as_bytes()).unwrap_or_default();
        (clue.place, clue.advice)
    }

    #[test]
    fn the_missing_field_is_named() {
        let advice = |database: &str, warning: &str| said(database, warning).1.unwrap_or_default();
        assert_eq!(advice("@misc{k}", "empty year in k"), "add `year` to the entry");
        assert_eq!(advice("@misc{k, year = {}}", "empty year in k"), Seen::FillField.with(&["year"]));
        assert_eq!(advice("@misc{k, month = jan}", "there's a month but no year in k"), "add `year` to the entry");
        assert_eq!(advice("@misc{k}", "to sort, need author or key in k"), "add `author` or `key` to the entry");
        let part = Seen::AddPart.with(&["`chapter` or `pages`"]);
        assert_eq!(advice("@inbook{k}", "empty chapter and pages in k"), part);
        let of_parent = "need author, key, or booktitle for a to crossref k";
        assert_eq!(advice("@misc{k}", of_parent), "add `author` or `key` or `booktitle` to the entry");
        assert_eq!(advice("@misc{k, key = {K}}", "need key in k"), "");
        for warning in ["can't use both author and key in k", "year in k", "empty in k", "empty year"] {
            assert_eq!(advice("@misc{k}", warning), "", "{warning}");
        }
    }

    #[test]
    fn a_parent_has_no_booktitle() {
        let database = "@misc{k, crossref = {p}}\n@book{p, title = {The T}}";
        let (place, advice) = said(database, "empty booktitle in k");
        let parent = "@book{p}, which begins at d.bib:2";
        assert_eq!(place, Some(format!("its parent has `title` and no `booktitle`: {parent}")));
        assert_eq!(advice, Some(Seen::AddBooktitle.with(&["{The T}"])));
        let (place, advice) = said(database, "empty year in k");
        assert_eq!(place, Some(format!("its parent has no `year`: {parent}")));
        assert_eq!(advice, Some(Seen::AddToParent.with(&["year"])));
    }
}
