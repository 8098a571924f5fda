//! The kinds of messages: a stable name for each row of the tables of messages in `docs/RULES.md`, for programs.

use crate::advice::{self, Section};
use crate::log::{Message, Place, Severity};

/// The kind of the warnings that a style makes by `warning$`.
pub const STYLE_WARNING: &str = "style-warning";
/// The kind of an error that no table has. There is none.
const OTHER: &str = "other";

/// The kinds of the rows of the advice, in their order. Messages that stand together in a row of `docs/RULES.md` have one kind.
const KINDS: [&str; 80] = [
    // .aux files
    "argument-whitespace",
    "argument-unclosed",
    "argument-trailing",
    "bibdata-repeated",
    "bibstyle-repeated",
    "key-case",
    "all-entries-repeated",
    "auxiliary-extension",
    "auxiliary-repeated",
    "auxiliary-missing",
    "database-repeated",
    "citation-missing",
    "bibdata-missing",
    "bibstyle-missing",
    // a run
    "style-missing",
    "database-missing",
    "budget-spent",
    "limit-literals",
    "limit-calls",
    "limit-loops",
    "limit-string",
    "limit-file",
    "limit-files",
    "top-file-missing",
    // the text of a style
    "command-missing",
    "command-unknown",
    "style-brace-missing",
    "style-brace-missing",
    "style-name-missing",
    "name-repeated",
    "function-unknown",
    "integer-illegal",
    "literal-trailing",
    "literal-unclosed",
    "command-repeated",
    "command-repeated",
    "command-before-read",
    "command-before-read",
    "command-before-read",
    "command-before-read",
    "read-before-entry",
    "macro-after-read",
    "macro-quote-missing",
    "style-end",
    // the execution of a style
    "stack-empty",
    "operand-kind",
    "operand-kind",
    "operand-kind",
    "operand-kind",
    "operands-differ",
    "integer-overflow",
    "assignment-target",
    "current-entry-missing",
    "code-illegal",
    "character-illegal",
    "case-conversion-illegal",
    "name-number",
    "name-comma-at-end",
    "name-commas",
    "format-illegal",
    "stack-left",
    "string-cut",
    // the text of a database
    "name-missing",
    "opening-missing",
    "comma-missing",
    "comma-missing",
    "equals-missing",
    "closing-missing",
    "closing-missing",
    "value-missing",
    "braces-unbalanced",
    "database-end",
    "entry-repeated",
    // entries
    "parent-missing",
    "parent-nested",
    "entry-missing",
    "field-repeated",
    "type-unknown",
    "string-undefined",
    "string-in-itself",
];

/// The kind of a message. Of a warning it has to be known that READ logs it, since a style may print the same.
pub fn kind_of(message: &Message<'_>) -> &'static str {
    let sections: &[Section] = match (message.place, message.severity) {
        (Place::Line { file, .. }, _) if file.ends_with(b".aux") => &[Section::Aux],
        (Place::Line { file, .. }, _) if file.ends_with(b".bst") => &[Section::Style],
        (Place::Execution { .. }, _) => &[Section::Execution],
        (Place::Line { .. }, Severity::Error) => &[Section::Database],
        (_, Severity::Warning) => &[Section::Entries],
        (Place::Nowhere, Severity::Error) => &[Section::Aux, Section::Run, Section::Entries],
    };
    let other = if message.severity == Severity::Warning { STYLE_WARNING } else { OTHER };
    kind_in(sections, message.text).unwrap_or(other)
}

/// The kind of the last line of a log, of which this is the beginning: `Ended: limit calls`.
pub fn kind_of_end(text: &[u8]) -> &'static str {
    kind_in(&[Section::Run], text).unwrap_or(OTHER)
}

fn kind_in(sections: &[Section], text: &[u8]) -> Option<&'static str> {
    KINDS.get(advice::find(sections, text)?.number).copied()
}

#[cfg(test)]
mod tests {
    use super::*;
    use crate::log::message_of;

    #[test]
    fn each_row_has_a_kind() {
        assert_eq!(KINDS.len(), advice::rows().len());
    }

    #[test]
    fn kinds_of_one_text_differ_by_their_place() {
        let kind = |line: &str| kind_of(&message_of(line.as_bytes()).unwrap());
        assert_eq!(kind("Error--I was expecting a name--line 1 of file s.bst"), "style-name-missing");
        assert_eq!(kind("Error--I was expecting a name--line 1 of file d.bib"), "name-missing");
        assert_eq!(kind("Error--\"a\nb\" is not an integer while executing + for entry k"), "operand-kind");
        assert_eq!(kind("Error--I couldn't open style file s.bst"), "style-missing");
        assert_eq!(kind("Warning--string name \"x\" is undefined--line 1 of file d.bib"), "string-undefined");
        assert_eq!(kind("Warning--string of 9 bytes cut to 2 while executing := for entry k"), "string-cut");
        assert_eq!(kind("Warning--empty title in k"), STYLE_WARNING);
        assert_eq!(kind_of_end(b"Ended: limit calls"), "limit-calls");
    }
}
