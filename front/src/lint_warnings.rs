//! What the checker notes of a style that isn't known to be clean, read: `library/btx.3` says the form of its notes.

use crate::notes::{Spot, command, number, spot, word};

/// What a run may log there.
#[derive(Debug, Clone, Copy, PartialEq, Eq, Hash)]
pub enum Fault {
    EmptyStack,
    WrongKind,
    Incomparable,
    NotAssignable,
    NoEntry,
    LeftOver,
}

impl Fault {
    /// The fault of a word of the notes.
    fn of(word: &[u8]) -> Option<Fault> {
        FAULTS.iter().find(|(_, name)| name.as_bytes() == word).map(|(fault, _)| *fault)
    }

    /// Its word.
    pub fn word(self) -> &'static str {
        FAULTS.iter().find(|(fault, _)| *fault == self).map_or("", |(_, name)| name)
    }

    /// The fault of a message of a log with this text.
    pub fn of_message(text: &[u8]) -> Option<Fault> {
        FAULTS.iter().map(|(fault, _)| *fault).find(|fault| fault.has_message(text))
    }

    /// Whether a message of a log with this text is of this fault.
    pub fn has_message(self, text: &[u8]) -> bool {
        let ends = |end: &str| text.ends_with(end.as_bytes());
        match self {
            Fault::EmptyStack => text == b"You can't pop an empty literal stack",
            Fault::WrongKind => KINDS.iter().any(|kind| ends(kind)),
            Fault::Incomparable => text == b"= needs two integers or two strings",
            Fault::NotAssignable => text.starts_with(b"You can't assign to "),
            Fault::NoEntry => text == b"You can't mess with entries here",
            Fault::LeftOver => text == b"The literal stack isn't empty",
        }
    }
}

const FAULTS: &[(Fault, &str)] = &[
    (Fault::EmptyStack, "stack"),
    (Fault::WrongKind, "kind"),
    (Fault::Incomparable, "equal"),
    (Fault::NotAssignable, "variable"),
    (Fault::NoEntry, "entry"),
    (Fault::LeftOver, "left"),
];

const KINDS: [&str; 4] =
    [" is not an integer", " is not a string", " is not a function", " is not a string or missing field"];

/// What an operand may be.
#[derive(Debug, Clone, PartialEq, Eq)]
pub enum Value {
    Any,
    /// An integer with these bounds, where they are known.
    Integer(Option<i64>, Option<i64>),
    /// A missing field, the empty string, whitespace alone, another string: the letters of `mewf` say which of these.
    Text(Vec<u8>),
    Function(Vec<u8>),
}

/// In words, a string of one of these classes.
pub fn text_of_classes(classes: &[u8]) -> &'static str {
    match classes {
        b"m" => "a missing field",
        _ if classes.contains(&b'm') => "a string or a missing field",
        _ => "a string",
    }
}

/// What a function wants.
#[derive(Debug, Clone, Copy, PartialEq, Eq)]
pub enum Wanted {
    Integer,
    Text,
    TextOrMissing,
    Function,
}

/// The operand that is the reason of a warning.
#[derive(Debug, Clone, PartialEq, Eq)]
pub struct Operand {
    /// How many literals stand above it.
    pub position: usize,
    pub value: Value,
    pub wanted: Option<Wanted>,
    /// Whose value it is: whether that is a field, and its name.
    pub owner: Option<(bool, Vec<u8>)>,
}

/// Where a style may go wrong.
#[derive(Debug, Clone, Default, PartialEq, Eq)]
pub struct Warning {
    pub fault: Option<Fault>,
    /// Whether it can be the first fault of a visit.
    pub is_first: bool,
    /// What is executed there; of literals that are left the command's function.
    pub next: Vec<u8>,
    /// How many literals are on the stack.
    pub depth: Option<usize>,
    pub operand: Option<Operand>,
    /// The field that may be missing where a string is wanted, or something to compare. One that stands for a number is wrong whether it is missing or not.
    pub missing: Option<Vec<u8>>,
    /// The command.
    pub item: Option<Spot>,
    /// The token, and those that called, the innermost first.
    pub places: Vec<Spot>,
    /// The types of entries for which it was met; the empty name stands for one that the style doesn't know.
    pub types: Vec<Vec<u8>>,
    /// The fields that have more than whitespace there, and those that are missing or blank.
    pub given: Vec<Vec<u8>>,
    pub blank: Vec<Vec<u8>>,
}

impl Warning {
    /// Where it is met: the token, or the command.
    pub fn spot(&self) -> Option<&Spot> {
        self.places.first().or(self.item.as_ref())
    }

    /// The line, or 0 where it isn't known.
    pub fn line(&self) -> usize {
        self.spot().map_or(0, |spot| spot.call.line)
    }

    /// Whether a string is wanted, or a string or a number, as far as that is known.
    fn may_want_text(&self) -> bool {
        let wanted = self.operand.as_ref().and_then(|operand| operand.wanted);
        !matches!(wanted, Some(Wanted::Integer | Wanted::Function))
    }

    /// Takes a line of its block.
    fn add(&mut self, word: &[u8], rest: &[u8], style: &[u8]) {
        match word {
            b"next" => self.next = rest.to_vec(),
            b"depth" => self.depth = number(rest).map(|(depth, _)| depth),
            b"operand" => self.operand = operand(rest),
            b"missing" => self.missing = Some(rest.to_vec()).filter(|_| self.may_want_text()),
            b"item" => self.item = command(rest, style),
            b"at" | b"from" => self.places.extend(spot(rest, style, false)),
            b"type" => self.types.push(rest.to_vec()),
            b"given" => self.given.push(rest.to_vec()),
            b"blank" => self.blank.push(rest.to_vec()),
            b"wants" | b"name" => {
                if let Some(operand) = &mut self.operand {
                    operand.add(word, rest);
                }
            }
            _ => {}
        }
    }
}

impl Operand {
    /// The field whose value it is.
    pub fn field(&self) -> Option<&[u8]> {
        self.owner.as_ref().filter(|(is_field, _)| *is_field).map(|(_, name)| &name[..])
    }

    fn add(&mut self, word: &[u8], rest: &[u8]) {
        if word == b"name" {
            let (kind, name) = crate::notes::word(rest);
            self.owner = Some((kind == b"field", name.to_vec()));
            return;
        }
        self.wanted = match rest {
            b"integer" => Some(Wanted::Integer),
            b"text" => Some(Wanted::Text),
            b"text-or-missing" => Some(Wanted::TextOrMissing),
            b"function" => Some(Wanted::Function),
            _ => None,
        };
    }
}

/// An operand: `POSITION WHAT`.
fn operand(rest: &[u8]) -> Option<Operand> {
    let (position, rest) = number(rest)?;
    let (word, rest) = word(rest);
    let value = match word {
        b"integer" => {
            let (low, high) = crate::notes::word(rest);
            Value::Integer(signed(low), signed(high))
        }
        b"text" => Value::Text(rest.to_vec()),
        b"function" => Value::Function(rest.to_vec()),
        _ => Value::Any,
    };
    Some(Operand { position, value, wanted: None, owner: None })
}

/// A number that may be negative.
fn signed(word: &[u8]) -> Option<i64> {
    std::str::from_utf8(word).ok()?.parse().ok()
}

/// By how many literals the stack grows, at least and at most.
pub type Growth = (i64, i64);

/// An `if$` whose branches leave different numbers of literals.
#[derive(Debug, Clone, PartialEq, Eq)]
pub struct Cause {
    pub spot: Spot,
    /// By how many literals the stack grows after its first and after its second function.
    pub grows: [Growth; 2],
}

/// All that is noted of a style.
#[derive(Debug, Clone, Default, PartialEq, Eq)]
pub struct Warnings {
    pub warnings: Vec<Warning>,
    pub causes: Vec<Cause>,
    /// Whether there may be more places.
    pub is_partial: bool,
}

/// The numbers of `grows LEAST MOST LEAST MOST`.
fn growths(rest: &[u8]) -> Option<[Growth; 2]> {
    let mut numbers = rest.split(|byte| *byte == b' ').map(signed);
    let mut next = || numbers.next().flatten();
    Some([(next()?, next()?), (next()?, next()?)])
}

/// The notes of a check of the style of this name.
pub fn read(notes: &[u8], style: &[u8]) -> Warnings {
    let mut read = Warnings::default();
    for line in notes.split(|byte| *byte == b'\n').filter(|line| !line.is_empty()) {
        let (first, rest) = word(line);
        match first {
            b"warning" => {
                let (fault, order) = word(rest);
                let is_first = order == b"first";
                read.warnings.push(Warning { fault: Fault::of(fault), is_first, ..Warning::default() });
            }
            b"cause" => {
                let cause = |spot| Cause { spot, grows: [(0, 0); 2] };
                read.causes.extend(spot(rest, style, false).map(cause));
            }
            b"grows" => {
                if let (Some(cause), Some(grows)) = (read.causes.last_mut(), growths(rest)) {
                    cause.grows = grows;
                }
            }
            b"partial" => read.is_partial = true,
            _ => read.last().add(first, rest, style),
        }
    }
    read
}

impl Warnings {
    /// The warning whose lines are read. A checker that notes one place alone begins with its first line.
    fn last(&mut self) -> &mut Warning {
        if self.warnings.is_empty() {
            self.is_partial = true;
            self.warnings.push(Warning { is_first: true, ..Warning::default() });
        }
        let last = self.warnings.len() - 1;
        &mut self.warnings[last]
    }

    /// Adds the unequal `if$` that the text shows before those that the check noted.
    pub fn add_causes(&mut self, seen: Vec<Cause>) {
        let is_known = |cause: &Cause| {
            let place = |cause: &Cause| (cause.spot.call.line, cause.spot.token.map(|(_, number)| number));
            self.causes.iter().any(|known| place(known) == place(cause))
        };
        let new: Vec<Cause> = seen.into_iter().filter(|cause| !is_known(cause)).collect();
        self.causes.splice(..0, new);
    }

    /// The warnings that can be the first fault of a visit: those that are shown. Where there is none, all of them.
    pub fn shown(&self) -> Vec<&Warning> {
        let first: Vec<&Warning> = self.warnings.iter().filter(|warning| warning.is_first).collect();
        if first.is_empty() { self.warnings.iter().collect() } else { first }
    }

    /// How many warnings aren't shown: they come after others in each visit that meets them.
    pub fn hidden(&self) -> usize {
        self.warnings.len() - self.shown().len()
    }
}

#[cfg(test)]
mod tests {
    use super::*;

    #[test]
    fn blocks_are_read() {
        let notes = b"warning kind first\nnext format.name$\ndepth 3\noperand 1 text mf\nwants integer\nname field year\n\
            item ITERATE 9 call.type$\nat of 5 3 1 names\nfrom in 7 4 0 book\ntype book\ntype\ngiven author\nblank title\n\
            warning left later\nnext f\nitem EXECUTE 12 f\noperand 0 integer -1 -\n\
            cause in 8 4 2 book\ngrows -1 0 1 1\npartial\nnew x\n";
        let read = read(notes, b"s.bst");
        let [kind, left] = &read.warnings[..] else { panic!("{read:?}") };
        assert_eq!((kind.fault, kind.is_first, kind.depth), (Some(Fault::WrongKind), true, Some(3)));
        let wanted = Operand {
            position: 1,
            value: Value::Text(b"mf".to_vec()),
            wanted: Some(Wanted::Integer),
            owner: Some((true, b"year".to_vec())),
        };
        assert_eq!(kind.operand, Some(wanted));
        assert_eq!(kind.places.iter().map(|spot| spot.call.line).collect::<Vec<_>>(), [5, 7]);
        assert_eq!(kind.types, [&b"book"[..], b""]);
        assert_eq!((&kind.given[..], &kind.blank[..]), (&[b"author".to_vec()][..], &[b"title".to_vec()][..]));
        assert_eq!((left.fault, left.is_first, left.line()), (Some(Fault::LeftOver), false, 12));
        assert_eq!(left.operand.as_ref().unwrap().value, Value::Integer(Some(-1), None));
        assert_eq!((read.causes[0].spot.call.line, read.causes[0].grows), (8, [(-1, 0), (1, 1)]));
        assert!(read.is_partial);
        assert_eq!((read.shown(), read.hidden()), (vec![kind], 1));
    }

    #[test]
    fn a_field_that_stands_for_a_number_is_not_missing() {
        let missing = |wanted: &str| {
            let notes =
                format!("warning kind first\nnext +\noperand 0 text mewf\n{wanted}name field year\nmissing year\n");
            read(notes.as_bytes(), b"s.bst").warnings[0].missing.is_some()
        };
        assert!(missing("wants text\n") && missing(""));
        assert!(!missing("wants integer\n") && !missing("wants function\n"));
    }

    #[test]
    fn one_place_alone_is_read() {
        let read = read(b"next write$\nmissing title\nat in 2 0 1 misc\n", b"s.bst");
        assert_eq!((read.warnings.len(), read.is_partial, read.warnings[0].line()), (1, true, 2));
        assert_eq!(super::read(b"", b"s.bst"), Warnings::default());
    }

    #[test]
    fn messages_belong_to_faults() {
        let of = |text: &str| FAULTS.iter().map(|row| row.0).find(|fault| fault.has_message(text.as_bytes()));
        assert_eq!(of("missing field is not a string"), Some(Fault::WrongKind));
        assert_eq!(of("1 is not a string or missing field"), Some(Fault::WrongKind));
        assert_eq!(of("= needs two integers or two strings"), Some(Fault::Incomparable));
        assert_eq!(of("Integer overflow"), None);
    }
}
