//! Messages on the text of a style: where they stand, and which others follow from a brace that is missing or a command that is skipped.

use super::{Explainer, MOST_OF_SCENE, shown_path};
use crate::advice::{Section, Seen};
use crate::database::Folded;
use crate::job::File;
use crate::log::{Message, Place};
use crate::sources::Spot;
use crate::style_text::{
    Command, Defined, costs_a_token, end_of_skipped, is_command, last_token, lines_of_name, nearest_word, unclosed,
};
use crate::terminal::{ERROR_COLOUR, plain};
use crate::text::Text;
use std::collections::{HashMap, HashSet};
use std::io::{self, Write};

/// How many errors of a style are kept from which others may follow; that of a missing brace always is.
const MOST_CAUSES: usize = 20;

/// An error of a style from which others follow: a function that isn't closed, so that what comes after it is read as its body, or a
/// command that is skipped, with what comes after it.
struct Cause<'a> {
    /// The style's name.
    style: &'a [u8],
    /// The line of the error.
    number: usize,
    /// Whether the words of commands aren't known either.
    has_commands: bool,
    /// The errors on the order of commands that follow, since this one is skipped: each ends so.
    of_order: &'static [&'static str],
    /// What isn't known since it was read otherwise.
    lost: Defined<'a>,
    /// How many errors that follow from it weren't printed yet.
    unprinted: u64,
}

/// What is known of the messages on the text of a style.
#[derive(Default)]
pub(super) struct StyleMistakes<'a> {
    causes: Vec<Cause<'a>>,
    /// Where the first mistake is.
    pub(super) first: Option<String>,
    /// The functions in which there are mistakes, with the line of the first.
    pub(super) functions: HashMap<Folded<'a>, usize>,
    /// The fields that ENTRY lacks by a message.
    pub(super) lacked_fields: HashSet<Folded<'a>>,
    /// The line of the last message, if it is one of a style.
    last: usize,
    /// What was said last of a brace that is missing, or of one too many.
    said_of_braces: Option<String>,
}

impl<'a> Cause<'a> {
    /// An error of this place, since which these names aren't known.
    fn new(spot: &Spot<'a>, lost: Defined<'a>) -> Cause<'a> {
        let (style, number) = (&spot.file.name[..], spot.number);
        Cause { style, number, has_commands: false, of_order: &[], lost, unprinted: 0 }
    }
}

impl<'a> StyleMistakes<'a> {
    /// Whether there is room for an error more from which others may follow.
    fn has_room(&self) -> bool {
        self.causes.len() < MOST_CAUSES
    }
}

impl<'a, W: Write> Explainer<'a, W> {
    pub(super) fn in_style(&mut self, message: &Message<'a>, style: &'a [u8]) -> io::Result<()> {
        let Some(spot) = self.sources.spot(message) else { return self.advise(&[Section::Style], message.text) };
        self.page.show_line(&spot)?;
        self.styles.last = spot.number;
        self.styles.first.get_or_insert_with(|| format!("{}:{}", plain(shown_path(spot.file)), spot.number));
        let (Some(text), commands) = (self.sources.text(style), self.sources.commands(style)) else { return Ok(()) };
        if let Some(odd) = self.odd_file(spot.file) {
            return self.page.put_advice(&odd);
        }
        let (start, end) = text.span(spot.number);
        let place = spot.part.map_or(end, |(at, _)| start + at);
        if let Some(advice) = self.braces_of(message.text, &spot, &text, &commands, place) {
            let is_new = self.styles.said_of_braces.replace(advice.clone()).is_none_or(|said| said != advice);
            return if is_new { self.page.put_advice(&advice) } else { Ok(()) };
        }
        let above = commands[..commands.partition_point(|command| command.start <= place)].last();
        let is_no_command = message.text.ends_with(b" isn't a command") || message.text == b"I was expecting a command";
        if let Some(around) = above.filter(|_| !is_no_command) {
            if let Some(name) = around.name.filter(|_| around.is("function")) {
                self.styles.functions.entry(Folded(name)).or_insert(spot.number);
            }
            self.page.put_place(&format!("in {}", begins(spot.file, &text, around)))?;
        }
        if self.styles.has_room() && !costs_a_token(message.text, above) {
            let inside = above.filter(|_| !is_no_command);
            let from = inside.map_or(place, |around| around.start);
            let lost = Defined::new(text.bytes, from, end_of_skipped(&text, spot.number).max(from), &commands);
            self.styles.causes.push(Cause { of_order: order_lost(inside), ..Cause::new(&spot, lost) });
        }
        let seen = self.seen_in_style(message.text, &spot, &text, &commands, above)?;
        match seen {
            Some(seen) => self.page.put_advice(&seen),
            None => self.advise(&[Section::Style], message.text),
        }
    }

    /// What to do about an error of a style, which stands in the command `around`, where its text shows what was meant. Says which word or name that may be.
    fn seen_in_style(
        &mut self,
        error: &'a [u8],
        spot: &Spot<'a>,
        text: &Text<'a>,
        commands: &[Command<'a>],
        around: Option<&Command<'a>>,
    ) -> io::Result<Option<String>> {
        if error == b"crossref is already defined" && around.is_some_and(|around| around.is("entry")) {
            return Ok(Some(Seen::CrossrefIsField.with(&[])));
        }
        if let Some(word) = error.strip_suffix(b" isn't a command").and_then(nearest_word) {
            self.page.put_place(&format!("is it {}?", word.to_uppercase()))?;
        }
        let Some(name) = unknown(error) else { return Ok(None) };
        let own = around.filter(|command| command.is("function")).and_then(|function| function.name);
        if is_number(name) {
            return Ok(Some(Seen::IntegerWithoutSign.with(&[&plain(name)])));
        }
        if own.map(Folded) == Some(Folded(name)) {
            return Ok(Some(Seen::CallsItself.with(&[&plain(name)])));
        }
        if !self.styles.has_room() {
            return Ok(None);
        }
        if let Some(below) = function_below(commands, name, around) {
            self.styles.causes.push(Cause::new(spot, Defined::one(name)));
            let [above, below] = [around.map_or(spot.number, |around| text.line_of(around.start)), text.line_of(below)];
            let lines = [above, below].map(|line| line.to_string());
            return Ok(Some(Seen::FunctionBelow.with(&[&plain(name), &lines[0], &lines[1]])));
        }
        let entry = commands.iter().find(|command| command.is("entry")).filter(|_| is_field(name));
        self.unknown_name(name, spot, text, commands, entry.is_some())?;
        self.styles.lacked_fields.extend(entry.map(|_| Folded(name)));
        Ok(entry.map(|entry| {
            let at = format!("{}:{}", plain(shown_path(spot.file)), text.line_of(entry.start));
            Seen::FieldNotInEntry.with(&[&plain(name), &at])
        }))
    }

    /// Says which name may be meant by one that isn't known, unless that is the name of a field, and where it stands. Further errors of that name are counted.
    fn unknown_name(
        &mut self,
        name: &'a [u8],
        spot: &Spot<'a>,
        text: &Text<'a>,
        commands: &[Command<'a>],
        is_field: bool,
    ) -> io::Result<()> {
        self.styles.causes.push(Cause::new(spot, Defined::one(name)));
        match Defined::new(text.bytes, 0, text.bytes.len(), commands).nearest(name) {
            Some(near) if near.eq_ignore_ascii_case(name) => {
                return self
                    .page
                    .put_place("the style defines it, but not above this place, or in a command that isn't read");
            }
            Some(near) if !is_field => self.page.put_place(&format!("is it {}?", plain(near)))?,
            _ => {}
        }
        let (lines, count) = lines_of_name(text, name);
        if count < 2 {
            return Ok(());
        }
        let dots = if lines.len() > MOST_OF_SCENE { ", .." } else { "" };
        let plural = if lines.len() > 1 { "s" } else { "" };
        let lines: Vec<String> = lines.iter().take(MOST_OF_SCENE).map(usize::to_string).collect();
        self.page.put_place(&format!(
            "{} stands at {count} places: line{plural} {}{dots}",
            plain(name),
            lines.join(", ")
        ))
    }

    /// What to do about an error that a missing brace, or one too many, has made in a function above.
    fn braces_of(
        &mut self,
        error: &[u8],
        spot: &Spot<'a>,
        text: &Text<'a>,
        commands: &[Command<'a>],
        place: usize,
    ) -> Option<String> {
        let above = &commands[..commands.partition_point(|command| command.start < place)];
        let at_end = error == AT_END;
        if at_end || unknown(error).is_some_and(is_command) {
            let opened = above.iter().find(|command| command.balance > 0)?;
            self.add_unclosed(opened, spot, text, commands);
            let end =
                commands.iter().find(|next| next.start > opened.start).map_or(text.bytes.len(), |next| next.start);
            let brace = unclosed(text, opened.start, end).map(|(brace, outside)| {
                let [brace, outside] = [brace, outside].map(|token| text.line_of(token.start));
                format!(": close the brace of line {brace} before line {outside}")
            });
            return Some(format!(
                "a `}}` is missing in {}{}",
                begins(spot.file, text, opened),
                brace.unwrap_or_default()
            ));
        }
        let is_rest = |word: &[u8]| nearest_word(word).is_none();
        let word = error.strip_suffix(b" isn't a command").filter(|word| is_rest(word));
        let is_of_rest = error == b"I was expecting a command" || word.is_some();
        let closed = above.last().filter(|command| command.balance < 0 && is_of_rest)?;
        if word.is_some() && self.styles.has_room() {
            let lost = Defined::new(text.bytes, place, end_of_skipped(text, spot.number).max(place), commands);
            self.styles.causes.push(Cause::new(spot, lost));
        }
        Some(format!("there is a `}}` too many in {}", begins(spot.file, text, closed)))
    }

    /// Errors that follow from a command that isn't closed are counted from now on.
    fn add_unclosed(&mut self, opened: &Command<'a>, spot: &Spot<'a>, text: &Text<'a>, commands: &[Command<'a>]) {
        let lost = Defined::new(text.bytes, opened.start, text.bytes.len(), commands);
        self.styles.causes.push(Cause { has_commands: true, ..Cause::new(spot, lost) });
    }

    /// Says where a brace is missing, if this is the error in which that shows itself: the function with its lines, and the brace that is likely to be without
    /// its other one.
    pub(super) fn missing_brace(&mut self, line: &[u8], message: &Message<'a>) -> io::Result<bool> {
        let Place::Line { file: style, .. } = message.place else { return Ok(false) };
        if message.text != AT_END && !unknown(message.text).is_some_and(is_command) {
            return Ok(false);
        }
        let Some(spot) = self.sources.spot(message) else { return Ok(false) };
        let (Some(text), commands) = (self.sources.text(style), self.sources.commands(style)) else { return Ok(false) };
        let place = text.span(spot.number).0 + spot.part.map_or(spot.line.len(), |(at, _)| at);
        let above = &commands[..commands.partition_point(|command| command.start < place)];
        let Some(opened) = above.iter().find(|command| command.balance > 0) else { return Ok(false) };
        let end = commands.iter().find(|next| next.start > opened.start).map_or(text.bytes.len(), |next| next.start);
        let last = last_token(&text, opened.start, end).map_or(opened.start, |token| token.start);
        let (name, first, last) = (plain(shown_path(spot.file)), text.line_of(opened.start), text.line_of(last));
        let lines = if first == last { format!("line {first}") } else { format!("lines {first}-{last}") };
        self.page
            .coloured(ERROR_COLOUR, &format!("{name}:{first}: a `}}` is missing in {}, {lines}", named(opened)))?;
        if let Some((brace, outside)) = unclosed(&text, opened.start, end) {
            let (number, at) = (text.line_of(brace.start), brace.start - text.span(text.line_of(brace.start)).0);
            let line = text.line(number);
            self.page.show_line(&Spot { file: spot.file, number, line, part: Some((at, at + 1)), item: None })?;
            let (of, behind) = (plain(&text.bytes[outside.start..outside.end]), text.line_of(outside.start));
            self.page
                .put_advice(&format!("close this brace before line {behind}: `{of}` stands further left there"))?;
        } else {
            let line = text.line(first);
            self.page.show_line(&Spot { file: spot.file, number: first, line, part: None, item: None })?;
            self.page.put_advice("count its braces: each `{` needs a `}`")?;
        }
        self.page.put_place(&format!("it shows in: {}", plain(line)))?;
        self.styles.last = spot.number;
        self.styles.first.get_or_insert_with(|| format!("{name}:{first}"));
        self.add_unclosed(opened, &spot, &text, &commands);
        Ok(true)
    }

    /// Whether this error follows from one of a style that was explained. It is counted there.
    pub(super) fn follows(&mut self, message: &Message<'a>) -> bool {
        let Place::Line { file, .. } = message.place else { return false };
        let name = unknown(message.text);
        let is_of_order = |cause: &Cause<'a>| cause.of_order.iter().any(|end| message.text.ends_with(end.as_bytes()));
        let is_it = |cause: &&mut Cause<'a>| {
            let is_lost = name.is_some_and(|name| cause.lost.has(name)) || is_of_order(cause);
            let is_of_commands = name.map_or(message.text == AT_END, |name| is_command(word_before_brace(name)));
            file == cause.style && (is_lost || cause.has_commands && is_of_commands)
        };
        let cause = self.styles.causes.iter_mut().find(is_it);
        cause.map(|cause| cause.unprinted += 1).is_some()
    }

    /// Says how many errors weren't printed since they follow from others.
    pub(super) fn end_causes(&mut self) -> io::Result<()> {
        let of_odd = std::mem::take(&mut self.databases.unprinted);
        if of_odd > 0 {
            let errors = if of_odd == 1 { "1 more message follows" } else { &format!("{of_odd} more messages follow") };
            self.page.put_place(&format!("({errors} from that)"))?;
        }
        let unprinted = |cause: &mut Cause<'a>| (cause.number, std::mem::take(&mut cause.unprinted));
        let counts: Vec<(usize, u64)> = self.styles.causes.iter_mut().map(unprinted).collect();
        for (number, count) in counts.into_iter().filter(|(_, count)| *count > 0) {
            let errors = if count == 1 { "1 more error follows" } else { &format!("{count} more errors follow") };
            let place = if number == self.styles.last { String::new() } else { format!(" in line {number}") };
            self.page.put_place(&format!("({errors} from that{place})"))?;
        }
        Ok(())
    }
}

/// Where the function of this name begins, if it is defined below a command that uses it.
fn function_below(commands: &[Command<'_>], name: &[u8], around: Option<&Command<'_>>) -> Option<usize> {
    let start = around?.start;
    let is_it = |command: &&Command<'_>| command.is("function") && command.name.map(Folded) == Some(Folded(name));
    commands.iter().find(is_it).map(|command| command.start).filter(|below| *below > start)
}

/// Fields of databases, also those that no standard style reads.
const FIELDS: [&str; 36] = [
    "abstract",
    "address",
    "annote",
    "archiveprefix",
    "author",
    "booktitle",
    "chapter",
    "date",
    "doi",
    "edition",
    "editor",
    "eid",
    "eprint",
    "howpublished",
    "institution",
    "isbn",
    "issn",
    "journal",
    "key",
    "keywords",
    "language",
    "lccn",
    "month",
    "note",
    "number",
    "numpages",
    "organization",
    "pages",
    "primaryclass",
    "publisher",
    "school",
    "series",
    "title",
    "url",
    "volume",
    "year",
];

/// Whether a name of a style's code that nothing declares is meant as a field: databases have such a one.
fn is_field(name: &[u8]) -> bool {
    FIELDS.iter().any(|field| name.eq_ignore_ascii_case(field.as_bytes()))
}

/// The errors on the order of commands that follow where this one is skipped.
fn order_lost(around: Option<&Command<'_>>) -> &'static [&'static str] {
    match around {
        Some(command) if command.is("entry") => &["Illegal, READ command before ENTRY", " command before READ"],
        Some(command) if command.is("read") => &[" command before READ"],
        _ => &[],
    }
}

/// The error at the end of a style whose last command isn't closed.
const AT_END: &[u8] = b"Illegal end of style file";

/// The name in the error of a function that isn't known.
fn unknown(error: &[u8]) -> Option<&[u8]> {
    error.strip_suffix(b" is an unknown function")
}

/// The word of a command whose brace touches it, as in `EXECUTE{f}`: in the body of a function both are one name.
fn word_before_brace(name: &[u8]) -> &[u8] {
    name.split(|byte| *byte == b'{').next().unwrap_or(name)
}

/// Whether a name is an integer without its `#`.
fn is_number(name: &[u8]) -> bool {
    let digits = name.strip_prefix(b"-").unwrap_or(name);
    !digits.is_empty() && digits.iter().all(u8::is_ascii_digit)
}

/// A command of a style, and where it begins.
pub(super) fn begins(file: &File, text: &Text<'_>, command: &Command<'_>) -> String {
    let (path, line) = (plain(shown_path(file)), text.line_of(command.start));
    format!("{}, which begins at {path}:{line}", named(command))
}

/// A command of a style with its name.
pub(super) fn named(command: &Command<'_>) -> String {
    let name = command.name.map(|name| format!(" {{{}}}", plain(name))).unwrap_or_default();
    format!("{}{name}", plain(command.word))
}
