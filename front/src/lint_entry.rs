//! For each warning of a style an entry of a database that shows it. It is searched for, and tried by a run before it is shown.

use crate::btx::{self, Answer, MemoryRefused, Options, Ran, Rooms};
use crate::database::Folded;
use crate::job::{File, Files};
use crate::lint_warnings::{Fault, Warning};
use crate::log::{Content, Line, Log, Message, Place, Severity};
use crate::notes::{self, Note, What};
use crate::scene::Call;
use crate::style_read::StyleRead;
use crate::usual_types::types_meant;
use std::cell::Cell;
use std::collections::{HashMap, HashSet};

/// Whether an entry shows a warning.
#[derive(Debug, Clone, PartialEq, Eq)]
pub enum Shown {
    /// A job with this database logs this message at the warning's place. Of literals that are left it is known since which place the stack has held them.
    By { database: Vec<u8>, message: Vec<u8>, since: Vec<Call> },
    /// No entry that was tried does.
    Nowhere,
}

/// How much work a search takes, in steps of styles: some two seconds of a processor. So the answer is the same each time.
const WORK: u64 = 80_000_000;

/// What it takes to read a byte of a job, and a step whose place is noted, in steps.
const WORK_OF_BYTE: u64 = 2;
const WORK_OF_NOTED_STEP: u64 = 7;

/// How many steps a run of many entries, and one of a few, may take.
const STEPS_OF_MANY: u64 = 8_000_000;
const STEPS_OF_FEW: u64 = 300_000;

/// How many cases are tried in one run, and how many fields they have at most together, unless there is one case.
const CASES_OF_RUN: usize = 400;
const FIELDS_OF_RUN: usize = 100_000;

/// How many runs of cases by chance may find nothing, one after the other.
const MOST_FRUITLESS: u32 = 12;

/// Of how many events that log errors the places are found for a case.
const MOST_EVENTS: u32 = 6;

/// How many types are tried.
const MOST_TYPES: usize = 40;

pub(crate) const ROOMS: Rooms = Rooms { list: 1 << 24, log: 1 << 26 };

/// A type that no style knows.
const UNKNOWN_TYPE: &[u8] = b"unknowntype";

// ---- entries ----

/// An entry: its type, and its fields with their values.
#[derive(Debug, Clone, PartialEq, Eq)]
pub(crate) struct Entry {
    pub(crate) kind: Vec<u8>,
    pub(crate) fields: Vec<(Vec<u8>, Vec<u8>)>,
}

/// The entries of a small database. With `is_crossed`, the last is the parent of the first.
#[derive(Debug, Clone, Default, PartialEq, Eq)]
pub(crate) struct Case {
    pub(crate) entries: Vec<Entry>,
    pub(crate) is_crossed: bool,
}

impl Case {
    /// The text of the database; `prefix` begins the keys, and isn't followed by a number where there is one entry.
    pub(crate) fn text(&self, prefix: &str) -> Vec<u8> {
        let key = |number: usize| {
            if self.entries.len() == 1 { prefix.to_string() } else { format!("{prefix}.{number}") }
        };
        let mut text = Vec::new();
        for (number, entry) in self.entries.iter().enumerate() {
            text.extend([b"@", &entry.kind[..], b"{", key(number).as_bytes()].concat());
            if self.is_crossed && number == 0 && self.entries.len() > 1 {
                text.extend(format!(",\n  crossref = {{{}}}", key(self.entries.len() - 1)).as_bytes());
            }
            for (name, value) in &entry.fields {
                text.extend([b",\n  ", &name[..], b" = {", &value[..], b"}"].concat());
            }
            text.extend(b"}\n");
        }
        text
    }

    /// The cases with something less: an entry, or a field.
    pub(crate) fn lesser(&self) -> Vec<Case> {
        let mut all = Vec::new();
        for number in 0..self.entries.len() {
            if self.entries.len() > 1 {
                let mut less = self.clone();
                less.entries.remove(number);
                less.is_crossed = false;
                all.push(less);
            }
            for field in 0..self.entries[number].fields.len() {
                let mut less = self.clone();
                less.entries[number].fields.remove(field);
                all.push(less);
            }
        }
        all
    }
}

/// A usual value of a field of this name.
fn usual_value(field: &[u8]) -> Vec<u8> {
    let has = |what: &str| field.windows(what.len()).any(|part| part.eq_ignore_ascii_case(what.as_bytes()));
    let value: &[u8] = match () {
        () if ["author", "editor", "translator"].iter().any(|what| has(what)) => b"Ann Lee and Bo Ray",
        () if has("year") => b"2001",
        () if has("pages") => b"1--9",
        () if ["volume", "number", "edition", "chapter"].iter().any(|what| has(what)) => b"7",
        () if has("month") => b"May",
        () => {
            let mut name = field.to_vec();
            name[..1].make_ascii_uppercase();
            return name;
        }
    };
    value.to_vec()
}

/// Values that styles stumble on.
const ODD_VALUES: [&[u8]; 12] = [
    b"",
    b" ",
    b"A",
    b"7",
    b"and others",
    b"Ann Lee and others",
    b"Lee, Jr, Ann",
    b"a, b, c, d",
    b"{\\\"O}z",
    b"x y z",
    b"in press",
    b"A and B and C and D and E and F and G",
];

/// Numbers in an order that is the same each time.
struct Numbers(u64);

impl Numbers {
    fn below(&mut self, bound: usize) -> usize {
        self.0 ^= self.0 << 13;
        self.0 ^= self.0 >> 7;
        self.0 ^= self.0 << 17;
        (self.0 % bound.max(1) as u64) as usize
    }
}

/// Makes cases: first what a warning names, then entries with no field, one field, all, all but one, and two, then others by chance.
struct Maker {
    types: Vec<Vec<u8>>,
    fields: Vec<Vec<u8>>,
    numbers: Numbers,
}

impl Maker {
    fn entry<'a>(kind: &[u8], fields: impl IntoIterator<Item = &'a Vec<u8>>) -> Entry {
        let fields = fields.into_iter().map(|name| (name.clone(), usual_value(name))).collect();
        Entry { kind: kind.to_vec(), fields }
    }

    fn of_one(entry: Entry) -> Case {
        Case { entries: vec![entry], is_crossed: false }
    }

    /// How many cases are made for one run.
    fn cases_of_run(&self) -> usize {
        (FIELDS_OF_RUN / self.fields.len().max(1)).clamp(1, CASES_OF_RUN)
    }

    /// What a warning itself says: the fields that are given, and the others or none of them.
    fn said<'b>(&'b self, warning: &'b Warning) -> impl Iterator<Item = Case> + 'b {
        let is_given = |name: &&Vec<u8>| !warning.blank.contains(*name) && Some(*name) != warning.missing.as_ref();
        let types = warning.types.iter().take(MOST_TYPES);
        let kinds = types.map(|kind| if kind.is_empty() { UNKNOWN_TYPE } else { kind });
        kinds.flat_map(move |kind| {
            let given = Maker::entry(kind, &warning.given);
            let most = Maker::entry(kind, self.fields.iter().filter(is_given));
            [given, most].map(Maker::of_one)
        })
    }

    /// Entries of each type with few fields or nearly all.
    fn plain(&self) -> impl Iterator<Item = Case> + '_ {
        let ends = |kind| [Maker::entry(kind, []), Maker::entry(kind, &self.fields)];
        let each = move |kind| {
            self.fields.iter().flat_map(move |field| {
                let others = self.fields.iter().filter(move |name| *name != field);
                [Maker::entry(kind, [field]), Maker::entry(kind, others)]
            })
        };
        self.types.iter().flat_map(move |kind| ends(kind).into_iter().chain(each(kind))).map(Maker::of_one)
    }

    /// An entry by chance.
    fn by_chance(&mut self) -> Entry {
        let kind = self.types[self.numbers.below(self.types.len())].clone();
        let share = 1 + self.numbers.below(9);
        let mut fields = Vec::new();
        for name in &self.fields {
            if self.numbers.below(10) >= share {
                continue;
            }
            let odd = self.numbers.below(4 * ODD_VALUES.len());
            let value = ODD_VALUES.get(odd).map_or_else(|| usual_value(name), |value| value.to_vec());
            fields.push((name.clone(), value));
        }
        Entry { kind, fields }
    }

    fn cases_by_chance(&mut self) -> Vec<Case> {
        let mut cases = Vec::new();
        for number in 0..self.cases_of_run() {
            let count = if number % 4 == 0 { 2 } else { 1 };
            let entries = (0..count).map(|_| self.by_chance()).collect();
            cases.push(Case { entries, is_crossed: number % 8 == 0 });
        }
        cases
    }
}

// ---- runs ----

/// An error of an execution: its line, its text, the function and the entry.
struct Logged<'a> {
    line: &'a [u8],
    text: &'a [u8],
    function: &'a [u8],
    entry: Option<&'a [u8]>,
}

/// The error of a line, if it is one; None inside where it isn't one of the execution.
fn error_of<'a>(line: &Line<'a>) -> Option<Option<Logged<'a>>> {
    match line.content {
        Content::Message(Message { severity: Severity::Error, text, place, .. }) => Some(match place {
            Place::Execution { function, entry } => Some(Logged { line: line.bytes, text, function, entry }),
            _ => None,
        }),
        _ => None,
    }
}

/// All errors of a log, in their order.
fn errors_of<'a>(log: &Log<'a>) -> Vec<Option<Logged<'a>>> {
    log.lines().filter_map(|line| error_of(&line)).collect()
}

/// What a case logs at a warning's place: the line, and since when what it left has been there.
#[derive(Debug, Clone)]
struct Proof {
    message: Vec<u8>,
    since: Vec<Call>,
}

/// What an error of a log names: the function that was executed, and the error's text.
type FunctionAndText<'log> = (&'log [u8], &'log [u8]);

/// A case that shows a warning, where one was found.
type Found = Option<(Case, Proof)>;

/// A search for entries of a style.
pub(crate) struct Search<'a> {
    pub(crate) style: &'a File,
    /// The work that was done, and how much may be done.
    done: Cell<u64>,
    most: u64,
    /// Whether memory was refused to a run.
    is_refused: Cell<bool>,
}

impl Search<'_> {
    /// A search that may do at most this much work.
    pub(crate) fn new(style: &File, most: u64) -> Search<'_> {
        Search { style, done: Cell::new(0), most, is_refused: Cell::new(false) }
    }

    /// Whether memory was refused to a run.
    pub(crate) fn is_refused(&self) -> bool {
        self.is_refused.get()
    }

    /// Whether there is work left for the search; a quarter is kept for what makes its entries smaller.
    pub(crate) fn may_search(&self) -> bool {
        self.done.get() < self.most / 4 * 3 && !self.is_refused.get()
    }

    /// Adds the work of `runs` runs of a job, of `steps` steps each.
    fn add_work(&self, files: &Files, runs: u64, steps: u64) {
        let bytes: usize = files.all.iter().map(|file| file.bytes.as_ref().map_or(0, Vec::len)).sum();
        self.done.set(self.done.get() + runs * (steps + WORK_OF_BYTE * bytes as u64));
    }

    /// Adds the work of `runs` runs of a job, each step of which is noted.
    pub(crate) fn add_noted(&self, files: &Files, runs: u64, steps: u64) {
        self.add_work(files, runs, WORK_OF_NOTED_STEP * steps);
    }

    /// A run with these options, and the steps that it took.
    pub(crate) fn run(&self, files: &Files, options: &Options) -> (Ran, u64) {
        let ran = btx::run(&files.top, &files.all, options, &ROOMS);
        let steps = if let Answer::Done(report) = ran.answer { report.steps } else { options.budget };
        self.is_refused.set(self.is_refused.get() || ran.answer == Answer::Memory);
        self.add_work(files, 1, steps);
        (ran, steps)
    }

    /// A job of this style over a database.
    pub(crate) fn job(&self, database: Vec<u8>) -> Files {
        let stem = self.style.name.strip_suffix(b".bst").unwrap_or(&self.style.name);
        let top = [b"\\citation{*}\n\\bibdata{refs}\n\\bibstyle{", stem, b"}\n"].concat();
        let file = |name: &[u8], bytes: Vec<u8>| File { name: name.to_vec(), bytes: Some(bytes), path: Vec::new() };
        let all = vec![file(b"job.aux", top), self.style.clone(), file(b"refs.bib", database)];
        Files { top: b"job.aux".to_vec(), all }
    }

    /// The warnings, of these, that a case shows, by their numbers.
    fn shown(&self, case: &Case, warnings: &[&Warning]) -> Vec<(usize, Proof)> {
        let files = self.job(case.text("key"));
        let options = Options::usual(STEPS_OF_FEW);
        let (ran, steps) = self.run(&files, &options);
        let log = ran.lines_of_log();
        let errors = errors_of(&log);
        let can_be = |error: &Logged<'_>| warnings.iter().any(|warning| fits(warning, error));
        if !errors.iter().flatten().any(can_be) {
            return Vec::new();
        }
        let noted = btx::notes(&files.top, &files.all, &options, MOST_EVENTS);
        self.is_refused.set(self.is_refused.get() || noted.is_none());
        self.add_noted(&files, errors.len().min(MOST_EVENTS as usize) as u64 + 2, steps);
        let mut found = Vec::new();
        for note in notes::read(&noted.unwrap_or_default(), &self.style.name) {
            let of_note: Vec<&Logged<'_>> =
                note.errors.clone().filter_map(|number| errors.get(number)?.as_ref()).collect();
            for (number, warning) in warnings.iter().enumerate() {
                let error = of_note.iter().find(|error| fits(warning, error)).filter(|_| is_at(warning, &note));
                let since = || note.since.iter().flatten().map(|spot| spot.call.clone()).collect();
                found.extend(error.map(|error| (number, Proof { message: error.line.to_vec(), since: since() })));
            }
        }
        found
    }

    /// The cases, of these, that log errors of warnings, each kind of log once.
    fn promising<'b>(&self, cases: &'b [Case], warnings: &[&Warning]) -> Vec<&'b Case> {
        let database: Vec<u8> =
            cases.iter().enumerate().flat_map(|(number, case)| case.text(&format!("e{number}"))).collect();
        let files = self.job(database);
        let (ran, _) = self.run(&files, &Options::usual(STEPS_OF_MANY));
        let log = ran.lines_of_log();
        let mut logged: HashMap<usize, Vec<FunctionAndText<'_>>> = HashMap::new();
        let errors = errors_of(&log);
        for error in errors.iter().flatten().filter(|error| warnings.iter().any(|warning| fits(warning, error))) {
            if let Some(number) = error.entry.and_then(number_of) {
                logged.entry(number).or_default().push((error.function, error.text));
            }
        }
        let mut numbers: Vec<&usize> = logged.keys().collect();
        numbers.sort_unstable();
        let mut known = HashSet::new();
        let is_new = |number: &&&usize| known.insert(logged[**number].clone());
        numbers.iter().filter(is_new).filter_map(|number| cases.get(**number)).collect()
    }

    /// A case with less in it that shows the warning too.
    fn shrunk(&self, case: Case, proof: Proof, warning: &Warning) -> (Case, Proof) {
        let mut least = (case, proof);
        loop {
            let mut lesser = least.0.lesser().into_iter();
            let next = lesser.find_map(|less| {
                if self.done.get() >= self.most || self.is_refused.get() {
                    return None;
                }
                let (_, proof) = self.shown(&less, &[warning]).into_iter().next()?;
                Some((less, proof))
            });
            match next {
                Some(next) => least = next,
                None => return least,
            }
        }
    }
}

/// The number of the case of a key: `e7` or `e7.0`.
pub(crate) fn number_of(key: &[u8]) -> Option<usize> {
    let digits: Vec<u8> = key.strip_prefix(b"e")?.iter().copied().take_while(u8::is_ascii_digit).collect();
    std::str::from_utf8(&digits).ok()?.parse().ok()
}

/// Whether an error can be that of a warning, but for its place.
fn fits(warning: &Warning, error: &Logged<'_>) -> bool {
    let is_left = Fault::LeftOver.has_message(error.text);
    match warning.fault {
        Some(Fault::LeftOver) => is_left,
        None if warning.places.is_empty() => is_left,
        Some(fault) => fault.has_message(error.text) && Folded(error.function) == Folded(&warning.next),
        None => Folded(error.function) == Folded(&warning.next),
    }
}

/// Whether an event is at a warning's place.
fn is_at(warning: &Warning, note: &Note) -> bool {
    if note.what != What::Left {
        let of_warning = warning.places.first().and_then(|spot| spot.token);
        return of_warning.is_some() && of_warning == note.at.as_ref().and_then(|spot| spot.token);
    }
    let Some(command) = &note.command else { return false };
    match &warning.item {
        Some(item) => item.call.line == command.call.line,
        None => command.call.function.ends_with(&[b"{", &warning.next[..], b"}"].concat()),
    }
}

/// The types of the entries that are tried: those of the style, and one that no style knows.
pub(crate) fn tried_types(style: &StyleRead<'_>) -> Vec<Vec<u8>> {
    let mut types = types_meant(style);
    types.truncate(MOST_TYPES);
    types.push(UNKNOWN_TYPE.to_vec());
    types
}

/// Tries to show each of these warnings of a style by an entry. Where memory is refused to a run, nothing is said of any.
pub fn entries(style: &File, warnings: &[&Warning]) -> Result<Vec<Shown>, MemoryRefused> {
    entries_by(style, warnings, WORK)
}

/// Tries to show each of these warnings by at most this much work.
fn entries_by(style: &File, warnings: &[&Warning], most: u64) -> Result<Vec<Shown>, MemoryRefused> {
    let search = Search::new(style, most);
    let found = search.find(warnings);
    let shown = |(number, found): (usize, Found)| {
        let Some((case, proof)) = found else { return Shown::Nowhere };
        let (least, Proof { message, since }) = search.shrunk(case, proof, warnings[number]);
        Shown::By { database: least.text("key"), message, since }
    };
    let all = found.into_iter().enumerate().map(shown).collect();
    if search.is_refused.get() { Err(MemoryRefused) } else { Ok(all) }
}

impl Search<'_> {
    /// For each warning a case that shows it.
    fn find(&self, warnings: &[&Warning]) -> Vec<Found> {
        let style = StyleRead::new(self.style.bytes.as_deref().unwrap_or_default());
        let types = tried_types(&style);
        let fields = style.names.fields().map(<[u8]>::to_vec).collect();
        let mut maker = Maker { types, fields, numbers: Numbers(88_172_645_463_325_252) };
        let mut found: Vec<Found> = vec![None; warnings.len()];
        self.try_each(&[&Case::default()], warnings, &mut found);
        for case in warnings.iter().flat_map(|warning| maker.said(warning)) {
            self.try_each(&[&case], warnings, &mut found);
        }
        let mut plain = maker.plain();
        while self.may_search() && found.iter().any(Option::is_none) {
            let cases: Vec<Case> = plain.by_ref().take(maker.cases_of_run()).collect();
            if cases.is_empty() {
                break;
            }
            self.try_many(&cases, warnings, &mut found);
        }
        drop(plain);
        let mut fruitless = 0;
        while self.may_search() && fruitless < MOST_FRUITLESS {
            let before = found.iter().flatten().count();
            self.try_many(&maker.cases_by_chance(), warnings, &mut found);
            fruitless = if found.iter().flatten().count() > before { 0 } else { fruitless + 1 };
        }
        found
    }

    /// Tries cases in one run, then those that are promising by themselves.
    fn try_many(&self, cases: &[Case], warnings: &[&Warning], found: &mut [Found]) {
        let open: Vec<&Warning> = warnings
            .iter()
            .zip(found.iter())
            .filter(|(_, found)| found.is_none())
            .map(|(warning, _)| *warning)
            .collect();
        if !open.is_empty() && self.may_search() {
            self.try_each(&self.promising(cases, &open), warnings, found);
        }
    }

    fn try_each(&self, cases: &[&Case], warnings: &[&Warning], found: &mut [Found]) {
        for &case in cases {
            if !self.may_search() || found.iter().all(Option::is_some) {
                return;
            }
            for (number, proof) in self.shown(case, warnings) {
                found[number].get_or_insert_with(|| (case.clone(), proof));
            }
        }
    }
}

#[cfg(test)]
mod tests {
    use super::*;
    use crate::lint_warnings::read;

    fn style(text: &str) -> File {
        File { name: b"s.bst".to_vec(), bytes: Some(text.into()), path: Vec::new() }
    }

    const STYLE: &str = "ENTRY {author title year}{}{}\nFUNCTION {f}\n{ title write$ }\nFUNCTION {book}\n\
        { author empty$ 'skip$\n { year empty$ {#1 write$} 'f if$ } if$ }\nREAD\nITERATE {call.type$}\n";

    fn shown(notes: &str) -> Vec<Shown> {
        let read = read(notes.as_bytes(), b"s.bst");
        entries_by(&style(STYLE), &read.shown(), 2_000_000).unwrap()
    }

    #[test]
    fn entries_are_found_and_shrunk() {
        let found = shown("warning kind first\nnext write$\nmissing title\nat in 3 0 1 f\n");
        let [Shown::By { database, message, .. }] = &found[..] else { panic!("{found:?}") };
        assert_eq!(message, b"Error--missing field is not a string while executing write$ for entry key");
        let wanted = "@book{key,\n  author = {Ann Lee and Bo Ray},\n  year = {2001}}\n";
        assert_eq!(String::from_utf8_lossy(database), wanted);
    }

    #[test]
    fn what_is_impossible_isn_t_shown() {
        assert_eq!(shown("warning stack first\nnext write$\nat in 3 0 1 f\n"), [Shown::Nowhere]);
    }

    #[test]
    fn cases_have_their_texts() {
        let entry = |kind: &str| Entry { kind: kind.into(), fields: vec![(b"title".to_vec(), b"T".to_vec())] };
        let case = Case { entries: vec![entry("a"), entry("b")], is_crossed: true };
        let wanted = "@a{k.0,\n  crossref = {k.1},\n  title = {T}}\n@b{k.1,\n  title = {T}}\n";
        assert_eq!(String::from_utf8(case.text("k")).unwrap(), wanted);
        assert_eq!(case.lesser().len(), 4);
        assert_eq!(Case::default().text("k"), b"");
        assert_eq!(
            (number_of(b"e12.1"), number_of(b"x"), usual_value(b"school")),
            (Some(12), None, b"School".to_vec())
        );
    }
}
