//! The words of the command line, taken as the original takes them: by the rules of the C library's `getopt_long_only`. Each option has one
//! hyphen or two, and may be shortened to a beginning that no other option has; its value follows a `=` or is the next word.

use crate::btx::{Options, Rooms};
use crate::languages::{self, Language};
use crate::letters::TextMode;
use std::ops::RangeInclusive;
use std::sync::Arc;

/// Whether messages are explained.
#[derive(Debug, Clone, Copy, PartialEq, Eq)]
pub enum Explain {
    /// Where standard output is a terminal.
    OnTerminal,
    Always,
    Never,
    /// They are explained, and nothing is written.
    Only,
}

/// A run that was asked for.
#[derive(Debug, Clone, PartialEq, Eq)]
pub struct Words {
    pub job: Vec<u8>,
    pub terse: bool,
    /// Whether messages are printed as JSON.
    pub is_json: bool,
    /// Whether a citation without an entry counts as an error.
    pub is_strict: bool,
    pub explain: Explain,
    pub options: Options,
    /// How text is read; the options of a run follow it.
    pub text: TextMode,
    /// Whose letters are sorted and changed in case by rules of their own; None where all bytes are as the original takes them.
    pub language: Option<Arc<Language>>,
    /// The limits of variables, where they were given; else TeX's set-up gives them.
    pub entry_max: Option<u32>,
    pub global_max: Option<u32>,
    pub rooms: Rooms,
    /// The options of bibtex8 that were given and have no object here.
    pub ignored: Vec<Vec<u8>>,
}

/// What the words ask for.
#[derive(Debug, Clone, PartialEq, Eq)]
pub enum Asked {
    Run(Box<Words>),
    Help,
    Version,
    /// The words are refused, for this reason.
    Refused(Vec<u8>),
}

/// The options.
#[derive(Debug, Clone, Copy, PartialEq, Eq)]
enum Choice {
    MinCrossrefs,
    Terse,
    Json,
    Help,
    Version,
    Explain,
    NoExplain,
    ExplainOnly,
    Budget,
    Text,
    Letters,
    Line,
    EntryMax,
    GlobalMax,
    LogRoom,
    ListRoom,
    Strict,
    /// An option of bibtex8 that says how large its tables are, or what its letters are.
    Ignored,
    /// Where the files are; they are searched for.
    Folder,
}

/// An option.
#[derive(Debug, Clone, Copy)]
struct Row {
    name: &'static str,
    choice: Choice,
    has_value: bool,
}

/// An option that has a value.
const fn with_value(name: &'static str, choice: Choice) -> Row {
    Row { name, choice, has_value: true }
}

/// An option that has none.
const fn alone(name: &'static str, choice: Choice) -> Row {
    Row { name, choice, has_value: false }
}

/// The original's options. Their shortened forms come before those of all others.
const ORIGINAL: [Row; 4] = [
    alone("terse", Choice::Terse),
    with_value("min-crossrefs", Choice::MinCrossrefs),
    alone("help", Choice::Help),
    alone("version", Choice::Version),
];

/// Our own options.
const OWN: [Row; 14] = [
    alone("explain", Choice::Explain),
    alone("no-explain", Choice::NoExplain),
    alone("explain-only", Choice::ExplainOnly),
    with_value("budget", Choice::Budget),
    with_value("text", Choice::Text),
    with_value("letters", Choice::Letters),
    with_value("line", Choice::Line),
    with_value("entry-max", Choice::EntryMax),
    with_value("global-max", Choice::GlobalMax),
    with_value("log-room", Choice::LogRoom),
    with_value("list-room", Choice::ListRoom),
    alone("strict", Choice::Strict),
    alone("json", Choice::Json),
    with_value("dir", Choice::Folder),
];

/// The options of bibtex8 and bibtexu that ask for something. Their letters count only as they are.
const EIGHT: [Row; 3] = [
    with_value("M", Choice::MinCrossrefs),
    with_value("min_crossrefs", Choice::MinCrossrefs),
    alone("?", Choice::Help),
];

/// Their other options, without a value and with one.
const IGNORED: [&str; 13] =
    ["7", "8", "B", "H", "W", "s", "traditional", "8bit", "statistics", "trace", "big", "huge", "wolfgang"];
const IGNORED_WITH_VALUE: [&str; 12] = [
    "c", "d", "csfile", "debug", "mcites", "mentints", "mentstrs", "mfields", "mpool", "mstrings", "mwizfuns",
    "language",
];

/// All options of bibtex8 and bibtexu.
fn all_of_eight() -> impl Iterator<Item = Row> {
    let ignored = IGNORED.into_iter().map(|name| alone(name, Choice::Ignored));
    let ignored_with_value = IGNORED_WITH_VALUE.into_iter().map(|name| with_value(name, Choice::Ignored));
    EIGHT.into_iter().chain(ignored).chain(ignored_with_value)
}

/// What is wrong with the name of an option.
enum Misnamed {
    Unknown,
    /// Each of these begins so.
    Ambiguous(Vec<&'static str>),
}

/// The option that a name means: one that has this name, or else the only one of the original's that begins so, or else the only one of ours,
/// or of bibtex8's.
fn option_named(name: &[u8]) -> Result<Row, Misnamed> {
    let all = [ORIGINAL.to_vec(), OWN.to_vec(), all_of_eight().collect()];
    if let Some(row) = all.iter().flatten().find(|row| row.name.as_bytes() == name) {
        return Ok(*row);
    }
    for rows in &all {
        let beginning: Vec<Row> = rows.iter().filter(|row| row.name.as_bytes().starts_with(name)).copied().collect();
        match beginning[..] {
            [row] => return Ok(row),
            [] => {}
            _ => return Err(Misnamed::Ambiguous(beginning.iter().map(|row| row.name).collect())),
        }
    }
    Err(Misnamed::Unknown)
}

/// A number as the original reads it: of the beginning of a text, without a refusal. It is the C library's `atoi`.
fn loose_number(text: &[u8]) -> i32 {
    let text = text.trim_ascii_start();
    let (digits, is_negative) = match text.first() {
        Some(b'-') => (&text[1..], true),
        Some(b'+') => (&text[1..], false),
        _ => (text, false),
    };
    let digits = digits.iter().take_while(|digit| digit.is_ascii_digit()).map(|digit| i64::from(digit - b'0'));
    let sign = if is_negative { -1 } else { 1 };
    let number = digits.fold(0i64, |number, digit| number.saturating_mul(10).saturating_add(sign * digit));
    // A number of C's `long` is cut to an `int`.
    number as i32
}

/// A number in a range, with nothing else in its text.
fn number(name: &str, value: &[u8], range: RangeInclusive<u64>) -> Result<u64, Vec<u8>> {
    let number = std::str::from_utf8(value).ok().and_then(|value| value.parse().ok());
    number.filter(|number| range.contains(number)).ok_or_else(|| {
        let wanted = format!("the value of -{name} is a number from {} to {}, not '", range.start(), range.end());
        [wanted.as_bytes(), value, b"'"].concat()
    })
}

/// A number of bytes: digits, and `K`, `M` or `G` after them for their 1,024th powers.
fn size(name: &str, value: &[u8]) -> Result<usize, Vec<u8>> {
    let (digits, unit) = match value.split_last() {
        Some((b'K' | b'k', digits)) => (digits, 1 << 10),
        Some((b'M' | b'm', digits)) => (digits, 1 << 20),
        Some((b'G' | b'g', digits)) => (digits, 1 << 30),
        _ => (value, 1),
    };
    let most = (1u64 << 40) / unit;
    Ok((number(name, digits, 0..=most)? * unit) as usize)
}

impl Words {
    fn new(explain: Explain) -> Words {
        let options = Options {
            budget: 1_000_000_000,
            min_crossrefs: 2,
            line: 79,
            entry_max: 500,
            global_max: 200_000,
            utf8: false,
        };
        Words {
            job: Vec::new(),
            terse: false,
            is_json: false,
            is_strict: false,
            explain,
            options,
            text: TextMode::Auto,
            language: None,
            entry_max: None,
            global_max: None,
            rooms: Rooms { list: 1 << 30, log: 64 << 20 },
            ignored: Vec::new(),
        }
    }

    /// Whether messages are explained where standard output is a terminal, or isn't.
    pub fn explains(&self, is_terminal: bool) -> bool {
        match self.explain {
            Explain::OnTerminal => is_terminal,
            Explain::Never => false,
            Explain::Always | Explain::Only => true,
        }
    }

    /// Takes an option that asks for something of a run.
    fn take(&mut self, row: Row, value: &[u8], word: &[u8]) -> Result<(), Vec<u8>> {
        let name = row.name;
        match row.choice {
            Choice::Terse => self.terse = true,
            Choice::Strict => self.is_strict = true,
            Choice::Json => self.is_json = true,
            Choice::Explain => self.explain = Explain::Always,
            Choice::NoExplain => self.explain = Explain::Never,
            Choice::ExplainOnly => self.explain = Explain::Only,
            // Less than none is none.
            Choice::MinCrossrefs => self.options.min_crossrefs = loose_number(value).max(0) as u32,
            Choice::Budget => self.options.budget = number(name, value, 0..=1_000_000_000_000_000)?,
            Choice::Line => self.options.line = number(name, value, 20..=1000)? as u32,
            Choice::EntryMax => self.entry_max = Some(number(name, value, 1..=1_000_000)? as u32),
            Choice::GlobalMax => self.global_max = Some(number(name, value, 1..=1_000_000)? as u32),
            Choice::LogRoom => self.rooms.log = size(name, value)?,
            Choice::ListRoom => self.rooms.list = size(name, value)?,
            Choice::Text => self.text = text_mode(value)?,
            Choice::Letters => self.language = language_named(value)?,
            Choice::Folder => {
                return Err(
                    b"the files are searched for, so there is no option -dir: name the job with its folder".into()
                );
            }
            Choice::Ignored => self.ignored.push(word.to_vec()),
            Choice::Help | Choice::Version => {}
        }
        Ok(())
    }
}

fn text_mode(value: &[u8]) -> Result<TextMode, Vec<u8>> {
    match value {
        b"auto" => Ok(TextMode::Auto),
        b"bytes" => Ok(TextMode::Bytes),
        b"utf8" => Ok(TextMode::Utf8),
        _ => Err([b"the value of -text is auto, bytes or utf8, not '", value, b"'"].concat()),
    }
}

/// The language whose letters are asked for; None where none is.
fn language_named(value: &[u8]) -> Result<Option<Arc<Language>>, Vec<u8>> {
    if value == b"no" {
        return Ok(None);
    }
    let refused = || {
        let wanted = format!("the value of -letters is no or one of {}, not '", languages::names());
        [wanted.as_bytes(), value, b"'"].concat()
    };
    Ok(Some(Arc::new(Language::named(value).ok_or_else(refused)?)))
}

/// A word that is an option: how many hyphens it has, its name, and its value where a `=` is in the word.
struct OptionWord<'a> {
    hyphens: &'static [u8],
    name: &'a [u8],
    value: Option<&'a [u8]>,
}

impl<'a> OptionWord<'a> {
    /// The option that a word is; None where it is a job.
    fn read(word: &'a [u8]) -> Option<OptionWord<'a>> {
        let (hyphens, rest): (&[u8], _) = match word.strip_prefix(b"--") {
            Some(rest) => (b"--", rest),
            None => (b"-", word.strip_prefix(b"-").filter(|rest| !rest.is_empty())?),
        };
        let (name, value) = match rest.iter().position(|byte| *byte == b'=') {
            Some(at) => (&rest[..at], Some(&rest[at + 1..])),
            // bibtex8's `-M3`
            None if hyphens.len() == 1
                && rest.starts_with(b"M")
                && rest.len() > 1
                && rest[1..].iter().all(u8::is_ascii_digit) =>
            {
                (&rest[..1], Some(&rest[1..]))
            }
            None => (rest, None),
        };
        Some(OptionWord { hyphens, name, value })
    }

    /// The option that this word means, and its value, which may be the next word.
    fn meaning(&self, words: &mut impl Iterator<Item = Vec<u8>>) -> Result<(Row, Vec<u8>), Vec<u8>> {
        let named = |name: &[u8], what: &str| [b"option '", self.hyphens, name, b"' ", what.as_bytes()].concat();
        let row = option_named(self.name).map_err(|wrong| match wrong {
            Misnamed::Unknown => [b"unrecognized option '", self.hyphens, self.name, b"'"].concat(),
            Misnamed::Ambiguous(options) => {
                let hyphens = String::from_utf8_lossy(self.hyphens);
                let all: Vec<String> = options.iter().map(|option| format!("'{hyphens}{option}'")).collect();
                named(self.name, &format!("is ambiguous; possibilities: {}", all.join(" ")))
            }
        })?;
        match (row.has_value, self.value) {
            (false, Some(_)) => Err(named(row.name.as_bytes(), "doesn't allow an argument")),
            (false, None) => Ok((row, Vec::new())),
            (true, Some(value)) => Ok((row, value.to_vec())),
            (true, None) => {
                let value = words.next().ok_or_else(|| named(row.name.as_bytes(), "requires an argument"))?;
                Ok((row, value))
            }
        }
    }
}

/// What these words ask for. `explain` is what holds where no word says more, and where `jobs_last` is set, no word after the first job is
/// an option.
pub fn read(words: impl Iterator<Item = Vec<u8>>, explain: Explain, jobs_last: bool) -> Asked {
    read_words(words, explain, jobs_last).unwrap_or_else(Asked::Refused)
}

fn read_words(mut words: impl Iterator<Item = Vec<u8>>, explain: Explain, jobs_last: bool) -> Result<Asked, Vec<u8>> {
    let mut asked = Words::new(explain);
    let (mut jobs, mut are_jobs) = (Vec::new(), false);
    while let Some(word) = words.next() {
        if !are_jobs && word == b"--" {
            are_jobs = true;
            continue;
        }
        let Some(option) = OptionWord::read(&word).filter(|_| !are_jobs) else {
            are_jobs |= jobs_last;
            jobs.push(word);
            continue;
        };
        let (row, value) = option.meaning(&mut words)?;
        match row.choice {
            Choice::Help => return Ok(Asked::Help),
            Choice::Version => return Ok(Asked::Version),
            _ => asked.take(row, &value, &word)?,
        }
    }
    match &mut jobs[..] {
        [job] => asked.job = std::mem::take(job),
        [] => return Err(b"Need exactly one file argument.".into()),
        jobs => return Err(several(jobs)),
    }
    Ok(Asked::Run(Box::new(asked)))
}

/// What is said of several names where one is wanted. A name with spaces may be meant by them.
fn several(jobs: &[Vec<u8>]) -> Vec<u8> {
    let whole = jobs.join(&b' ');
    [&b"Need exactly one file argument. A name with spaces stands in quotes: \""[..], &whole, b"\"."].concat()
}

#[cfg(test)]
mod tests {
    use super::*;

    fn asked(words: &[&str]) -> Asked {
        read(words.iter().map(|word| word.as_bytes().to_vec()), Explain::OnTerminal, false)
    }

    fn run(words: &[&str]) -> Words {
        match asked(words) {
            Asked::Run(words) => *words,
            other => panic!("{words:?}: {other:?}"),
        }
    }

    fn refused(words: &[&str]) -> String {
        match asked(words) {
            Asked::Refused(why) => String::from_utf8(why).unwrap(),
            other => panic!("{words:?}: {other:?}"),
        }
    }

    #[test]
    fn options_are_taken_in_each_form() {
        for words in [
            ["-min-crossrefs=3", "a"],
            ["--min-crossrefs=3", "a"],
            ["-min-crossref=3", "a"],
            ["-m=3", "a"],
            ["a", "--min=3"],
            ["-M=3", "a"],
            ["-M3", "a"],
        ] {
            assert_eq!(run(&words).options.min_crossrefs, 3, "{words:?}");
        }
        assert_eq!(run(&["-min", "3", "a"]).options.min_crossrefs, 3);
        assert_eq!(run(&["-min", "3", "-min", "4", "a"]).options.min_crossrefs, 4);
        assert!(run(&["-t", "a"]).terse && run(&["--ter", "a"]).terse);
        assert_eq!(["-json", "--js", "-terse"].map(|word| run(&[word, "a"]).is_json), [true, true, false]);
        assert_eq!(["-strict", "--str", "-terse"].map(|word| run(&[word, "a"]).is_strict), [true, true, false]);
        assert_eq!(run(&["--", "-a"]).job, b"-a");
        assert_eq!(run(&["-"]).job, b"-");
        assert_eq!(run(&["a", "-explain"]).explain, Explain::Always);
        assert_eq!(asked(&["-v"]), Asked::Version);
        assert_eq!(asked(&["a", "b", "-h"]), Asked::Help);
    }

    #[test]
    fn numbers_are_read_as_the_original_reads_them() {
        for (text, number) in
            [("-1", 0), ("x", 0), (" 12x", 12), ("+7", 7), ("4294967297", 1), ("99999999999999999999", 0), ("", 0)]
        {
            assert_eq!(run(&[&format!("-min-crossrefs={text}"), "a"]).options.min_crossrefs, number, "{text}");
        }
    }

    #[test]
    fn a_size_has_a_unit() {
        assert_eq!(run(&["-log-room=2K", "-list-room", "3M", "a"]).rooms, Rooms { list: 3 << 20, log: 2 << 10 });
        assert!(refused(&["-log-room=2T", "a"]).contains("-log-room"));
    }

    #[test]
    fn what_is_refused_says_why() {
        assert_eq!(refused(&["-foo", "a"]), "unrecognized option '-foo'");
        assert_eq!(
            refused(&["--e", "a"]),
            "option '--e' is ambiguous; possibilities: '--explain' '--explain-only' '--entry-max'"
        );
        assert_eq!(
            refused(&["-=1", "a"]),
            "option '-' is ambiguous; possibilities: '-terse' '-min-crossrefs' '-help' '-version'"
        );
        assert_eq!(refused(&["-terse=1", "a"]), "option '-terse' doesn't allow an argument");
        assert_eq!(refused(&["a", "-min"]), "option '-min-crossrefs' requires an argument");
        assert_eq!(refused(&[]), "Need exactly one file argument.");
        let several = "Need exactly one file argument. A name with spaces stands in quotes: \"a b\".";
        assert_eq!(refused(&["a", "b"]), several);
        assert!(refused(&["-line=10", "a"]).contains("20 to 1000"));
    }

    #[test]
    fn the_options_of_bibtex8_are_ignored() {
        let words = run(&["-B", "--mcites", "5000", "-c", "latin.csf", "-M", "4", "a"]);
        assert_eq!(words.options.min_crossrefs, 4);
        assert_eq!(words.ignored, [&b"-B"[..], b"--mcites", b"-c"]);
    }
}
