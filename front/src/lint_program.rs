//! `bibtex-lint`: what can be said of styles before any document uses them. `bibtex-search` is this program where it is called so.

use crate::btx::Options;
use crate::exit::{Failure, Name, Status};
use crate::job::{File, Files, find_style, is_of_missing};
use crate::lint_databases::{self, is_database};
use crate::lint_forms::{line_of, write_for_people};
use crate::lint_json::json_of;
use crate::search::Search;
use crate::style_check::StyleCheck;
use crate::terminal::{Patient, Terminal, plain};
use crate::trace::trace;
use std::ffi::OsString;
use std::fmt;
use std::io::{self, BufWriter, Write};
use std::os::unix::ffi::OsStringExt;
use std::process::ExitCode;

const HELP: &str = concat!(
    "Says of styles of BibTeX, before any document uses them, what is wrong in
  their text, and whether a run can go wrong by them: a style that is called
  clean never logs a fault of the stack or of kinds (an empty stack, a wrong
  operand, a literal left over), with a budget of up to 1,500,000,000 steps.
  It may log others, such as a format of names that is illegal. Styles are
  found along BSTINPUTS, and where TeX has its own.
  A style that is said to end has a bound. No run of it whose budget is at
  least the bound is stopped, and none takes more steps. That is proved for
  any document, and for any databases whose entries have types that are named
  or that the style doesn't know. A global string variable keeps at most as
  many bytes there as is said. A run may end sooner, at a limit of the stack,
  of a string or of a file.
  Of databases (names that end in .bib) it says what python3 -m btx doctor
  says, if Python's package btx is installed; else what a run would log.

",
    include_str!("help/bibtex-lint.txt"),
    "
Exit status: 0 all are clean; 1 the words are refused, or a file isn't found;
2 there are messages or warnings, in a database errors; 3 a check didn't come to its end; 5 memory
was refused; 6 a style couldn't be read, or what is found not be printed.
"
);

/// How a style's check is printed.
#[derive(Debug, Clone, Copy, PartialEq, Eq)]
enum Form {
    People,
    Line,
    Json,
}

/// How styles are checked.
#[derive(Debug, Clone, Copy, PartialEq, Eq)]
struct How {
    form: Form,
    /// How many steps a check may take, where that is given.
    steps: Option<u64>,
    /// Whether an entry is searched for that shows each warning.
    has_entries: bool,
}

/// How they are checked where nothing else is said.
const USUAL: How = How { form: Form::People, steps: None, has_entries: false };

/// What the words of the command line ask for.
#[derive(Debug, PartialEq, Eq)]
enum Asked {
    Check { how: How, styles: Vec<Vec<u8>> },
    Databases { as_json: bool, databases: Vec<Vec<u8>> },
    Job(Vec<u8>),
    Trace(Traced),
    Help,
    Version,
    Refused(String),
}

/// An entry whose run is to be traced.
#[derive(Debug, Clone, PartialEq, Eq)]
struct Traced {
    job: Vec<u8>,
    key: Vec<u8>,
    /// The function of which each token is shown.
    function: Option<Vec<u8>>,
}

/// What the words with a job ask for.
fn with_job(job: Vec<u8>, key: Option<Vec<u8>>, function: Option<Vec<u8>>) -> Asked {
    match key {
        Some(key) => Asked::Trace(Traced { job, key, function }),
        None if function.is_some() => Asked::Refused("--function needs --trace".into()),
        None => Asked::Job(job),
    }
}

/// Reads the words of the command line.
fn read_words(words: impl Iterator<Item = Vec<u8>>) -> Asked {
    let mut how = USUAL;
    let (mut styles, mut job, mut key, mut function) = (Vec::new(), None, None, None);
    let (mut words, mut are_names) = (words, false);
    while let Some(word) = words.next() {
        let option = word.strip_prefix(b"-").filter(|rest| !rest.is_empty() && !are_names);
        let Some(option) = option.map(|rest| rest.strip_prefix(b"-").unwrap_or(rest)) else {
            styles.push(word);
            continue;
        };
        match option {
            b"" => are_names = true,
            b"line" => how.form = Form::Line,
            b"json" => how.form = Form::Json,
            b"entry" => how.has_entries = true,
            b"help" | b"h" => return Asked::Help,
            b"version" => return Asked::Version,
            b"job" | b"trace" | b"function" => {
                let Some(word) = words.next() else {
                    return Asked::Refused(format!("--{} needs a name after it", plain(option)));
                };
                let named = match option {
                    b"job" => &mut job,
                    b"trace" => &mut key,
                    _ => &mut function,
                };
                *named = Some(word);
            }
            _ => match steps_of(option) {
                Some(number) => how.steps = Some(number),
                None if option.starts_with(b"steps=") => {
                    return Asked::Refused(format!("--steps takes a number from 0 to {}", u64::MAX));
                }
                None => return Asked::Refused(format!("I don't know the option {}", plain(&word))),
            },
        }
    }
    match job {
        Some(job) if styles.is_empty() && how == USUAL => with_job(job, key, function),
        Some(_) => Asked::Refused("--job takes no style, and no other option than --trace: it is for people".into()),
        None if key.is_some() || function.is_some() => Asked::Refused("--trace and --function need --job".into()),
        None if styles.is_empty() => Asked::Refused("name a style or a database".into()),
        None if styles.iter().all(|name| is_database(name)) => match how {
            How { form: Form::Line, .. } | How { steps: Some(_), .. } | How { has_entries: true, .. } => {
                Asked::Refused("of the options databases take --json alone".into())
            }
            How { form, .. } => Asked::Databases { as_json: form == Form::Json, databases: styles },
        },
        None if styles.iter().any(|name| is_database(name)) => {
            Asked::Refused("styles and databases are checked by calls of their own".into())
        }
        None => Asked::Check { how, styles },
    }
}

/// The number of an option `steps=N`.
fn steps_of(option: &[u8]) -> Option<u64> {
    std::str::from_utf8(option.strip_prefix(b"steps=")?).ok()?.parse().ok()
}

/// The program. `explain_job` is what explains a job, and `files_of` what finds the files of one, with its options.
pub fn main(
    name: &Name,
    words: impl Iterator<Item = OsString>,
    explain_job: impl FnOnce(Vec<u8>) -> Result<Status, Failure>,
    files_of: impl FnOnce(&[u8]) -> Result<(Files, Options), Failure>,
) -> ExitCode {
    match read_words(words.map(OsString::into_vec)) {
        Asked::Help => printed(
            name,
            &format!("Usage: {name} [OPTION]... STYLE...\n   or: {name} [--json] DATABASE.bib...\n{HELP}"),
        ),
        Asked::Version => printed(name, &format!("{name} {} (BibTeX, proved)\n", env!("CARGO_PKG_VERSION"))),
        Asked::Refused(why) => {
            name.say(why);
            let _ = writeln!(io::stderr(), "Try `{name} --help' for more information.");
            Status::Refused
        }
        Asked::Job(job) => explain_job(job.clone()).unwrap_or_else(|failure| unexplained(name, &job, &failure)),
        Asked::Trace(traced) => {
            let found = files_of(&traced.job);
            found
                .and_then(|(files, options)| trace_entry(name, &traced, &files, &options))
                .unwrap_or_else(|failure| unexplained(name, &traced.job, &failure))
        }
        Asked::Check { how, styles } => check_all(name, how, &styles),
        Asked::Databases { as_json, databases } => lint_databases::examine(name, &databases, as_json),
    }
    .into()
}

/// Prints the run of an entry of a job.
fn trace_entry(name: &Name, traced: &Traced, files: &Files, options: &Options) -> Result<Status, Failure> {
    let Some(trace) = trace(files, &traced.key, options)? else {
        name.say(format_args!("no command of the style is executed for an entry {}", plain(&traced.key)));
        return Ok(Status::Refused);
    };
    let mut out = BufWriter::new(Patient(io::stdout()));
    let written = trace.write(traced.function.as_deref(), &mut out).and_then(|()| out.flush());
    Ok(written.map_or_else(|fault| name.unprinted(&fault), |()| Status::Finished))
}

/// Says why a job isn't explained, and answers the exit status: one that isn't there is refused, as a style is.
fn unexplained(name: &Name, job: &[u8], failure: &Failure) -> Status {
    match failure {
        Failure::NoTop(_, reason) if is_of_missing(reason) => {
            name.say(format_args!("there is no job {}: {failure}", plain(job)));
            Status::Refused
        }
        Failure::NoTop(..) => {
            name.say(failure);
            Status::Device
        }
        _ => {
            name.say(failure);
            failure.status()
        }
    }
}

fn printed(name: &Name, text: &str) -> Status {
    let printed = io::stdout().write_all(text.as_bytes()).and_then(|()| io::stdout().flush());
    printed.map_or_else(|fault| name.unprinted(&fault), |()| Status::Finished)
}

/// Checks styles, one after the other.
fn check_all(name: &Name, how: How, styles: &[Vec<u8>]) -> Status {
    let search = Search::begin();
    let stdout = io::stdout();
    let terminal = Terminal::of(&stdout);
    let mut out = stdout.lock();
    let mut statuses = Vec::new();
    let mut shown = Vec::new();
    for style in styles {
        let check = match lint(&search, how, style) {
            Ok(check) => check,
            Err(unchecked) => {
                name.say(&unchecked);
                statuses.push(unchecked.status());
                continue;
            }
        };
        statuses.push(status_of(&check));
        let written = match how.form {
            Form::People => write_for_people(&check, &terminal, &mut out),
            Form::Line => writeln!(out, "{}", line_of(&check)),
            Form::Json => {
                shown.push(json_of(&check));
                Ok(())
            }
        };
        if let Err(fault) = written {
            return name.unprinted(&fault);
        }
    }
    let written = if how.form == Form::Json { writeln!(out, "[{}]", shown.join(",\n ")) } else { Ok(()) };
    if let Err(fault) = written.and_then(|()| out.flush()) {
        return name.unprinted(&fault);
    }
    let order = [Status::Memory, Status::Device, Status::Refused, Status::Errors, Status::Limit];
    order.into_iter().find(|status| statuses.contains(status)).unwrap_or(Status::Finished)
}

/// Finds, reads and checks a style; its ending may be left out.
fn lint<'a>(search: &Search, how: How, name: &'a [u8]) -> Result<StyleCheck, Unchecked<'a>> {
    let failed = |failure| Unchecked::Failed(name, failure);
    let whole = if name.ends_with(b".bst") { name.to_vec() } else { [name, b".bst"].concat() };
    let file = find_style(search, &whole).map_err(failed)?.map_err(|reason| Unchecked::Missing(name, reason))?;
    let last = whole.rsplit(|byte| *byte == b'/').next().unwrap_or_default().to_vec();
    StyleCheck::new(File { name: last, ..file }, how.steps, how.has_entries).map_err(failed)
}

/// Why a style of this name isn't checked.
#[derive(Debug)]
enum Unchecked<'a> {
    /// There is none. Where something stands in its place, that is why.
    Missing(&'a [u8], Option<&'static str>),
    /// The machine fails, which says nothing of the style.
    Failed(&'a [u8], Failure),
}

impl Unchecked<'_> {
    fn status(&self) -> Status {
        match self {
            Unchecked::Missing(..) => Status::Refused,
            Unchecked::Failed(_, failure) => failure.status(),
        }
    }
}

impl fmt::Display for Unchecked<'_> {
    fn fmt(&self, out: &mut fmt::Formatter<'_>) -> fmt::Result {
        match self {
            Unchecked::Missing(style, None) => write!(out, "there is no style {}", plain(style)),
            Unchecked::Missing(style, Some(reason)) => write!(out, "there is no style {}: {reason}", plain(style)),
            // (of anything else the failure names the file)
            Unchecked::Failed(style, Failure::Memory) => write!(out, "{}: out of memory", plain(style)),
            Unchecked::Failed(_, failure) => failure.fmt(out),
        }
    }
}

fn status_of(check: &StyleCheck) -> Status {
    match check.word() {
        "clean" => Status::Finished,
        "incomplete" => Status::Limit,
        _ => Status::Errors,
    }
}

#[cfg(test)]
mod tests {
    use super::*;

    fn asked(words: &[&str]) -> Asked {
        read_words(words.iter().map(|word| word.as_bytes().to_vec()))
    }

    #[test]
    fn words_are_read() {
        let check = |form, steps, has_entries, style: &str| Asked::Check {
            how: How { form, steps, has_entries },
            styles: vec![style.into()],
        };
        assert_eq!(asked(&["plain"]), check(Form::People, None, false, "plain"));
        assert_eq!(asked(&["-json", "--steps=7", "plain"]), check(Form::Json, Some(7), false, "plain"));
        assert_eq!(asked(&["--line", "--", "--x"]), check(Form::Line, None, false, "--x"));
        assert_eq!(asked(&["--entry", "plain"]), check(Form::People, None, true, "plain"));
        assert_eq!(asked(&["--job", "paper"]), Asked::Job(b"paper".to_vec()));
        let databases = |as_json, name: &str| Asked::Databases { as_json, databases: vec![name.into()] };
        assert_eq!(asked(&["a.bib"]), databases(false, "a.bib"));
        assert_eq!(asked(&["--json", "--", "-a.BIB"]), databases(true, "-a.BIB"));
        for refused in [["a.bib", "plain"], ["--line", "a.bib"], ["--steps=1", "a.bib"], ["--entry", "a.bib"]] {
            assert!(matches!(asked(&refused), Asked::Refused(_)), "{refused:?}");
        }
        assert_eq!(asked(&["--help", "x"]), Asked::Help);
        assert_eq!(asked(&["-h"]), Asked::Help);
        for refused in
            [&["--job"][..], &[], &["--nosuch", "plain"], &["--steps=x", "plain"], &["--json", "--job", "paper"]]
        {
            assert!(matches!(asked(refused), Asked::Refused(_)), "{refused:?}");
        }
        assert!(matches!(asked(&["--job", "paper", "--line"]), Asked::Refused(_)));
        assert!(matches!(asked(&["--job", "paper", "plain"]), Asked::Refused(_)));
    }
}
