//! `bibtex-search`: the original's command line and search paths over the proved library. Called as `bibtex-explain` it explains the log of
//! a job, and writes nothing; called as `bibtex-lint` it checks styles.

use crate::beside;
use crate::btx::Options;
use crate::exit::{Failure, Name, Status};
use crate::job::{Files, Finder, NO_SUCH_FILE};
use crate::lint_program;
use crate::outputs::Outputs;
use crate::run_json;
use crate::search::Search;
use crate::system::{Signal, end_aborts_as_memory, keep_long_texts_apart, survive_long_files};
use crate::task::Task;
use crate::terminal::{Patient, plain};
use crate::words::{self, Asked, Explain, Words};
use std::env;
use std::ffi::OsString;
use std::io::{self, Write};
use std::os::unix::ffi::OsStringExt;
use std::panic::{self, PanicHookInfo};
use std::process::{self, ExitCode};
use std::sync::Arc;

const WRITES: &str = "Writes the list of references of JOB.aux to JOB.bbl, and a log to JOB.blg.\n";
const EXPLAINS: &str = "Explains what a run of JOB.aux says, and writes nothing.\n";

const HELP: &str = concat!(
    "  Styles are found along BSTINPUTS, databases along BIBINPUTS, and both where
  TeX has its own.

",
    include_str!("help/bibtex-search.txt"),
    "
An option has one hyphen or two, and may be shortened; its value stands after
a '=' or in the next word. A word after '--' is JOB. Options of bibtex8 that
say how large its tables are, or which letters it has, are taken and ignored.

Exit status: 0 done; 1 the words, or an output's name by TeX's openout_any, are
refused; 2 done, with error messages; 3 a limit, or there is no JOB.aux; 4 the
budget was spent; 5 out of memory; 6 a file couldn't be read or written.
"
);

/// The program.
pub fn main() -> ExitCode {
    survive_long_files();
    end_aborts_as_memory();
    let mut words = env::args_os();
    let name = Name::of(words.next());
    let called = name.clone();
    panic::set_hook(Box::new(move |place| end_by_panic(&called, place)));
    if name.is("bibtex-lint") {
        let explain_job = |job: Vec<u8>| match words_of(&job) {
            Some(words) => prepare(&name, words).and_then(Task::run),
            None => Ok(Status::Refused),
        };
        return lint_program::main(&name, words, explain_job, files_of);
    }
    let explain = if name.is("bibtex-explain") { Explain::Only } else { Explain::OnTerminal };
    let jobs_last = env::var_os("POSIXLY_CORRECT").is_some();
    let printed = |text: String| {
        let mut out = Patient(io::stdout());
        let printed = out.write_all(text.as_bytes()).and_then(|()| out.flush());
        printed.map_or_else(|fault| name.unprinted(&fault), |()| Status::Finished)
    };
    match words::read(words.map(OsString::into_vec), explain, jobs_last) {
        Asked::Help => {
            let does = if name.is("bibtex-explain") { EXPLAINS } else { WRITES };
            printed(format!("Usage: {name} [OPTION]... JOB\n{does}{HELP}"))
        }
        Asked::Version => printed(format!("{name} {} (BibTeX, proved)\n", env!("CARGO_PKG_VERSION"))),
        Asked::Refused(why) => {
            name.say(plain(&why));
            let _ = writeln!(io::stderr(), "Try `{name} --help' for more information.");
            Status::Refused
        }
        Asked::Run(words) => {
            let job = words.job.clone();
            let is_json = words.is_json;
            let task = prepare(&name, *words).inspect_err(|failure| {
                if is_json {
                    print_failure(&name, &job, failure);
                }
            });
            task.and_then(Task::run).unwrap_or_else(|failure| failed(&name, &failure))
        }
    }
    .into()
}

/// The words that explain a job.
fn words_of(job: &[u8]) -> Option<Words> {
    match words::read([b"-terse".to_vec(), b"--".to_vec(), job.to_vec()].into_iter(), Explain::Only, false) {
        Asked::Run(words) => Some(*words),
        _ => None,
    }
}

/// The files of a job, and its options as TeX's set-up gives them.
fn files_of(job: &[u8]) -> Result<(Files, Options), Failure> {
    let search = Search::begin();
    let top = [job.strip_suffix(b".aux").unwrap_or(job), b".aux"].concat();
    let mut finder = Finder::new(&search, &top);
    finder.find_top()?;
    let files = finder.find_all()?;
    let Some(mut words) = words_of(job) else { return Ok((files, Options::usual(0))) };
    take_limits(&search, &mut words);
    Ok((files, words.options))
}

/// Prints as JSON why a job isn't run.
fn print_failure(name: &Name, job: &[u8], failure: &Failure) {
    let mut out = Patient(io::stdout());
    let printed = run_json::write_failure(job, failure, &mut out).and_then(|()| out.flush());
    // (the status stays that of the failure)
    if let Err(fault) = printed {
        name.unprinted(&fault);
    }
}

/// Says why a job isn't done, and which one may be meant by a job that isn't there.
fn failed(name: &Name, failure: &Failure) -> Status {
    let meant = match failure {
        Failure::NoTop(top, reason) if reason == NO_SUCH_FILE => beside::meant_job(top),
        _ => None,
    };
    match meant {
        Some(meant) => name.say(format_args!("{failure} ({meant})")),
        None => name.say(failure),
    }
    failure.status()
}

/// Ends the program at a mistake of its own. No output is touched then: they are written without a step that could panic.
fn end_by_panic(name: &Name, place: &PanicHookInfo<'_>) {
    name.say(format_args!("a mistake of this program: {place}"));
    process::exit(Status::Device as i32)
}

/// Finds all that a job needs. What was needed for the search is gone after it.
fn prepare(name: &Name, mut words: Words) -> Result<Arc<Task>, Failure> {
    // (not for a check of styles: what it knows of 100,000 variables is made anew at each step, and took three times as long with new pages for it)
    keep_long_texts_apart();
    for option in &words.ignored {
        name.say(format_args!("{} has no object here, and is ignored", plain(option)));
    }
    let search = Search::begin();
    let stem = words.job.strip_suffix(b".aux").unwrap_or(&words.job).to_vec();
    let ending = |ending: &[u8]| [&stem, ending].concat();
    let (top, list, log) = (ending(b".aux"), ending(b".bbl"), ending(b".blg"));
    let mut finder = Finder::new(&search, &top);
    finder.find_top()?;
    if words.explain != Explain::Only {
        may_write(&search, &[&log, &list])?;
    }
    let files = finder.find_all()?;
    finder.notes.iter().for_each(|note| name.say(note));
    take_limits(&search, &mut words);
    let held = Signal::hold();
    let outputs = match words.explain {
        Explain::Only => None,
        _ => Some(Outputs::open(&list, &log, &finder.read)?),
    };
    Ok(Task::new(name.clone(), words, files, log, held, outputs))
}

/// Whether TeX's set-up allows outputs of these names.
fn may_write(search: &Search, names: &[&Vec<u8>]) -> Result<(), Failure> {
    match names.iter().find(|name| !search.may_write(name)) {
        Some(name) => Err(Failure::NotAllowed(name.to_vec(), search.value(c"openout_any").unwrap_or_default())),
        None => Ok(()),
    }
}

/// Takes the limits of variables from the words, or else from TeX's set-up, where that gives them.
fn take_limits(search: &Search, words: &mut Words) {
    let options = &mut words.options;
    let entry_max = words.entry_max.or_else(|| search.limit(c"ent_str_size"));
    let global_max = words.global_max.or_else(|| search.limit(c"glob_str_size"));
    (options.entry_max, options.global_max) =
        (entry_max.unwrap_or(options.entry_max), global_max.unwrap_or(options.global_max));
}
