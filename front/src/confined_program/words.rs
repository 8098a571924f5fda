//! The words of the command line: the job, and then options.

use super::limits::Limits;
use super::names::FileName;
use super::stop::Stop;
use crate::terminal::plain;
use std::ffi::{OsStr, OsString};

/// Options that are handed to the program. It says itself what is wrong with a value.
const HANDED: [&str; 5] = ["--min-crossrefs=", "--text=", "--line=", "--entry-max=", "--global-max="];

/// What the command line asks for.
#[derive(Debug, PartialEq, Eq)]
pub enum Words {
    Help,
    Version,
    Run(Request),
}

/// A job that is to be run.
#[derive(Debug, PartialEq, Eq)]
pub struct Request {
    pub job: Job,
    /// The options that are handed to the program.
    pub handed: Vec<OsString>,
    pub limits: Limits,
}

/// A job's name, as the command line gives it: with or without `.aux`.
#[derive(Debug, PartialEq, Eq)]
pub struct Job(OsString);

impl Job {
    /// The word itself.
    pub fn word(&self) -> &OsStr {
        &self.0
    }

    /// The top `.aux` file.
    pub fn top(&self) -> Result<FileName, Stop> {
        self.file(".aux")
    }

    /// The file of the list.
    pub fn list(&self) -> Result<FileName, Stop> {
        self.file(".bbl")
    }

    /// The file of the log.
    pub fn log(&self) -> Result<FileName, Stop> {
        self.file(".blg")
    }

    /// The job's file of this ending.
    fn file(&self, ending: &str) -> Result<FileName, Stop> {
        let word = self.0.as_encoded_bytes();
        let name = word.strip_suffix(b".aux").unwrap_or(word);
        FileName::check(&[name, ending.as_bytes()].concat())
    }

    /// What a caller may have meant who wrote an option in the place of the job.
    pub fn hint(&self) -> &'static str {
        if self.0.as_encoded_bytes().starts_with(b"-") {
            "; the job is the first word, and options come after it"
        } else {
            ""
        }
    }
}

/// Reads the words after the program's name.
pub fn read(mut words: impl Iterator<Item = OsString>) -> Result<Words, Stop> {
    let Some(first) = words.next().filter(|word| !word.is_empty()) else {
        return Err(Stop::refused("there is no job; see bibtex-confined --help"));
    };
    match first.to_str() {
        Some("--help" | "-help" | "-h") => return Ok(Words::Help),
        Some("--version" | "-version" | "-V") => return Ok(Words::Version),
        _ => {}
    }
    let mut request = Request { job: Job(first), handed: Vec::new(), limits: Limits::default() };
    for word in words {
        request.take(word)?;
    }
    Ok(Words::Run(request))
}

impl Request {
    /// Takes an option.
    fn take(&mut self, word: OsString) -> Result<(), Stop> {
        let text = word.to_str().unwrap_or_default();
        if let Some((name, value)) = text.strip_prefix("--limit-").and_then(|limit| limit.split_once('=')) {
            return self.limits.change(name, value);
        }
        if HANDED.iter().any(|option| text.starts_with(option)) {
            self.handed.push(word);
            return Ok(());
        }
        let shown = plain(word.as_encoded_bytes());
        Err(Stop::refused(format!("the option {shown} isn't taken{}", self.job.hint())))
    }
}

/// The program's name and version.
pub fn version() -> String {
    format!("bibtex-confined {}\n", env!("CARGO_PKG_VERSION"))
}

/// What the program does, its options and its statuses.
pub fn help() -> String {
    const HELP: &str = concat!(
        "\
Usage: bibtex-confined JOB [OPTION]...
  Runs a stranger's job, in the folder that holds its files, under limits.
  No name of a file may have a '/', a '..' or a dot at its beginning, and no
  file may be a link, a folder or a device. The log is written to JOB.blg and
  not printed. These options are handed to the program:
  --min-crossrefs=N  --text=WORD  --line=N  --entry-max=N  --global-max=N

These change the limits, and nothing else does:
",
        include_str!("../help/bibtex-confined.txt"),
        "
The exit status is the program's; 1 where a name or a file is refused, 3 where
there is no JOB.aux, 124 where the time was up, 128 and the number of a signal
where the system ended the program. Where it isn't 0, standard error says why.
BIBTEX_PROGRAM names the program (bibtex-proved if it isn't set).
"
    );
    HELP.into()
}

#[cfg(test)]
mod tests {
    use super::*;

    fn words(words: &[&str]) -> Result<Words, Stop> {
        read(words.iter().map(OsString::from))
    }

    #[test]
    fn options_stand_behind_the_job() {
        let Ok(Words::Run(request)) = words(&["job", "--line=30", "--limit-clock=5"]) else { panic!("refused") };
        assert_eq!((request.handed.len(), request.limits.clock), (1, 5));
        assert!(words(&["--line=30", "job"]).unwrap_err().reason.ends_with("options come after it"));
    }

    #[test]
    fn other_words_are_refused() {
        for option in ["other", "--dir=.", "--budget=7", "--line", "--limit-clock", "--limit-=3", "--help", "--terse"] {
            assert_eq!(words(&["job", option]).unwrap_err().status, 1, "{option}");
        }
        assert!(words(&[]).is_err() && words(&[""]).is_err());
    }

    #[test]
    fn the_help_has_the_limits() {
        let Limits { memory, aux, input, output, processor, clock, steps, names } = Limits::default();
        let help = help();
        for (name, limit) in [
            ("memory", memory),
            ("aux", aux),
            ("input", input),
            ("output", output),
            ("processor", processor),
            ("clock", clock),
            ("steps", steps),
            ("names", names),
        ] {
            let line = help.lines().find(|line| line.contains(&format!("--limit-{name}=")));
            assert!(line.is_some_and(|line| line.ends_with(&format!(" ({limit})"))), "{name} {line:?}");
        }
    }

    #[test]
    fn a_job_has_its_files() {
        for word in ["job", "job.aux"] {
            let job = Job(word.into());
            assert_eq!((job.top().unwrap().shown(), job.log().unwrap().shown()), ("job.aux".into(), "job.blg".into()));
        }
        for word in [".job", "a/job", "a..job", ".aux"] {
            assert!(Job(word.into()).top().is_err(), "{word}");
        }
    }
}
