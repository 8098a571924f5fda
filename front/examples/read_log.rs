//! Reads the log of a job that the proved program has run, and writes it as the front end does; for trying and comparing.
//!
//!     read_log shapes|explain [--terse] [--width N] FOLDER JOB
//!
//! reads FOLDER/JOB.blg and the files that it names, in FOLDER. With `--width` explanations are for a terminal of N columns.

use bibtex_front::event_places::places_by_runs;
use bibtex_front::job::{File, Files};
use bibtex_front::log::{Content, Log};
use bibtex_front::shapes::Part;
use bibtex_front::terminal::Terminal;
use bibtex_front::{explain, shapes};
use std::ffi::{OsStr, OsString};
use std::io::{self, Write};
use std::os::unix::ffi::{OsStrExt, OsStringExt};
use std::path::Path;

/// The files that a log says were found.
fn files_of(log: &Log<'_>, folder: &Path) -> Files {
    let names = log.lines().filter_map(|line| match line.content {
        Content::Found(name) => Some(name),
        _ => None,
    });
    let read = |name: &[u8]| File {
        name: name.to_vec(),
        bytes: std::fs::read(folder.join(OsStr::from_bytes(name))).ok(),
        path: name.to_vec(),
    };
    let all: Vec<File> = names.map(read).collect();
    Files { top: all.first().map(|file| file.name.clone()).unwrap_or_default(), all }
}

fn main() -> io::Result<()> {
    let mut words: Vec<OsString> = std::env::args_os().skip(1).collect();
    let is_terse = words.iter().any(|word| word == "--terse");
    words.retain(|word| word != "--terse");
    let width = words.iter().position(|word| word == "--width").and_then(|at| {
        let value = words.drain(at..at + 2).nth(1)?;
        value.to_str()?.parse().ok()
    });
    let [word, folder, job] = words.try_into().expect("shapes|explain, a folder and a job");
    let mut log_name = job.into_vec();
    log_name.extend_from_slice(b".blg");
    let folder = Path::new(&folder);
    let bytes = std::fs::read(folder.join(OsStr::from_bytes(&log_name)))?;
    let files = files_of(&Log::new(&bytes), folder);
    let places = places_by_runs(&bytes, &files);
    let log = Log::new(&bytes).with_places(&places);
    let part = if is_terse { Part::Messages } else { Part::Whole };
    let terminal = Terminal { is_terminal: true, has_colours: false, width: width.unwrap_or(0) };
    let terminal = if width.is_some() { terminal } else { Terminal::NONE };
    let mut shown = Vec::new();
    match word.to_str() {
        Some("shapes") => shapes::write(&log, &files, part, usize::MAX, &mut shown),
        _ => explain::write(&log, &files, part, &terminal, &mut shown)?,
    }
    io::stdout().write_all(&shown)
}
