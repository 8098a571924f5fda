//! `bibtex-lint refs.bib`: what can be said of databases before any document uses them. Python's package of this project examines them, where it is installed; else the mistakes are shown that a
//! run logs.

use crate::btx;
use crate::database::{Items, line_of_fault};
use crate::exit::{Failure, Name, Status};
use crate::job::read_database;
use crate::terminal::plain;
use crate::text::Text;
use std::collections::HashSet;
use std::env;
use std::ffi::OsStr;
use std::io::{self, Write};
use std::os::unix::ffi::OsStrExt;
use std::path::PathBuf;
use std::process::Command;

/// Starts the package without importing anything from the present folder, which may be a stranger's. The first word is the folder in which `make install` puts it; one that Python
/// itself finds comes first. It ends with `MISSING` where there is none.
const START: &str = "
import sys
sys.path = [path for path in [*sys.path, sys.argv.pop(1)] if path]
try:
    import btx.checkup
except Exception:
    sys.exit(97)
sys.exit(btx.checkup.main(sys.argv[1:]))
";
const MISSING: i32 = 97;

/// Whether a name is that of a database.
pub fn is_database(name: &[u8]) -> bool {
    name.len() > 4 && name[name.len() - 4..].eq_ignore_ascii_case(b".bib")
}

/// Examines databases as those of one job, and prints what is found.
pub fn examine(name: &Name, databases: &[Vec<u8>], as_json: bool) -> Status {
    match by_python(databases, as_json) {
        Some(0) => Status::Finished,
        Some(1) => Status::Refused,
        Some(2) => Status::Errors,
        Some(_) => Status::Device,
        None if as_json => {
            name.say("--json of databases needs Python 3.8 with this project's package, btx, which isn't there");
            Status::Refused
        }
        None => by_reader(name, databases),
    }
}

/// The exit status of the package's doctor; None where there is no Python or no package.
fn by_python(databases: &[Vec<u8>], as_json: bool) -> Option<i32> {
    let mut command = Command::new("python3");
    command
        .args(["-c", START])
        .arg(installed_package().unwrap_or_default())
        .args(as_json.then_some("--json"))
        .arg("--");
    command.args(databases.iter().map(|path| OsStr::from_bytes(path)));
    command.status().ok()?.code().filter(|code| *code != MISSING)
}

/// The folder in which `make install` puts Python's package: it lies beside that of the program.
fn installed_package() -> Option<PathBuf> {
    let program = env::current_exe().ok()?;
    let folder = program.parent()?.parent()?.join("share/bibtex-proved/python");
    folder.is_dir().then_some(folder)
}

/// What a run logs of a database: a line, the text of the message, and the check that has it in Python's package.
type Logged = (usize, Vec<u8>, &'static str);

/// What a run that stores each entry logs of a database. `stored`: the keys of the entries so far, in lower case; those of this database are added.
fn logged(text: &[u8], stored: &mut HashSet<Vec<u8>>) -> Result<Vec<Logged>, btx::MemoryRefused> {
    let (lines, mut items) = (Text::new(text), Items::new(text));
    let (mut found, mut has_repeated) = (Vec::new(), false);
    while let Some(item) = items.next() {
        match item.entry_key().filter(|key| !stored.insert(key.name.to_ascii_lowercase())) {
            Some(key) => {
                // (a run looks for the next item directly after the key)
                items.go_on_at(key.end);
                found.push((line_of_fault(&lines, key.end), b"Repeated entry".to_vec(), "repeated-key"));
                has_repeated = true;
            }
            None => found.extend(item.fault.map(|fault| (line_of_fault(&lines, item.end), fault.into(), "mistake"))),
        }
    }
    if has_repeated {
        return Ok(found);
    }
    Ok(btx::mistakes(text)?.into_iter().map(|(line, text)| (line, text, "mistake")).collect())
}

/// Shows the mistakes that a run logs.
fn by_reader(name: &Name, databases: &[Vec<u8>]) -> Status {
    let mut status = Status::Finished;
    let mut out = io::stdout().lock();
    let mut stored = HashSet::new();
    for path in databases {
        let text = match read_database(path) {
            Ok(Ok(text)) => text,
            Ok(Err(reason)) => {
                name.say(format_args!("{}: {reason}", plain(path)));
                status = Status::Refused;
                continue;
            }
            Err(failure) => {
                name.say(&failure);
                return failure.status();
            }
        };
        let Ok(mistakes) = logged(&text, &mut stored) else {
            name.say(Failure::Memory);
            return Status::Memory;
        };
        for (line, mistake, check) in mistakes {
            let written = writeln!(out, "{}:{line}: error: {} [{check}]", plain(path), plain(&mistake));
            if let Err(fault) = written {
                return name.unprinted(&fault);
            }
            status = if status == Status::Finished { Status::Errors } else { status };
        }
    }
    if let Err(fault) = out.flush() {
        return name.unprinted(&fault);
    }
    name.say("only what a run would log is shown: Python's package btx, which examines more, isn't there");
    status
}

#[cfg(test)]
mod tests {
    use super::*;

    #[test]
    fn a_repeated_key_is_logged_and_its_entry_not_read() {
        let shown = |texts: &[&str]| {
            let mut stored = HashSet::new();
            let all = texts.iter().flat_map(|text| logged(text.as_bytes(), &mut stored).unwrap());
            all.map(|(line, text, check)| format!("{line} {} {check}", plain(&text))).collect::<Vec<String>>()
        };
        assert_eq!(shown(&["@misc{a}\n@misc{A, note 1}"]), ["2 Repeated entry repeated-key"]);
        assert_eq!(shown(&["@misc{a}\n", "\n@book{a}"]), ["2 Repeated entry repeated-key"]);
        let hidden = "@misc{a}\n@misc{a, note = {\n@misc{b 1}\n}}";
        assert_eq!(shown(&[hidden]), ["2 Repeated entry repeated-key", "3 I was expecting a , or a } mistake"]);
        assert_eq!(
            shown(&["@misc{a, note 1}\n@misc"]),
            ["1 I was expecting an = mistake", "2 Illegal end of database file mistake"]
        );
    }

    #[test]
    fn databases_are_known_by_their_ending() {
        assert!(is_database(b"refs.bib") && is_database(b"a/REFS.BIB"));
        assert!(![&b".bib"[..], b"bib", b"refs.bst", b"refs", b""].iter().any(|name| is_database(name)));
    }
}
