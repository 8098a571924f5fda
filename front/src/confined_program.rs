//! `bibtex-confined`: one job of a stranger, by the proved program in a process of its own, under limits. It is called in the job's folder,
//! in which all files of the job stand.
//!
//! Nothing here is proved. It looks at each name that the job gives, and at the file of that name; then the program runs over the folder
//! under limits of the system. No file is made but the job's two outputs. `docs/SERVICES.md` has what is bounded by what.
//!
//! | module | what |
//! |---|---|
//! | [`words`] | the words of the command line |
//! | [`limits`] | the numbers, and how they are set for a process |
//! | [`names`] | the names that an `.aux` file gives |
//! | [`files`] | the look at the job's files, before the run |
//! | [`output`] | the list and the log |
//! | [`watch`] | signals, and the clock |
//! | [`run`] | the program's run |
//! | [`reason`] | why a run didn't end with status 0 |

mod files;
mod limits;
mod names;
mod output;
mod reason;
mod run;
mod stop;
mod watch;
mod words;

use crate::exit::Status;
use crate::system::survive_long_files;
use crate::terminal::plain;
use output::Outputs;
use run::{Ending, Program};
use std::env;
use std::io::{self, Write};
use std::process::ExitCode;
use stop::Stop;
use watch::Watch;
use words::{Request, Words};

/// The program.
pub fn main() -> ExitCode {
    survive_long_files();
    let words = match words::read(env::args_os().skip(1)) {
        Ok(Words::Help) => return print(&words::help()),
        Ok(Words::Version) => return print(&words::version()),
        Ok(Words::Run(request)) => request,
        Err(stop) => return end(stop),
    };
    match confine(&words) {
        Ok(()) => Status::Finished.into(),
        Err(stop) => end(stop),
    }
}

/// Prints a text on standard output, which may be closed.
fn print(text: &str) -> ExitCode {
    match io::stdout().write_all(text.as_bytes()) {
        Ok(()) => Status::Finished.into(),
        Err(_) => Status::Device.into(),
    }
}

/// Runs the job, under limits; an error is why the status isn't 0.
fn confine(request: &Request) -> Result<(), Stop> {
    let watch = Watch::begin(&request.limits);
    let program = Program::find()?;
    request.limits.set()?;
    files::check_inputs(request, &watch)?;
    let outputs = Outputs::check(&request.job)?;
    let (ending, said) = run::run(&program, request, &watch)?;
    for line in said.lines() {
        say(line);
    }
    let lacks_log = ending.says_that_it_ran() && !outputs.log.is_of_ended_run();
    if lacks_log || !matches!(ending, Ending::Exited(_)) {
        outputs.empty_what_is_old();
    }
    if lacks_log {
        return Err(reason::without_a_log(&ending, &outputs));
    }
    reason::of(&ending, &outputs, &request.limits)
}

/// Ends the program, and says why.
fn end(stop: Stop) -> ExitCode {
    say(&format!("bibtex-confined: {}", stop.reason));
    if let Some(signal) = stop.signal {
        signal.end_program();
    }
    ExitCode::from(stop.status)
}

/// Prints a line on standard error, which may be closed. No byte of a stranger's name acts on a terminal.
fn say(line: &str) {
    let _ = writeln!(io::stderr(), "{}", plain(line.as_bytes()));
}
