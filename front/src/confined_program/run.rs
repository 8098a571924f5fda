//! The run of the proved program, in a process group of its own.

use super::limits::bytes;
use super::stop::Stop;
use super::watch::{Event, Watch};
use super::words::Request;
use crate::exit::words_of;
use crate::system::{self, Signal, is_program, program_named};
use std::env;
use std::ffi::OsString;
use std::io::{self, PipeReader, Read};
use std::os::unix::process::{CommandExt, ExitStatusExt};
use std::path::PathBuf;
use std::process::{Child, Command, Stdio};
use std::sync::mpsc::{Receiver, channel};
use std::thread;
use std::time::Duration;

/// How many bytes of what the program says on its outputs are passed on.
const MOST_SAID: u64 = 10_000;

/// The stack of the thread that reads them.
const READER_STACK: usize = 64 << 10;

/// How long the program's outputs may stay open after its end.
const PATIENCE_AT_END: Duration = Duration::from_secs(1);

/// The program that is run. No shell is called, also where its file is damaged.
pub struct Program(PathBuf);

impl Program {
    /// Finds the program: `BIBTEX_PROGRAM`, or `bibtex-proved`. A bare name is looked for along the search path, of which only absolute folders
    /// count: the present folder is a stranger's.
    pub fn find() -> Result<Program, Stop> {
        let name = match env::var_os("BIBTEX_PROGRAM") {
            Some(name) if !name.is_empty() => name,
            _ => OsString::from("bibtex-proved"),
        };
        let found =
            if name.as_encoded_bytes().contains(&b'/') { Some(PathBuf::from(&name)) } else { program_named(&name) };
        match found.filter(|path| is_program(path)) {
            Some(path) => Ok(Program(path)),
            None => {
                let reason = format!("there is no program {}; BIBTEX_PROGRAM can name it", name.to_string_lossy());
                Err(Stop::refused(reason))
            }
        }
    }
}

/// How a run ended.
#[derive(Debug, PartialEq, Eq)]
pub enum Ending {
    /// The program ended with this status.
    Exited(i32),
    /// The system ended the program by this signal.
    Killed(i32),
    /// The seconds of the clock were up.
    TimeIsUp,
    /// A signal asked this program to end.
    Asked(Signal),
}

impl Ending {
    /// Whether the program says by its status that the job was run to an end, so that a log of it stands there.
    pub fn says_that_it_ran(&self) -> bool {
        matches!(self, Ending::Exited(0 | 2..=4))
    }
}

/// Runs the program over the present folder. The answer is how it ended, and what it said on its outputs. No process of its group is left.
pub fn run(program: &Program, request: &Request, watch: &Watch) -> Result<(Ending, String), Stop> {
    let mut command = Command::new(&program.0);
    command.args(["--dir", ".", "--terse", "--budget"]).arg(request.limits.steps.to_string());
    command.args(&request.handed).arg("--").arg(request.job.word());
    let unstarted =
        |error| Stop::device(format!("the program {} can't be started: {}", program.0.display(), words_of(&error)));
    system::execute_itself(&mut command, bytes(request.limits.output)).map_err(unstarted)?;
    let (said, mut child) = start(command).map_err(unstarted)?;
    let ending = wait_for(&mut child, watch)
        .map_err(|error| Stop::device(format!("the program can't be waited for: {}", words_of(&error))))?;
    let said = said.recv_timeout(PATIENCE_AT_END).unwrap_or_default();
    Ok((ending, String::from_utf8_lossy(&said).into_owned()))
}

/// Starts the program without an input, and gathers what it says.
fn start(mut command: Command) -> io::Result<(Receiver<Vec<u8>>, Child)> {
    let (reader, writer) = io::pipe()?;
    command.stdin(Stdio::null()).stdout(writer.try_clone()?).stderr(writer).process_group(0);
    let said = gather(reader)?;
    Ok((said, command.spawn()?))
}

/// Reads a pipe to its end, and sends its first bytes.
fn gather(mut pipe: PipeReader) -> io::Result<Receiver<Vec<u8>>> {
    let (sender, receiver) = channel();
    let read = move || {
        let mut said = Vec::new();
        // What can't be read any more is the end of it, and a receiver that doesn't wait any more needs nothing.
        let _ = pipe.by_ref().take(MOST_SAID).read_to_end(&mut said);
        let _ = sender.send(said);
        let _ = io::copy(&mut pipe, &mut io::sink());
    };
    thread::Builder::new().stack_size(READER_STACK).spawn(read)?;
    Ok(receiver)
}

/// Waits until the program has ended, or ends it. Then nothing of its group is left.
fn wait_for(child: &mut Child, watch: &Watch) -> io::Result<Ending> {
    let mut event = watch.wait();
    while event == Event::Child && !system::has_ended(child) {
        event = watch.wait();
    }
    system::kill_group(child);
    let status = child.wait()?;
    Ok(match event {
        Event::Child => status.signal().map_or(Ending::Exited(status.code().unwrap_or_default()), Ending::Killed),
        Event::Signal(signal) => Ending::Asked(signal),
        Event::TimeIsUp => Ending::TimeIsUp,
    })
}
