//! Why a run didn't end with status 0.

use super::limits::{Limits, bytes};
use super::output::{Output, Outputs};
use super::run::Ending;
use super::stop::Stop;
use crate::system::Signal;

/// What the end of a run means.
pub fn of(ending: &Ending, outputs: &Outputs, limits: &Limits) -> Result<(), Stop> {
    match *ending {
        Ending::Exited(0) => Ok(()),
        Ending::Exited(status) => Err(Stop::new(status as u8, of_status(status, outputs, limits))),
        Ending::Killed(signal) => Err(Stop::new(128 + signal as u8, of_kill(signal, limits))),
        Ending::TimeIsUp => Err(Stop::new(124, format!("the {} seconds are up", limits.clock))),
        Ending::Asked(signal) => Err(Stop::by_signal(signal)),
    }
}

/// The end of a run that says it ran the job, and left no log of it: what was run isn't the program, or another one wrote there.
pub fn without_a_log(ending: &Ending, outputs: &Outputs) -> Stop {
    let status = if let Ending::Exited(status) = ending { *status } else { 0 };
    let log = outputs.log.shown();
    Stop::device(format!(
        "the program ended with status {status}, and {log} isn't the log of a run that came to its end"
    ))
}

/// What a status of the program means.
fn of_status(status: i32, outputs: &Outputs, limits: &Limits) -> String {
    match status {
        1 => "the program refuses the words".into(),
        2 => format!("there are error messages in {}", outputs.log.shown()),
        3 => format!("a limit of the program was met: {}", outputs.log.last_line()),
        4 => format!("the style took {} steps, and wanted more", limits.steps),
        5 => format!("the job wants more than {} KB of memory", limits.memory),
        6 => of_device(outputs, limits),
        _ => format!("the program was ended with status {status}"),
    }
}

/// What a device error means: an output has its greatest length, or something else.
fn of_device(outputs: &Outputs, limits: &Limits) -> String {
    let is_full = |output: &&Output| output.length() >= bytes(limits.output);
    match [&outputs.list, &outputs.log].into_iter().find(is_full) {
        Some(output) => format!("{} would have more than {} KB", output.shown(), limits.output),
        None => format!("a file can't be read or written, or the log wants more than {} KB of memory", limits.memory),
    }
}

/// What the signal means by which the system ended the program.
fn of_kill(signal: i32, limits: &Limits) -> String {
    if signal == Signal::PROCESSOR_TIME.0 {
        return format!("the job took {} processor seconds, and wanted more", limits.processor);
    }
    if signal == Signal::KILL.0 {
        return format!(
            "the system killed the program: it took more than {} processor seconds, or the machine has no more memory",
            limits.processor
        );
    }
    format!("the program was ended with status {}", 128 + signal)
}
