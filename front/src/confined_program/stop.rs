//! Why a job isn't run, or didn't end with status 0.

use crate::exit::Status;
use crate::system::Signal;

/// An end with another status than 0.
#[derive(Debug, PartialEq, Eq)]
pub struct Stop {
    /// The exit status.
    pub status: u8,
    /// The sentence that says why.
    pub reason: String,
    /// The signal by which this program ends, if one ended the job.
    pub signal: Option<Signal>,
}

impl Stop {
    /// An end with this status, for this reason.
    pub fn new(status: u8, reason: impl Into<String>) -> Stop {
        Stop { status, reason: reason.into(), signal: None }
    }

    /// A name, a file or a word is refused.
    pub fn refused(reason: impl Into<String>) -> Stop {
        Stop::new(Status::Refused as u8, reason)
    }

    /// A file can't be read or written.
    pub fn device(reason: impl Into<String>) -> Stop {
        Stop::new(Status::Device as u8, reason)
    }

    /// This program was asked to end by a signal.
    pub fn by_signal(signal: Signal) -> Stop {
        let reason = format!("the job was ended by signal {}", signal.0);
        Stop { status: 128 + signal.0 as u8, reason, signal: Some(signal) }
    }
}
