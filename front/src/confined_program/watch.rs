//! Signals to this program, and the clock.

use super::limits::Limits;
use super::stop::Stop;
use crate::system::{Held, Signal};
use std::time::{Duration, Instant};

/// What may end the job beside the job itself. Signals are held back, and come only where they are asked for.
pub struct Watch {
    signals: Held,
    end: Instant,
    clock: u64,
    processor: u64,
}

/// What a wait ended with.
#[derive(Debug, PartialEq, Eq)]
pub enum Event {
    /// Something may have become of the program.
    Child,
    /// The seconds of the clock are up.
    TimeIsUp,
    /// A signal asks this program to end.
    Signal(Signal),
}

impl Watch {
    /// Begins to watch.
    pub fn begin(limits: &Limits) -> Watch {
        let end = Instant::now() + Duration::from_secs(limits.clock);
        Watch { signals: Signal::hold_all(), end, clock: limits.clock, processor: limits.processor }
    }

    /// Waits for what comes next.
    pub fn wait(&self) -> Event {
        let left = self.end.saturating_duration_since(Instant::now());
        match self.signals.wait(left) {
            Some(Signal::CHILD) => Event::Child,
            Some(signal) => Event::Signal(signal),
            None if self.end <= Instant::now() => Event::TimeIsUp,
            None => Event::Child,
        }
    }

    /// Whether the job may go on, while nothing is running yet.
    pub fn check(&self) -> Result<(), Stop> {
        match self.signals.wait(Duration::ZERO) {
            Some(Signal::PROCESSOR_TIME) => {
                let reason = format!("the names of the job take more than {} processor seconds", self.processor);
                Err(Stop::new(128 + Signal::PROCESSOR_TIME.0 as u8, reason))
            }
            Some(signal) if signal != Signal::CHILD => Err(Stop::by_signal(signal)),
            _ if self.end <= Instant::now() => Err(self.time_is_up()),
            _ => Ok(()),
        }
    }

    /// The clock's seconds are up.
    fn time_is_up(&self) -> Stop {
        Stop::new(124, format!("the {} seconds are up", self.clock))
    }
}
