//! The limits of a job. Words of the command line change them, and nothing else does.

use super::stop::Stop;
use crate::exit::words_of;
use crate::system::{self, Resource};

/// The limits of a job.
#[derive(Debug, Clone, PartialEq, Eq)]
pub struct Limits {
    /// KB of the address space.
    pub memory: u64,
    /// KB of each `.aux` file: an ordinary one has fewer.
    pub aux: u64,
    /// KB of each other file that is read.
    pub input: u64,
    /// KB of the list, and of the log.
    pub output: u64,
    /// Seconds of the processor.
    pub processor: u64,
    /// Seconds of the clock, for all that is done.
    pub clock: u64,
    /// Steps of the style; real jobs take up to 5 million.
    pub steps: u64,
    /// Files that all `.aux` files may name.
    pub names: u64,
}

/// The program has at most 20 `.aux` files open, and few others.
const OPEN_FILES: u64 = 64;

/// No limit is greater: so no number of bytes is out of range.
const GREATEST: u64 = 1_000_000_000_000;
/// KB of memory that this program itself needs at most, for `.aux` files without a byte.
const LEAST_MEMORY: u64 = 20_000;

impl Default for Limits {
    fn default() -> Limits {
        Limits {
            memory: 900_000,
            aux: 10_000,
            input: 100_000,
            output: 40_000,
            processor: 10,
            clock: 50,
            steps: 100_000_000,
            names: 1_000,
        }
    }
}

impl Limits {
    /// Changes the limit of this name, `memory` for the option `--limit-memory`.
    pub fn change(&mut self, name: &str, value: &str) -> Result<(), Stop> {
        let (limit, least) = match name {
            "memory" => (&mut self.memory, LEAST_MEMORY),
            "aux" => (&mut self.aux, 1),
            "input" => (&mut self.input, 1),
            "output" => (&mut self.output, 1),
            "processor" => (&mut self.processor, 1),
            "clock" => (&mut self.clock, 1),
            "steps" => (&mut self.steps, 1),
            "names" => (&mut self.names, 1),
            _ => return Err(Stop::refused(format!("there is no limit of {name}"))),
        };
        *limit = match value.parse() {
            Ok(number) if (least..=GREATEST).contains(&number) => number,
            _ => {
                let reason = format!("the limit of {name} is a number from {least} to {GREATEST}, not '{value}'");
                return Err(Stop::refused(reason));
            }
        };
        Ok(())
    }

    /// Tells the system the limits that hold for this process as well as for the program that it starts; those of files hold for the program alone,
    /// since the reasons that are printed may go to a long file. If a limit can't be set, nothing is run.
    pub fn set(&self) -> Result<(), Stop> {
        let rows = [
            (Resource::Core, 0, 0),
            (Resource::As, bytes(self.memory), bytes(self.memory)),
            (Resource::Nofile, OPEN_FILES, OPEN_FILES),
            (Resource::Cpu, self.processor, self.processor + 1),
        ];
        for (resource, soft, hard) in rows {
            system::limit(resource, soft, hard)
                .map_err(|error| Stop::refused(format!("this system doesn't set the limits: {}", words_of(&error))))?;
        }
        Ok(())
    }
}

/// The bytes in `kilobytes` KB.
pub fn bytes(kilobytes: u64) -> u64 {
    kilobytes * 1024
}

#[cfg(test)]
mod tests {
    use super::*;

    #[test]
    fn a_word_changes_one_limit() {
        let mut limits = Limits::default();
        limits.change("clock", "7").unwrap();
        assert_eq!(limits, Limits { clock: 7, ..Limits::default() });
    }

    #[test]
    fn no_limit_is_switched_off() {
        for value in ["0", "-1", "", "unlimited", "1000000000001", "99999999999999999999"] {
            assert!(Limits::default().change("clock", value).is_err(), "{value}");
        }
        assert!(Limits::default().change("memory", "19999").is_err());
        assert!(Limits::default().change("other", "1").is_err());
    }
}
