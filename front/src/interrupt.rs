//! A run that a signal can end. A second thread waits for one of the signals that end a program, and runs the job once more with so small a
//! budget that it ends within a second: what that writes begins what the long run would have written.

use crate::btx::{self, Answer, Ran};
use crate::system::{Held, Signal};
use std::io;
use std::sync::Arc;
use std::sync::atomic::{AtomicU8, Ordering};
use std::sync::mpsc::{self, Receiver, Sender};
use std::thread;
use std::time::{Duration, Instant};

/// After how much time a run is called long.
const LONG: Duration = Duration::from_secs(2);

/// How long one waits for a signal at a time.
const DAY: Duration = Duration::from_secs(86_400);

/// As long as this time isn't over, a longer beginning is tried.
const SHORT: Duration = Duration::from_millis(500);

/// After this time, what was done last is the beginning that is kept.
const LATEST: Duration = Duration::from_secs(1);

/// The budget of the first beginning that is tried, how many times as much each next one has, and the budget where even the first takes too long.
const FIRST_BUDGET: u64 = 16;
const GROWTH: u64 = 4;
const LEAST_BUDGET: u64 = 1;

/// The stack of the second thread. A run takes 64 KB at most.
const STACK: usize = 1 << 20;

/// What became of a wait for a signal, as far as it is known.
const WAITS: u8 = 0;
/// A signal was taken: the program ends by it.
const TAKEN: u8 = 1;
/// Nobody waits any more.
const OVER: u8 = 2;

/// A second thread that waits for a signal.
pub struct Watch(Arc<AtomicU8>);

impl Watch {
    /// Begins to wait. `on_long` is called where the program still runs after two seconds.
    pub fn begin(
        held: Held,
        on_long: impl FnOnce() + Send + 'static,
        on_signal: impl FnOnce(Signal) + Send + 'static,
    ) -> io::Result<Watch> {
        let state = Arc::new(AtomicU8::new(WAITS));
        let there = state.clone();
        let wait = move || {
            let signal = first_signal(held, &there, on_long);
            if there.swap(TAKEN, Ordering::SeqCst) == OVER {
                signal.end_program();
            }
            on_signal(signal);
        };
        thread::Builder::new().stack_size(STACK).spawn(wait)?;
        Ok(Watch(state))
    }

    /// Ends the wait. Where a signal was taken before, this doesn't return: the program ends by it.
    pub fn end(self) {
        if self.0.swap(OVER, Ordering::SeqCst) == TAKEN {
            loop {
                thread::park();
            }
        }
    }
}

/// The first signal that comes.
fn first_signal(held: Held, state: &AtomicU8, on_long: impl FnOnce()) -> Signal {
    if let Some(signal) = held.wait(LONG) {
        return signal;
    }
    if state.load(Ordering::SeqCst) == WAITS {
        on_long();
    }
    loop {
        if let Some(signal) = held.wait(DAY) {
            return signal;
        }
    }
}

/// A beginning of a run, and whether no longer one is to be tried.
struct Try {
    ran: Ran,
    is_last: bool,
}

/// The beginnings of a run that a thread of its own tries, each with several times the budget of the one before, as long as half a second isn't over.
pub struct Tries<F> {
    done: Receiver<Try>,
    until: Instant,
    run: F,
}

impl<F: Fn(u64) -> Ran + Clone + Send + 'static> Tries<F> {
    /// Begins to try. `run` runs the job with a budget, and `budget` is that of the whole run. The thread holds the same signals back as this one.
    pub fn begin(budget: u64, run: F) -> Tries<F> {
        let (sender, done) = mpsc::channel();
        let (tried, until) = (run.clone(), Instant::now() + LATEST);
        // Where there can be no thread, nothing is received.
        let _ = thread::Builder::new().stack_size(STACK).spawn(move || try_all(budget, tried, &sender));
        Tries { done, until, run }
    }

    /// The longest beginning that was done in time. What is tried then is left alone; where nothing was done, the run's first step is.
    pub fn longest(self) -> Ran {
        let mut longest = None;
        while let Ok(Try { ran, is_last }) =
            self.done.recv_timeout(self.until.saturating_duration_since(Instant::now()))
        {
            longest = Some(ran);
            if is_last {
                break;
            }
        }
        longest.unwrap_or_else(|| (self.run)(LEAST_BUDGET))
    }
}

fn try_all(whole: u64, run: impl Fn(u64) -> Ran, done: &Sender<Try>) {
    let start = Instant::now();
    let mut budget = FIRST_BUDGET.min(whole);
    loop {
        let ran = run(budget);
        let is_stopped = matches!(ran.answer, Answer::Done(report) if report.status == btx::STOPPED);
        let is_last = !is_stopped || budget == whole || start.elapsed() >= SHORT;
        if done.send(Try { ran, is_last }).is_err() || is_last {
            return;
        }
        budget = budget.saturating_mul(GROWTH).min(whole);
    }
}

#[cfg(test)]
mod tests {
    use super::*;
    use crate::btx::Report;
    use crate::event_places::LogPlaces;
    use crate::letter_run::Letters;

    /// A run of this budget, which is stopped there.
    fn stopped(budget: u64) -> Ran {
        let mut report = Report::default();
        (report.status, report.steps) = (btx::STOPPED, budget);
        Ran {
            list: Vec::new(),
            log: Vec::new(),
            printed: Vec::new(),
            long: Vec::new(),
            places: LogPlaces::default(),
            of_read: 0..0,
            answer: Answer::Done(report),
            utf8: false,
            is_utf8: false,
            letters: Letters::AsTheyAre,
        }
    }

    fn steps(ran: &Ran) -> u64 {
        match ran.answer {
            Answer::Done(report) => report.steps,
            _ => 0,
        }
    }

    #[test]
    fn a_longer_beginning_is_tried_as_long_as_there_is_time() {
        assert_eq!(steps(&Tries::begin(5000, stopped).longest()), 5000);
        assert_eq!(steps(&Tries::begin(7, stopped).longest()), 7);
    }

    #[test]
    fn a_beginning_that_takes_too_long_is_left_alone() {
        let slow = |from: u64| {
            move |budget: u64| {
                if budget >= from {
                    thread::sleep(Duration::from_secs(20));
                }
                stopped(budget)
            }
        };
        let start = Instant::now();
        assert_eq!(steps(&Tries::begin(u64::MAX, slow(4000)).longest()), 1024);
        assert_eq!(steps(&Tries::begin(u64::MAX, slow(2)).longest()), LEAST_BUDGET);
        assert!(start.elapsed() < 4 * LATEST);
    }
}
