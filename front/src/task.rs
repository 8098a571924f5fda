//! A job with all that its run needs: it is run, and what it gives is written and printed, also where a signal ends it.

use crate::btx::{self, Answer, Options, Ran};
use crate::exit::{Failure, Name, Status};
use crate::interrupt::{Tries, Watch};
use crate::job::Files;
use crate::letter_run::{self, Letters};
use crate::letters::{TextMode, style_is_whole};
use crate::outputs::Outputs;
use crate::places;
use crate::run_log::{Interrupted, Kept, RunLog, Whole};
use crate::scene::Scenes;
use crate::system::{Held, Signal};
use crate::words::{Explain, Words};
use std::cell::OnceCell;
use std::io::{self, IsTerminal};
use std::sync::atomic::{AtomicBool, Ordering};
use std::sync::{Arc, Mutex, OnceLock};
use std::thread;
use std::time::{Duration, Instant};

/// After how much time one looks again whether the outputs are written, and how long a signal waits for that: an output may be a pipe that nobody reads.
const MOMENT: Duration = Duration::from_millis(5);
const LONGEST_WRITE: Duration = Duration::from_secs(5);

/// A job with all that its run needs.
pub struct Task {
    name: Name,
    words: Words,
    files: Files,
    /// The log's name.
    log: Vec<u8>,
    /// The signals that are held back until the outputs are written.
    held: Held,
    /// None where nothing is to be written.
    outputs: Mutex<Option<Outputs>>,
    /// What the run gave, once it is done.
    ran: OnceLock<Ran>,
    /// Whether one of the two threads has begun to write what its run gave.
    is_claimed: AtomicBool,
    /// Whether the outputs are written.
    is_written: AtomicBool,
}

impl Task {
    /// A job that is to be run. `held` are the signals that keep its beginning.
    pub fn new(
        name: Name,
        words: Words,
        files: Files,
        log: Vec<u8>,
        held: Held,
        outputs: Option<Outputs>,
    ) -> Arc<Task> {
        let outputs = Mutex::new(outputs);
        let (is_claimed, is_written) = (AtomicBool::new(false), AtomicBool::new(false));
        Arc::new(Task { name, words, files, log, held, outputs, ran: OnceLock::new(), is_claimed, is_written })
    }

    /// Runs the job, and writes and prints what it gives. Once a signal was taken the program ends by it, whatever was written until then.
    pub fn run(self: Arc<Self>) -> Result<Status, Failure> {
        let (long, ended) = (self.clone(), self.clone());
        let watch = Watch::begin(self.held, move || long.say_that_it_takes_long(), move |signal| ended.end_by(signal));
        if watch.is_err() {
            self.held.release();
        }
        let done = self.run_and_finish();
        if let Ok(watch) = watch {
            watch.end();
        }
        done
    }

    /// Runs the job, and writes and prints what it gives, unless a signal's thread does so.
    fn run_and_finish(&self) -> Result<Status, Failure> {
        let ran = self.ran.get_or_init(|| self.run_with(self.words.options.budget));
        let run_log = self.run_log(ran, None, self.scenes(ran));
        let log = run_log.whole();
        self.finish(ran, &run_log, &log).unwrap_or_else(|| {
            // The other thread was quicker, and ends the program.
            loop {
                thread::park();
            }
        })
    }

    /// What the job gives with this budget: with the letters of a language where they are asked for and the list can be made so.
    fn run_with(&self, budget: u64) -> Ran {
        let Some(language) = self.words.language.as_ref().filter(|_| letter_run::has_letters(&self.files)) else {
            return self.run_as_it_is(budget);
        };
        let options = self.options_of_letters(budget);
        let run = |files: &Files| btx::run(&files.top, &files.all, &options, &self.words.rooms);
        match letter_run::run(&self.files, language, run) {
            Ok(ran) => ran.unwrap_or_else(|| self.run_as_it_is(budget)),
            Err(why) => Ran { letters: Letters::LeftOut(why), ..self.run_as_it_is(budget) },
        }
    }

    /// The options of a run with the letters of a language.
    fn options_of_letters(&self, budget: u64) -> Options {
        let options = &self.words.options;
        let (entry_max, global_max) = (letter_run::longer(options.entry_max), letter_run::longer(options.global_max));
        Options { budget, entry_max, global_max, utf8: self.words.text != TextMode::Bytes, ..*options }
    }

    /// What the job gives with this budget by its files as they are. Where nothing is said of how text is read, it is read by bytes, as the original does; and once more by letters where
    /// that would leave half a letter in the list.
    fn run_as_it_is(&self, budget: u64) -> Ran {
        let options = Options { budget, ..self.words.options };
        let run = |utf8| btx::run(&self.files.top, &self.files.all, &Options { utf8, ..options }, &self.words.rooms);
        match self.words.text {
            TextMode::Utf8 => run(true),
            TextMode::Bytes => run(false),
            TextMode::Auto => self.without_half_letters(run(false), run),
        }
    }

    /// A run by bytes, or in its place the one by letters where its list has half a letter. A style in another encoding may write bytes of its own, which no way of reading makes whole.
    fn without_half_letters(&self, by_bytes: Ran, run: impl Fn(bool) -> Ran) -> Ran {
        if by_bytes.half_letter(&self.files).is_none() {
            return by_bytes;
        }
        let by_letters = run(true);
        let is_better = style_is_whole(&self.files) || by_letters.half_letter(&self.files).is_none();
        if is_better { by_letters } else { by_bytes }
    }

    /// What was called and on the stack at the errors of a run, where that is printed, and where the style stood at its end: the job is run again to find it.
    fn scenes(&self, ran: &Ran) -> Scenes {
        let options = match ran.letters {
            Letters::Coded(_) => self.options_of_letters(self.words.options.budget),
            Letters::AsTheyAre | Letters::LeftOut(_) => Options { utf8: ran.utf8, ..self.words.options },
        };
        let with_calls = self.words.is_json || self.words.explains(io::stdout().is_terminal());
        places::scenes(&self.files, &options, &self.words.rooms, ran, with_calls)
    }

    fn run_log<'a>(&'a self, ran: &'a Ran, interrupted: Option<Interrupted>, scenes: Scenes) -> RunLog<'a> {
        RunLog {
            words: &self.words,
            files: &self.files,
            name: &self.log,
            ran,
            interrupted,
            scenes,
            half_letter: OnceCell::new(),
        }
    }

    fn say_that_it_takes_long(&self) {
        if io::stderr().is_terminal() {
            self.name.say("still running; Ctrl-C ends it, and keeps the beginning of what it would write");
        }
    }

    /// The beginning of a run that isn't done. From here on, a second signal ends the program at once.
    fn beginning(self: &Arc<Self>) -> Ran {
        let task = self.clone();
        let tries = Tries::begin(self.words.options.budget, move |budget| task.run_with(budget));
        self.held.release();
        tries.longest()
    }

    /// Ends the program by this signal. Where the run isn't done, the beginning of what it would have written is kept; where it is done, all of that
    /// is kept, without the places in the style, which are still looked for. A second signal ends the program at once, also while the outputs are written.
    fn end_by(self: &Arc<Self>, signal: Signal) {
        if !self.is_claimed.load(Ordering::SeqCst) {
            let begun = OnceCell::new();
            let first = self.ran.get().unwrap_or_else(|| begun.get_or_init(|| self.beginning()));
            self.held.release();
            // The run may be done meanwhile.
            let (ran, run_log) = match self.ran.get() {
                Some(ran) => (ran, self.run_log(ran, Some(Interrupted::Search(signal)), Scenes::default())),
                None => (first, self.run_log(first, Some(Interrupted::Run(signal)), self.scenes(first))),
            };
            let log = run_log.whole();
            self.held.hold_again();
            if let Some(Err(failure)) = self.finish(ran, &run_log, &log) {
                self.name.say(failure);
            }
        }
        let until = Instant::now() + LONGEST_WRITE;
        while !self.is_written.load(Ordering::SeqCst) && Instant::now() < until {
            if self.held.wait(MOMENT).is_some() {
                break;
            }
        }
        signal.end_program()
    }

    /// Writes and prints what a run gave, where this thread is the first that has something to write. `log` is the whole log.
    fn finish(&self, ran: &Ran, run_log: &RunLog<'_>, log: &Whole) -> Option<Result<Status, Failure>> {
        if self.is_claimed.swap(true, Ordering::SeqCst) {
            return None;
        }
        let replaced = self.write(ran, &log.bytes);
        self.is_written.store(true, Ordering::SeqCst);
        self.held.release();
        let status = replaced.as_ref().map_or_else(Failure::status, |()| self.status_of(ran));
        let kept = Kept {
            status: Some(status).filter(|_| run_log.interrupted.is_none()),
            is_written: replaced.is_ok() && self.words.explain != Explain::Only,
        };
        let printed = run_log.print(log, &kept);
        Some(replaced.map(|()| self.status(ran, printed)))
    }

    /// The status of a run whose outputs are written.
    fn status(&self, ran: &Ran, printed: io::Result<()>) -> Status {
        if self.is_refused(ran) {
            self.name.say("-strict: an entry that is cited wasn't found, so the exit status is 2");
        }
        printed.map_or_else(|fault| self.name.unprinted(&fault), |()| self.status_of(ran))
    }

    /// Whether a run that is else done well counts as an error, since a citation has no entry.
    fn is_refused(&self, ran: &Ran) -> bool {
        self.words.is_strict && matches!(ran.answer, Answer::Done(_)) && ran.misses_an_entry()
    }

    /// The status of a run, as long as its log can be printed.
    fn status_of(&self, ran: &Ran) -> Status {
        match ran.answer {
            Answer::Done(_) if self.is_refused(ran) => Status::Errors,
            Answer::Done(report) => Status::of_report(report.status),
            Answer::ListFull | Answer::LogFull => Status::Limit,
            Answer::Memory => Status::Memory,
        }
    }

    /// Writes the list and the log. Where memory was refused, the old ones stay.
    fn write(&self, ran: &Ran, log: &[u8]) -> Result<(), Failure> {
        let outputs = self.outputs.lock().map(|mut outputs| outputs.take()).unwrap_or_default();
        match outputs {
            Some(outputs) if ran.answer == Answer::Memory => {
                outputs.leave();
                Err(Failure::Memory)
            }
            Some(outputs) => outputs.replace(&ran.list, log),
            None if ran.answer == Answer::Memory => Err(Failure::Memory),
            None => Ok(()),
        }
    }
}
