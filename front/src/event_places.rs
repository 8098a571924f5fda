//! Where the lines of a log were met, as the library's events have it: the file, its bytes, and the token of the style that was executed.

use crate::notes::Token;

/// A place in a file of a job.
#[derive(Debug, Clone, Copy, PartialEq, Eq)]
pub struct EventPlace {
    /// The number of the file in the job's files.
    pub file: usize,
    /// How many bytes of the file come before the place, and before its end.
    pub start: usize,
    pub end: usize,
    /// The line of its first byte, counted from 1.
    pub line: usize,
    /// The token of the style, where one was executed.
    pub token: Option<Token>,
}

/// A message of a log whose place is known.
#[derive(Debug, Clone, Copy, PartialEq, Eq)]
pub struct Placed {
    /// How many bytes of the log come before the message.
    pub at: usize,
    pub place: EventPlace,
}

/// Where the messages of a run's log were met.
#[derive(Debug, Clone, Default, PartialEq, Eq)]
pub struct LogPlaces {
    /// Those that have a place, in the order of the log.
    pub known: Vec<Placed>,
    /// Whether they are those of the first messages alone, as of a log with very many lines.
    pub are_first: bool,
}

/// The place of the message that begins after `at` bytes of the log. Those of messages before it are taken from `rest`.
pub fn take_place<'a>(rest: &mut &'a [Placed], at: usize) -> Option<&'a EventPlace> {
    while let Some((first, others)) = rest.split_first()
        && first.at < at
    {
        *rest = others;
    }
    rest.first().filter(|placed| placed.at == at).map(|placed| &placed.place)
}

/// For a log that another program or a test has written: its messages are met where runs of the job log the same, with its own style and with one that only reads the
/// databases. A job without a top file, a style or a database gets one.
pub fn places_by_runs(log: &[u8], files: &crate::job::Files) -> LogPlaces {
    use crate::btx::{Options, Rooms, needs, run};
    use crate::job::File;
    use std::collections::{HashMap, VecDeque};
    const READS: &str = "ENTRY {title} {} {}\nREAD\n";
    let file = |name: &[u8], bytes: &str| File { name: name.to_vec(), bytes: Some(bytes.into()), path: Vec::new() };
    let top = file(&files.top, "\\citation{*}\n\\bibdata{d}\n\\bibstyle{s}\n");
    let mut whole = [&files.all[..], &[top, file(b"s.bst", READS), file(b"d.bib", "")]].concat();
    while let Some(missing) = needs(&files.top, &whole).ok().filter(|names| !names.is_empty()) {
        whole.extend(missing.into_iter().map(|name| File { name, bytes: None, path: Vec::new() }));
    }
    let reading = whole.iter().map(|it| if it.name.ends_with(b".bst") { file(&it.name, READS) } else { it.clone() });
    let mut places: HashMap<Vec<u8>, VecDeque<EventPlace>> = HashMap::new();
    for all in [&whole, &reading.collect()] {
        let ran = run(&files.top, all, &Options::usual(10_000), &Rooms { list: 1 << 16, log: 1 << 16 });
        for placed in &ran.places.known {
            let line = ran.log[placed.at..].split(|byte| *byte == b'\n').next().unwrap_or(b"");
            places.entry(line.to_vec()).or_default().push_back(placed.place);
        }
    }
    let (mut at, mut known) = (0, Vec::new());
    for line in log.split_inclusive(|byte| *byte == b'\n') {
        let place = places.get_mut(line.strip_suffix(b"\n").unwrap_or(line)).and_then(VecDeque::pop_front);
        known.extend(place.map(|place| Placed { at, place }));
        at += line.len();
    }
    LogPlaces { known, ..LogPlaces::default() }
}

#[cfg(test)]
mod tests {
    use super::*;

    #[test]
    fn places_are_taken_in_the_order_of_the_log() {
        let placed = |at, line| Placed { at, place: EventPlace { file: 1, start: 0, end: 0, line, token: None } };
        let all = [placed(10, 1), placed(20, 2), placed(30, 3)];
        let mut rest = &all[..];
        let mut line = |at| take_place(&mut rest, at).map(|place| place.line);
        assert_eq!([line(0), line(10), line(15), line(30), line(40)], [None, Some(1), None, Some(3), None]);
    }
}
