//! Logs and files of any bytes: nothing breaks off, and no message is lost or printed twice.
//!
//! `ODD_LOGS=N` is how many jobs are made.

use bibtex_front::job::{File, Files};
use bibtex_front::log::{Content, Log, Place};
use bibtex_front::shapes::Part;
use bibtex_front::terminal::Terminal;
use bibtex_front::{explain, shapes};

/// Numbers made from a seed.
struct Chance(u64);

impl Chance {
    fn below(&mut self, limit: usize) -> usize {
        self.0 = self.0.wrapping_mul(6364136223846793005).wrapping_add(1442695040888963407);
        ((self.0 >> 33) as usize) % limit
    }

    fn pick<'a>(&mut self, pieces: &[&'a [u8]]) -> &'a [u8] {
        pieces[self.below(pieces.len())]
    }

    fn text(&mut self, pieces: &[&[u8]], most: usize) -> Vec<u8> {
        (0..self.below(most + 1)).flat_map(|_| self.pick(pieces).to_vec()).collect()
    }
}

const DATABASE: &[&[u8]] = &[
    b"@misc{",
    b"@misc(",
    b"@string{",
    b"@preamble{",
    b"@comment",
    b"@",
    b"{",
    b"}",
    b"(",
    b")",
    b"\"",
    b",",
    b"=",
    b"#",
    b" ",
    b"\n",
    b"\t",
    b"\r\n",
    b"k",
    b"K",
    b"title",
    b"crossref",
    b"12",
    b"zz",
    b"\xe9",
    b"\xc3\xa9",
    b"\0",
    b"\x1b[2J",
    b"\xe2\x80\xae",
];
const STYLE: &[&[u8]] = &[
    b"ENTRY",
    b"FUNCTION",
    b"READ",
    b"EXECUTE",
    b"ITERATE",
    b"REVERSE",
    b"SORT",
    b"INTEGERS",
    b" ",
    b"\n",
    b"\n\n",
    b"{",
    b"}",
    b"{f}",
    b"\"",
    b"\"a\"b",
    b"#",
    b"#1x",
    b"#-1",
    b"'",
    b"'f",
    b"f",
    b"nosuch",
    b"%",
    b"if$",
    b"\xff",
    b"\r",
];
const AUX: &[&[u8]] = &[
    b"\\citation",
    b"\\bibdata",
    b"\\bibstyle",
    b"\\@input",
    b"{",
    b"}",
    b",",
    b"k",
    b"K",
    b"*",
    b" ",
    b"\n",
    b"d",
    b"s",
    b"e.bib",
    b"\xe9",
];
const TEXTS: &[&[u8]] = &[
    b"I was expecting an =",
    b"I was expecting a name",
    b"Repeated entry",
    b"Illegal end of database file",
    b"Unbalanced braces",
    b"I was expecting a , or a }",
    b"I was expecting a value",
    b"nosuch is an unknown function",
    b"FUNCTION is an unknown function",
    b"Illegal integer",
    b"Illegal text after a literal",
    b"No \" to end string literal",
    b"Illegal end of style file",
    b"I was expecting a command",
    b"f isn't a command",
    b"f is already defined",
    b"White space in argument",
    b"No \"}\"",
    b"Stuff after \"}\"",
    b"Illegal, another \\bibdata command",
    b"Case mismatch error between cite keys k and K",
    b"Multiple inclusions of entire database",
    b"x has a wrong extension",
    b"Already encountered file job.aux",
    b"I couldn't open auxiliary file k.aux",
    b"This database file appears more than once: d.bib",
    b"I found no \\bibdata command",
    b"I couldn't open style file s.bst",
    b"I couldn't open database file e.bib",
    b"A bad cross reference--entry \"k\" refers to entry \"K\", which doesn't exist",
    b"you've nested cross references--entry \"k\" refers to entry \"",
    b"I didn't find a database entry for \"K\"",
    b"I'm ignoring k's extra \"title\" field",
    b"entry type for \"k\" isn't style-file defined",
    b"string name \"zz\" is undefined",
    b"string name \"\" is used in its own definition",
    b"string of 9 bytes cut to 1",
    b"\"a\" is not an integer",
    b"You can't pop an empty literal stack",
    b"0 is not a function",
    b"The literal stack isn't empty",
    b"",
    b"\x1b]0;T\x07",
    b"empty title in k",
];
const PLACES: &[&[u8]] = &[
    b"",
    b"--line 1 of file d.bib",
    b"--line 2 of file d.bib",
    b"--line 3 of file d.bib",
    b"--line 0 of file d.bib",
    b"--line 999999999999 of file d.bib",
    b"--line 1 of file s.bst",
    b"--line 2 of file s.bst",
    b"--line 7 of file s.bst",
    b"--line 1 of file job.aux",
    b"--line 2 of file job.aux",
    b"--line 1 of file other.bib",
    b"--line of file",
    b"--line 1 of file ",
    b" while executing +",
    b" while executing := for entry k",
    b" while executing ITERATE for entry ",
    b" while executing ",
];

fn odd_job(chance: &mut Chance) -> (Vec<u8>, Files) {
    let mut log = b"The top-level auxiliary file: job.aux\nThe style file: s.bst\nDatabase file #1: d.bib\n".to_vec();
    for _ in 0..chance.below(12) {
        log.extend_from_slice(chance.pick(&[
            b"Error--",
            b"Error--",
            b"Warning--",
            b"",
            b"Ended: ",
            b"Database file #2: ",
        ]));
        log.extend_from_slice(chance.pick(TEXTS));
        log.extend_from_slice(chance.pick(PLACES));
        log.push(b'\n');
    }
    log.extend_from_slice(chance.pick(&[
        b"Ended: finished, warnings 1, errors 0, steps 4\n",
        b"Ended: stopped, warnings 1, errors 2, steps 4\n",
        b"Ended: limit string, warnings 0, errors 1, steps 4\n",
        b"",
        b"Ended: ",
        b"Error--cut",
    ]));
    let file =
        |name: &str, bytes: Vec<u8>| File { name: name.into(), bytes: Some(bytes), path: format!("./{name}").into() };
    let all = vec![
        file("job.aux", chance.text(AUX, 20)),
        file("s.bst", chance.text(STYLE, 40)),
        file("d.bib", chance.text(DATABASE, 60)),
        file("e.bib", chance.text(DATABASE, 20)),
    ];
    (log, Files { top: b"job.aux".to_vec(), all })
}

/// How many messages there are in a log.
fn messages(log: &Log<'_>) -> usize {
    log.lines().filter(|line| matches!(line.content, Content::Message(_))).count()
}

fn shaped(log: &Log<'_>, files: &Files) -> Vec<u8> {
    let mut out = Vec::new();
    shapes::write(log, files, Part::Whole, usize::MAX, &mut out);
    out
}

/// How many lines of a log in the original's shapes begin a message with a place in a line.
fn placed(shaped: &[u8]) -> usize {
    let is_place = |line: &[u8]| {
        let place = line.windows(7).rposition(|piece| piece == b"--line ");
        place.is_some_and(|at| line[at + 7..].first().is_some_and(u8::is_ascii_digit)) && !line.starts_with(b" : ")
    };
    shaped.split(|byte| *byte == b'\n').filter(|line| is_place(line) && !line.starts_with(b"while executing-")).count()
}

#[test]
fn odd_logs_are_written() {
    let jobs = std::env::var("ODD_LOGS").ok().and_then(|jobs| jobs.parse().ok()).unwrap_or(3_000);
    let mut chance = Chance(20261126);
    for number in 0..jobs {
        let (bytes, files) = odd_job(&mut chance);
        let log = Log::new(&bytes);
        let shapes = shaped(&log, &files);
        let with_line = log.lines().filter(|line| match line.content {
            Content::Message(message) => matches!(message.place, Place::Line { .. }),
            _ => false,
        });
        assert!(placed(&shapes) >= with_line.count(), "job {number}: {}", String::from_utf8_lossy(&bytes));
        let width = [1, 20, 80][chance.below(3)];
        for terminal in [Terminal::NONE, Terminal { is_terminal: true, has_colours: false, width }] {
            let mut told = Vec::new();
            explain::write(&log, &files, Part::Whole, &terminal, &mut told).unwrap();
            let told = String::from_utf8(told).unwrap();
            assert!(
                told.chars().all(|character| character == '\n' || !character.is_control() && character != '\u{202e}'),
                "job {number}: {told:?}"
            );
            assert!(
                told.lines().filter(|line| line.starts_with("Error--") || line.starts_with("Warning--")).count()
                    <= messages(&log)
            );
        }
    }
}
