//! The calls of the proved library, made safe. `library/btx.h` says what each call does; `crates/btx_c` has their contracts.

use crate::event_places::{EventPlace, LogPlaces, Placed};
use crate::half_letters::{HalfLetter, half_letter};
use crate::job::{File, Files};
use crate::letter_run::Letters;
use crate::log::{Log, looks_like_message};
use crate::system::trying;
use crate::text::find_last;
use memchr::memchr;
use std::ffi::c_uchar;
use std::ops::Range;

#[repr(C)]
struct Text {
    at: *const c_uchar,
    len: usize,
}

#[repr(C)]
struct CFile {
    name: Text,
    bytes: Text,
    is_there: bool,
}

/// What can be asked of a run.
#[repr(C)]
#[derive(Debug, Clone, Copy, PartialEq, Eq)]
pub struct Options {
    /// How many steps the style may take.
    pub budget: u64,
    /// How many references list an entry that isn't cited.
    pub min_crossrefs: u32,
    /// How long a line of the list may be where it can be broken.
    pub line: u32,
    /// How many bytes of a string a variable of an entry keeps.
    pub entry_max: u32,
    /// How many bytes of a string a global variable keeps.
    pub global_max: u32,
    /// Whether text is read as UTF-8.
    pub utf8: bool,
}

impl Options {
    /// Those of a run that isn't asked for anything else, with so many steps.
    pub const fn usual(budget: u64) -> Options {
        Options { budget, min_crossrefs: 2, line: 79, entry_max: 250, global_max: 20_000, utf8: false }
    }
}

/// What a run answered.
#[repr(C)]
#[derive(Debug, Clone, Copy, Default, PartialEq, Eq)]
pub struct Report {
    /// 0 without error messages, 2 with some, 3 at a limit or without a top file, 4 where the budget was spent.
    pub status: u32,
    /// How the run ended, by the numbers of the header.
    pub end: u32,
    /// How many steps the style took.
    pub steps: u64,
    /// How deep calls were nested.
    pub deepest: u64,
    pub warnings: u64,
    pub errors: u64,
    list_len: usize,
    log_len: usize,
}

/// An event of a run: a line of its log, and what it is.
#[repr(C)]
#[derive(Debug, Clone, Copy)]
struct Event {
    /// How many bytes of the log come before the line, and how many bytes it has without its end.
    at: u64,
    len: u64,
    entry: u64,
    kind: u32,
    met: u32,
}

/// The kind of a line that is neither a warning nor an error.
const PLAIN: u32 = 0;

/// Where the lines were met that READ logs.
const DATABASES: u32 = 2;

/// Of how many lines of a log it is asked what they are: of the first ones. A style may print lines without end.
const MOST_EVENTS: usize = 1 << 16;

impl Event {
    /// The bytes of the log that are its line.
    fn span(&self, log: &[u8]) -> Option<Range<usize>> {
        let start = usize::try_from(self.at).ok()?;
        let end = start.checked_add(usize::try_from(self.len).ok()?)?;
        (end <= log.len()).then_some(start..end)
    }

    /// Where the part of its line begins in which no message does: all that a style prints, and the further lines of a message's text.
    fn text_of_style(&self, log: &[u8], span: &Range<usize>) -> Option<usize> {
        if self.kind == PLAIN {
            Some(span.start)
        } else {
            memchr(b'\n', &log[span.clone()]).map(|end| span.start + end + 1)
        }
    }
}

/// Where a line of the log was met, as C has it.
#[repr(C)]
#[derive(Debug, Clone, Copy)]
struct CPlace {
    /// The number of the file.
    file: u64,
    start: u64,
    end: u64,
    /// 0 where no place is known.
    line: u64,
    /// The numbers of the function and of its token; the first is `NO_FUNCTION` where no token was executed.
    function: u32,
    token: u32,
}

/// No function of a style was executed.
const NO_FUNCTION: u32 = u32::MAX;

impl CPlace {
    /// The place, where one is known.
    fn known(&self) -> Option<EventPlace> {
        let [file, start, end, line] =
            [self.file, self.start, self.end, self.line].map(|number| usize::try_from(number).ok());
        let token = (self.function != NO_FUNCTION).then_some((self.function as usize, self.token as usize));
        Some(EventPlace { file: file?, start: start?, end: end?, line: line.filter(|line| *line > 0)?, token })
    }
}

unsafe extern "C" {
    fn btx_needs(
        job: *const u8,
        job_len: usize,
        files: *const CFile,
        files_len: usize,
        names: *mut u8,
        names_room: usize,
        names_len: *mut usize,
    ) -> u32;
    fn btx_run_places(
        job: *const u8,
        job_len: usize,
        files: *const CFile,
        files_len: usize,
        options: *const Options,
        list: *mut u8,
        list_room: usize,
        log: *mut u8,
        log_room: usize,
        report: *mut Report,
        events: *mut Event,
        events_room: usize,
        places: *mut CPlace,
        places_room: usize,
        events_len: *mut usize,
    ) -> u32;
    fn btx_where(
        job: *const u8,
        job_len: usize,
        files: *const CFile,
        files_len: usize,
        options: *const Options,
        most: u32,
        notes: *mut u8,
        notes_room: usize,
        notes_len: *mut usize,
    ) -> u32;
    fn btx_check(
        name: *const u8,
        name_len: usize,
        text: *const u8,
        text_len: usize,
        steps: u64,
        types: *mut u8,
        types_room: usize,
        notes: *mut u8,
        notes_room: usize,
        verdict: *mut CVerdict,
    ) -> u32;
    fn btx_check_ends(
        name: *const u8,
        name_len: usize,
        text: *const u8,
        text_len: usize,
        kept: u32,
        types: *mut u8,
        types_room: usize,
        notes: *mut u8,
        notes_room: usize,
        bound: *mut CBound,
    ) -> u32;
    fn btx_read(
        file: *const u8,
        file_len: usize,
        text: *const u8,
        text_len: usize,
        strings: *const CString,
        strings_len: usize,
        records: *mut Record,
        records_room: usize,
        texts: *mut u8,
        texts_room: usize,
        sizes: *mut CSizes,
    ) -> u32;
}

#[repr(C)]
struct CString {
    name: Text,
    text: Text,
}

/// A record of a database.
#[repr(C)]
#[derive(Debug, Clone, Copy, PartialEq, Eq)]
pub struct Record {
    /// What it is, by the numbers of the header.
    pub kind: u32,
    pub is_whole: bool,
    /// Its bytes of the database.
    pub start: usize,
    pub end: usize,
    pub line: usize,
    name_at: usize,
    pub name_len: usize,
    text_at: usize,
    pub text_len: usize,
}

// What a record may be that has a value.
pub const STRING: u32 = 2;
pub const FIELD: u32 = 4;
// One that says what is wrong.
const WRONG: u32 = 6;

#[repr(C)]
#[derive(Debug, Clone, Copy, Default)]
struct CSizes {
    records: usize,
    texts: usize,
}

#[repr(C)]
#[derive(Debug, Clone, Copy, Default)]
struct CVerdict {
    verdict: u32,
    literals: u64,
    bodies: u64,
    types_len: usize,
    notes_len: usize,
}

#[repr(C)]
#[derive(Debug, Clone, Copy, Default)]
struct CBound {
    once: u64,
    each: u64,
    types_len: usize,
    notes_len: usize,
    ends: bool,
}

/// The status of a run whose budget was spent.
pub const STOPPED: u32 = 4;

// The end of a run that came to an end of its own.
const FINISHED: u32 = 0;

impl Report {
    /// Whether all commands of the style were done.
    pub fn has_finished(&self) -> bool {
        self.end == FINISHED
    }

    /// Whether the budget was spent.
    pub fn is_stopped(&self) -> bool {
        self.status == STOPPED
    }
}

// What the calls answer.
const DONE: u32 = 0;
const REFUSED: u32 = 1;
const ASKS: u32 = 3;
const FULL: u32 = 4;
const ENDS: u32 = 5;

// How a run ended that filled a room: its list's; else it is its log's.
const LIST_FULL: u32 = 11;

/// How long list and log may be.
#[derive(Debug, Clone, Copy, PartialEq, Eq)]
pub struct Rooms {
    pub list: usize,
    pub log: usize,
}

/// How a run ended.
#[derive(Debug, Clone, Copy, PartialEq, Eq)]
pub enum Answer {
    /// It was done.
    Done(Report),
    /// The list would have been longer than its room.
    ListFull,
    /// The log would have been longer than its room.
    LogFull,
    /// Memory was refused, or the library was asked for something that it refuses.
    Memory,
}

/// What a run wrote and answered. Where it wasn't done, list and log are beginnings of what they would have been.
#[derive(Debug)]
pub struct Ran {
    pub list: Vec<u8>,
    pub log: Vec<u8>,
    /// The parts of the log that look like messages and are none, since the style printed them.
    pub printed: Vec<Range<usize>>,
    /// The messages of the log that have more lines than one.
    pub long: Vec<Range<usize>>,
    /// Where the messages were met.
    pub places: LogPlaces,
    /// The part of the log that READ wrote, as far as that is known: no warning outside of it is one of the databases.
    pub of_read: Range<usize>,
    pub answer: Answer,
    /// Whether text was read as UTF-8.
    pub utf8: bool,
    /// Whether the list is known to be UTF-8.
    pub is_utf8: bool,
    /// What became of the letters of a language.
    pub letters: Letters,
}

impl Ran {
    /// The log, in which no line that the style printed is taken for a message.
    pub fn lines_of_log(&self) -> Log<'_> {
        Log::new(&self.log).with_printed(&self.printed).with_places(&self.places)
    }

    /// The first half letter of UTF-8 that the list of a job with these files has; None where the run broke off.
    pub fn half_letter(&self, files: &Files) -> Option<HalfLetter<'_>> {
        match self.answer {
            Answer::Done(report) if !self.is_utf8 => half_letter(&self.list, report.is_stopped(), files),
            _ => None,
        }
    }

    /// Whether a run that found no mistake didn't find an entry that is cited.
    pub fn misses_an_entry(&self) -> bool {
        let is_finished = matches!(self.answer, Answer::Done(report) if report.status == 0 && report.warnings > 0);
        let mut lines = self.log.split(|byte| *byte == b'\n');
        is_finished && lines.any(|line| line.starts_with(b"Warning--I didn't find a database entry for \""))
    }
}

/// Memory was refused.
#[derive(Debug, Clone, Copy, PartialEq, Eq)]
pub struct MemoryRefused;

/// A text for C. The pointer of a slice is never null.
fn text(bytes: &[u8]) -> Text {
    Text { at: bytes.as_ptr(), len: bytes.len() }
}

fn for_c(files: &[File]) -> Vec<CFile> {
    let file = |file: &File| CFile {
        name: text(&file.name),
        bytes: text(file.bytes.as_deref().unwrap_or(b"")),
        is_there: file.bytes.is_some(),
    };
    files.iter().map(file).collect()
}

/// Calls `btx_needs`: puts as many names into `names` as there is room for, and answers how many bytes all of them have.
fn needs_into(job: &[u8], files: &[CFile], names: &mut [u8]) -> Result<usize, MemoryRefused> {
    let mut len = 0;
    // SAFETY: each pointer is that of a slice or a reference that outlives the call, with its length; what is written is borrowed alone.
    let answer = unsafe {
        btx_needs(job.as_ptr(), job.len(), files.as_ptr(), files.len(), names.as_mut_ptr(), names.len(), &mut len)
    };
    // Where the run ends with its `.aux` files, there are no names.
    if matches!(answer, DONE | ENDS) { Ok(len) } else { Err(MemoryRefused) }
}

/// The names of files that a job needs and of which `files` says nothing. The first answer is the top file's name alone.
pub fn needs(job: &[u8], files: &[File]) -> Result<Vec<Vec<u8>>, MemoryRefused> {
    if files.is_empty() {
        // The only name that may have a line end in it.
        return Ok(vec![job.to_vec()]);
    }
    let given = for_c(files);
    let mut names = vec![0; 4096];
    let len = needs_into(job, &given, &mut names)?;
    if len > names.len() {
        names.clear();
        trying(|| names.try_reserve_exact(len)).map_err(|_| MemoryRefused)?;
        names.resize(len, 0);
        needs_into(job, &given, &mut names)?;
    }
    names.truncate(len);
    let lines = names.split_inclusive(|byte| *byte == b'\n');
    Ok(lines.map(|line| line.strip_suffix(b"\n").unwrap_or(line).to_vec()).collect())
}

/// The least room for which a run is tried where memory is short.
const LEAST_ROOM: usize = 1 << 16;

/// An empty text with room for `len` bytes. Where memory is short, it has room for fewer, so that most of what there is stays for the run.
/// Room that isn't written costs nothing.
fn room(len: usize) -> Result<Vec<u8>, MemoryRefused> {
    let mut bytes = Vec::new();
    let mut fitting = len;
    while trying(|| bytes.try_reserve_exact(fitting)).is_err() {
        fitting /= 2;
        if fitting < LEAST_ROOM {
            return Err(MemoryRefused);
        }
    }
    if fitting < len {
        bytes = Vec::new();
        trying(|| bytes.try_reserve_exact((fitting / 4).max(LEAST_ROOM))).map_err(|_| MemoryRefused)?;
    }
    Ok(bytes)
}

/// The parts of a log that look like messages and are none, and the messages that have more lines than one, by these events of it.
fn printed_and_long(log: &[u8], events: &[Event]) -> (Vec<Range<usize>>, Vec<Range<usize>>) {
    let (mut printed, mut long) = (Vec::new(), Vec::new());
    for event in events {
        let Some(span) = event.span(log) else { continue };
        let Some(first) = event.text_of_style(log, &span) else { continue };
        if log[first..span.end].split(|byte| *byte == b'\n').any(looks_like_message) {
            printed.push(first..span.end);
        }
        if event.kind != PLAIN {
            long.push(span);
        }
    }
    (printed, long)
}

/// Where the messages of a log were met, by these events of it and the place of each.
fn places_of(events: &[Event], places: &[CPlace]) -> LogPlaces {
    let placed =
        |event: &Event, place: &CPlace| Some(Placed { at: usize::try_from(event.at).ok()?, place: place.known()? });
    let mut of_log = LogPlaces::default();
    for (event, place) in events.iter().zip(places).filter(|(event, _)| event.kind != PLAIN) {
        of_log.known.extend(placed(event, place));
    }
    of_log
}

/// The part of a log that READ wrote, by the events of it. Where they end before the log does, what comes after them may be that part's.
fn part_of_read(log: &[u8], events: &[Event]) -> Range<usize> {
    let is_its = |event: &&Event| event.met == DATABASES;
    let end = |event: &Event| event.at.saturating_add(event.len).min(log.len() as u64) as usize;
    let known = events.last().map_or(0, end);
    let first = events.iter().find(is_its).map_or(known, |event| event.at as usize);
    let last = events.iter().rfind(is_its).map_or(first, end);
    let may_go_on = known + 1 < log.len() && events.last().is_none_or(|last| last.met <= DATABASES);
    first..if may_go_on { log.len() } else { last }
}

/// Runs a job over these files.
pub fn run(job: &[u8], files: &[File], options: &Options, rooms: &Rooms) -> Ran {
    let (Ok(mut list), Ok(mut log)) = (room(rooms.list), room(rooms.log)) else {
        return Ran {
            list: Vec::new(),
            log: Vec::new(),
            printed: Vec::new(),
            long: Vec::new(),
            places: LogPlaces::default(),
            of_read: 0..0,
            answer: Answer::Memory,
            utf8: options.utf8,
            is_utf8: true,
            letters: Letters::AsTheyAre,
        };
    };
    let given = for_c(files);
    let (wanted, rooms) = (*rooms, Rooms { list: list.capacity().min(rooms.list), log: log.capacity().min(rooms.log) });
    let mut report = Report::default();
    let (mut events, mut places): (Vec<Event>, Vec<CPlace>) = (Vec::new(), Vec::new());
    let wanted_events = MOST_EVENTS.min(rooms.log);
    let reserved = trying(|| {
        events.try_reserve_exact(wanted_events)?;
        places.try_reserve_exact(wanted_events)
    });
    let events_room = reserved.map_or(0, |()| wanted_events);
    let mut events_len = 0;
    // SAFETY: each pointer is that of a slice or a reference that outlives the call, with its length; list, log, events and places have that much room
    // of their own, which is only written to; and as many of their bytes as the report says have been written, and as many events and places as the call says.
    let code = unsafe {
        let code = btx_run_places(
            job.as_ptr(),
            job.len(),
            given.as_ptr(),
            given.len(),
            options,
            list.as_mut_ptr(),
            rooms.list,
            log.as_mut_ptr(),
            rooms.log,
            &mut report,
            events.as_mut_ptr(),
            events_room,
            places.as_mut_ptr(),
            events_room,
            &mut events_len,
        );
        list.set_len(report.list_len.min(rooms.list));
        log.set_len(report.log_len.min(rooms.log));
        events.set_len(events_len.min(events_room));
        places.set_len(events_len.min(events_room));
        code
    };
    debug_assert!(code != ASKS, "btx_needs names all files that a run asks for");
    let answer = match code {
        DONE => Answer::Done(report),
        FULL if rooms != wanted => Answer::Memory,
        FULL if report.end == LIST_FULL => Answer::ListFull,
        FULL => Answer::LogFull,
        _ => Answer::Memory,
    };
    let (printed, long) = printed_and_long(&log, &events);
    let of_read = part_of_read(&log, &events);
    let are_first = code != DONE || events_len > events.len();
    let places = LogPlaces { are_first, ..places_of(&events, &places) };
    let (utf8, letters) = (options.utf8, Letters::AsTheyAre);
    Ran { list, log, printed, long, places, of_read, answer, utf8, is_utf8: false, letters }
}

/// The room for notes that is tried first.
const ROOM_FOR_NOTES: usize = 1 << 17;

/// Calls `btx_where`: the room is grown to what the notes take. None where there are no notes, since memory was refused.
fn notes_of(job: &[u8], files: &[CFile], options: &Options, most: u32, room: usize) -> Option<Vec<u8>> {
    let mut notes: Vec<u8> = Vec::new();
    trying(|| notes.try_reserve_exact(room)).ok()?;
    let mut len = 0;
    // SAFETY: each pointer is that of a slice or a reference that outlives the call, with its length; the notes have that much room of their
    // own, which is only written to; and at DONE as many of their bytes as the length says have been written.
    let answer = unsafe {
        let answer = btx_where(
            job.as_ptr(),
            job.len(),
            files.as_ptr(),
            files.len(),
            options,
            most,
            notes.as_mut_ptr(),
            room,
            &mut len,
        );
        notes.set_len(if answer == DONE { len.min(room) } else { 0 });
        answer
    };
    match answer {
        DONE => Some(notes),
        FULL if len > room => notes_of(job, files, options, most, len),
        _ => None,
    }
}

/// The notes of where a job's style stands: at each of the first `most` events that log errors, and where the run is stopped or meets a limit.
pub fn notes(job: &[u8], files: &[File], options: &Options, most: u32) -> Option<Vec<u8>> {
    notes_of(job, &for_c(files), options, most, ROOM_FOR_NOTES)
}

/// What the proved checker says of a style.
#[derive(Debug, Clone, PartialEq, Eq)]
pub enum Verdict {
    /// No run of it logs a fault of the stack or of kinds, as long as each entry's type is one that the style doesn't know or one of `types`; no more than `bodies` bodies of functions are
    /// ever open at once. The greatest number of literals isn't proved.
    Clean { literals: u64, bodies: u64, types: Vec<Vec<u8>> },
    /// It isn't known to be clean: notes say where it may go wrong.
    Warnings(Vec<u8>),
    /// The check didn't come to an end; notes say where the style may go wrong, as far as that was seen.
    Incomplete(Vec<u8>),
}

/// The room for the names of types and for the notes that is tried first.
const ROOM_FOR_CHECK: usize = 1 << 16;

/// Checks a style in at most `steps` steps of the check. None where the text is longer than a style may be.
pub fn check(name: &[u8], style: &[u8], steps: u64) -> Result<Option<Verdict>, MemoryRefused> {
    check_in(name, style, steps, ROOM_FOR_CHECK)
}

fn check_in(name: &[u8], style: &[u8], steps: u64, room: usize) -> Result<Option<Verdict>, MemoryRefused> {
    let (mut types, mut notes, mut verdict) = (vec![0; room], vec![0; room], CVerdict::default());
    // SAFETY: each pointer is that of a slice or a reference that outlives the call, with its length; what is written is borrowed alone.
    let answer = unsafe {
        btx_check(
            name.as_ptr(),
            name.len(),
            style.as_ptr(),
            style.len(),
            steps,
            types.as_mut_ptr(),
            room,
            notes.as_mut_ptr(),
            room,
            &mut verdict,
        )
    };
    let needed = verdict.types_len.max(verdict.notes_len);
    match answer {
        DONE => {}
        FULL if needed > room => return check_in(name, style, steps, needed),
        REFUSED => return Ok(None),
        _ => return Err(MemoryRefused),
    }
    notes.truncate(verdict.notes_len);
    let types = names_in(&types[..verdict.types_len]);
    Ok(Some(match verdict.verdict {
        0 => Verdict::Clean { literals: verdict.literals, bodies: verdict.bodies, types },
        1 => Verdict::Warnings(notes),
        _ => Verdict::Incomplete(notes),
    }))
}

/// A bound of the steps of a style's runs: `once` steps, and `each` for each entry of the list.
#[derive(Debug, Clone, Copy, PartialEq, Eq)]
pub struct Bound {
    pub once: u64,
    pub each: u64,
    /// How many bytes a global string variable keeps at most.
    pub kept: u32,
}

/// What is said of the steps of a style's runs.
#[derive(Debug, Clone, PartialEq, Eq)]
pub enum Steps {
    /// Each run ends within the bound, as long as each entry's type is one that the style doesn't know or one of these. Where the style is checked for more types,
    /// notes say where the first token without a bound stands.
    Bounded(Bound, Vec<Vec<u8>>, Vec<u8>),
    /// No bound is known: notes say where the first token without one stands.
    Unbounded(Vec<u8>),
}

/// Says whether each run of a style ends where a global string variable keeps at most `kept` bytes. None where the text is longer than a style may be.
pub fn check_ends(name: &[u8], style: &[u8], kept: u32) -> Result<Option<Steps>, MemoryRefused> {
    check_ends_in(name, style, kept, ROOM_FOR_CHECK)
}

fn check_ends_in(name: &[u8], style: &[u8], kept: u32, room: usize) -> Result<Option<Steps>, MemoryRefused> {
    let (mut types, mut notes, mut bound) = (vec![0; room], vec![0; room], CBound::default());
    // SAFETY: each pointer is that of a slice or a reference that outlives the call, with its length; what is written is borrowed alone.
    let answer = unsafe {
        btx_check_ends(
            name.as_ptr(),
            name.len(),
            style.as_ptr(),
            style.len(),
            kept,
            types.as_mut_ptr(),
            room,
            notes.as_mut_ptr(),
            room,
            &mut bound,
        )
    };
    let needed = bound.types_len.max(bound.notes_len);
    match answer {
        DONE => {}
        FULL if needed > room => return check_ends_in(name, style, kept, needed),
        REFUSED => return Ok(None),
        _ => return Err(MemoryRefused),
    }
    notes.truncate(bound.notes_len);
    let its = Bound { once: bound.once, each: bound.each, kept };
    Ok(Some(if bound.ends {
        Steps::Bounded(its, names_in(&types[..bound.types_len]), notes)
    } else {
        Steps::Unbounded(notes)
    }))
}

/// Names that each end in a byte 10.
fn names_in(types: &[u8]) -> Vec<Vec<u8>> {
    types.split_inclusive(|byte| *byte == b'\n').map(|name| name[..name.len() - 1].to_vec()).collect()
}

/// The records of a database, whatever a document cites, without their texts.
pub fn read(text: &[u8]) -> Result<Vec<Record>, MemoryRefused> {
    Ok(read_in(text, text.len() / BYTES_OF_RECORD + 16, 0)?.0)
}

/// The mistakes of a database: the line of each, and what a run logs of it.
pub fn mistakes(text: &[u8]) -> Result<Vec<(usize, Vec<u8>)>, MemoryRefused> {
    let (records, texts) = read_in(text, text.len() / BYTES_OF_RECORD + 16, text.len() + ROOM_FOR_MISTAKES)?;
    let mistake = |record: &Record| {
        let said = texts.get(record.text_at..record.text_at + record.text_len).unwrap_or_default();
        let said = said.strip_prefix(b"Error--").unwrap_or(said);
        (record.line, said[..find_last(said, b"--line ").unwrap_or(said.len())].to_vec())
    };
    Ok(records.iter().filter(|record| record.kind == WRONG).map(mistake).collect())
}

/// How many bytes of a database a record has at least in most of them. Room that isn't written costs nothing.
const BYTES_OF_RECORD: usize = 12;

/// The room for the texts of mistakes that is tried first.
const ROOM_FOR_MISTAKES: usize = 1 << 16;

fn read_in(text: &[u8], room: usize, room_of_texts: usize) -> Result<(Vec<Record>, Vec<u8>), MemoryRefused> {
    let (mut records, mut texts, mut sizes) = (Vec::<Record>::new(), Vec::<u8>::new(), CSizes::default());
    trying(|| records.try_reserve_exact(room)).map_err(|_| MemoryRefused)?;
    trying(|| texts.try_reserve_exact(room_of_texts)).map_err(|_| MemoryRefused)?;
    let strings: &[CString] = &[];
    // SAFETY: each pointer is that of a slice or a reference that outlives the call, with its length; the records and the texts have that much room of their own, which is only
    // written to; and at DONE and FULL as many of them as the sizes say, or as there is room for, have been written.
    let answer = unsafe {
        let answer = btx_read(
            b"".as_ptr(),
            0,
            text.as_ptr(),
            text.len(),
            strings.as_ptr(),
            strings.len(),
            records.as_mut_ptr(),
            room,
            texts.as_mut_ptr(),
            room_of_texts,
            &mut sizes,
        );
        let is_written = matches!(answer, DONE | FULL);
        records.set_len(if is_written { sizes.records.min(room) } else { 0 });
        texts.set_len(if is_written { sizes.texts.min(room_of_texts) } else { 0 });
        answer
    };
    match answer {
        DONE | FULL if sizes.records <= room && (room_of_texts == 0 || sizes.texts <= room_of_texts) => {
            Ok((records, texts))
        }
        FULL => read_in(text, sizes.records, if room_of_texts == 0 { 0 } else { sizes.texts }),
        _ => Err(MemoryRefused),
    }
}

#[cfg(test)]
mod tests;
