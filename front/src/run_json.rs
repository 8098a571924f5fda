//! What a run says as lines of JSON, for programs: the objects and fields that `docs/RULES.md` describes ("A run as data").

use crate::advice::{self, Section};
use crate::btx::Answer;
use crate::exit::{Failure, Status};
use crate::kinds::{STYLE_WARNING, kind_of, kind_of_end};
use crate::lint_json::on_one_line;
use crate::log::{Content, Line, Message, Place, Severity, message_of};
use crate::message_places::{MessagePlaces, Part, Stands};
use crate::run_log::{Interrupted, Kept, MOST_PRINTED, RunLog};
use crate::scene::{Call, End, IN_BRACES};
use crate::shapes::went_well;
use crate::terminal::steers_terminals;
use crate::text::{Columns, split_first};
use memchr::memchr;
use serde::Serialize;
use std::io::{self, Write};
use std::ops::Range;
use std::slice;

/// The version of the schema. It changes where a field goes, or means something else.
const SCHEMA: u32 = 1;

/// The first object.
#[derive(Serialize)]
struct JobJson {
    object: &'static str,
    schema: u32,
    program: &'static str,
    version: &'static str,
    job: Option<String>,
    job_bytes: Option<String>,
}

/// A message.
#[derive(Default, Serialize)]
struct MessageJson {
    object: &'static str,
    kind: &'static str,
    severity: &'static str,
    text: Option<String>,
    text_bytes: Option<String>,
    file: Option<String>,
    file_bytes: Option<String>,
    path: Option<String>,
    path_bytes: Option<String>,
    line: Option<usize>,
    column: Option<usize>,
    column_bytes: Option<usize>,
    end: Option<EndJson>,
    entry: Option<String>,
    entry_bytes: Option<String>,
    function: Option<String>,
    function_bytes: Option<String>,
    calls: Option<Vec<CallJson>>,
    advice: Option<String>,
    log: Option<[usize; 2]>,
}

/// Where the part of a line ends that a message is about.
#[derive(Serialize)]
struct EndJson {
    line: Option<usize>,
    column: usize,
    column_bytes: usize,
}

/// A place in a style that was executed, or that called.
#[derive(Serialize)]
struct CallJson {
    function: Option<String>,
    function_bytes: Option<String>,
    line: Option<usize>,
    column: Option<usize>,
    column_bytes: Option<usize>,
}

/// The last object.
#[derive(Default, Serialize)]
struct ReportJson {
    object: &'static str,
    end: String,
    status: Option<u8>,
    warnings: Option<u64>,
    errors: Option<u64>,
    steps: Option<u64>,
    list: Option<String>,
    list_bytes: Option<String>,
    log: Option<String>,
    log_bytes: Option<String>,
    advice: Option<String>,
    notes: Vec<String>,
    left_out: u64,
}

/// A text as JSON can hold it; and its bytes, percent-encoded, where they aren't UTF-8.
fn shown(bytes: Option<&[u8]>) -> (Option<String>, Option<String>) {
    let Some(bytes) = bytes else { return (None, None) };
    match str::from_utf8(bytes) {
        Ok(text) => (Some(text.to_string()), None),
        Err(_) => (Some(String::from_utf8_lossy(bytes).into_owned()), Some(percent_encoded(bytes))),
    }
}

fn percent_encoded(bytes: &[u8]) -> String {
    let one = |byte: &u8| match byte {
        b'!'..=b'~' if *byte != b'%' => char::from(*byte).to_string(),
        _ => format!("%{byte:02X}"),
    };
    bytes.iter().map(one).collect()
}

/// Writes an object on a line. A character that steers terminals, or turns text round, is written by its number.
fn put(object: &impl Serialize, out: &mut impl Write) -> io::Result<()> {
    let line = on_one_line(object);
    // (a control character below 127 is written so in any case)
    if line.is_ascii() && memchr(127, line.as_bytes()).is_none() || !steers_terminals(line.as_bytes()) {
        return writeln!(out, "{line}");
    }
    let one = |character: char| match steers_terminals(character.encode_utf8(&mut [0; 4]).as_bytes()) {
        true => format!("\\u{:04x}", u32::from(character)),
        false => character.to_string(),
    };
    writeln!(out, "{}", line.chars().map(one).collect::<String>())
}

fn put_job(stem: &[u8], out: &mut impl Write) -> io::Result<()> {
    let (job, job_bytes) = shown(Some(stem));
    let version = env!("CARGO_PKG_VERSION");
    put(&JobJson { object: "job", schema: SCHEMA, program: "bibtex-search", version, job, job_bytes }, out)
}

/// Writes what a run said. `places` are the bytes of the `.blg` that each message takes, and its last line.
pub fn write(run: &RunLog<'_>, places: &[Range<usize>], kept: &Kept, out: &mut impl Write) -> io::Result<()> {
    let stem = run.name.strip_suffix(b".blg").unwrap_or(run.name);
    put_job(stem, out)?;
    let log = run.log();
    let places = if kept.is_written { places } else { &[] };
    let found = MessagePlaces::new(&log, run.files);
    let mut reader =
        Reader { run, places: places.iter(), long: run.ran.long.iter(), found, columns: Columns::default() };
    let mut report = ReportJson { object: "report", end: early_end(run.ran.answer).0.into(), ..ReportJson::default() };
    let most = if run.ran.answer == Answer::LogFull { MOST_PRINTED } else { usize::MAX };
    // (the line by which a log ends well is no message, and has what the report says)
    let is_said = |line: &Line<'_>| matches!(line.content, Content::Ended(_)) || !went_well(line);
    for (number, line) in log.lines().filter(is_said).enumerate() {
        let message = match &line.content {
            Content::Message(_) if number >= most => {
                report.left_out += 1;
                None
            }
            Content::Message(message) => Some(reader.message(&line, message)),
            content => reader.other(&line, content, &mut report),
        };
        message.map_or(Ok(()), |message| put(&message, out))?;
    }
    reader.full_room().map_or(Ok(()), |message| put(&message, out))?;
    report.status = kept.status.map(|status| status as u8);
    (report.list, report.list_bytes) = shown(Some(&[stem, b".bbl"].concat()[..]).filter(|_| kept.is_written));
    (report.log, report.log_bytes) = shown(Some(run.name).filter(|_| kept.is_written));
    report.notes = String::from_utf8_lossy(&run.notes()).lines().map(String::from).collect();
    put(&report, out)
}

/// Writes what is to be said of a job that isn't run.
pub fn write_failure(job: &[u8], failure: &Failure, out: &mut impl Write) -> io::Result<()> {
    let stem = job.strip_suffix(b".aux").unwrap_or(job);
    put_job(stem, out)?;
    let end = match failure.status() {
        Status::Limit => "no top file",
        Status::Refused => "refused",
        Status::Memory => "out of memory",
        _ => "device error",
    };
    if failure.status() == Status::Limit {
        let text = [b"Ended: ", end.as_bytes()].concat();
        let (file, file_bytes) = shown(Some(&[stem, b".aux"].concat()));
        let advice = advice::find(&[Section::Run], &text).map(|advice| advice.text());
        put(&MessageJson { file, file_bytes, advice, ..error(&text, kind_of_end(&text)) }, out)?;
    }
    let (status, notes) = (Some(failure.status() as u8), vec![failure.to_string()]);
    put(&ReportJson { object: "report", end: end.into(), status, notes, ..ReportJson::default() }, out)
}

/// How a run ended whose log has no last line, and the kind of what is said of that.
fn early_end(answer: Answer) -> (&'static str, Option<&'static str>) {
    match answer {
        Answer::LogFull => ("log full", Some("log-full")),
        Answer::ListFull => ("list full", Some("list-full")),
        Answer::Done(_) | Answer::Memory => ("out of memory", None),
    }
}

/// An error without a place.
fn error(text: &[u8], kind: &'static str) -> MessageJson {
    let (text, text_bytes) = shown(Some(text));
    MessageJson { object: "message", kind, severity: "error", text, text_bytes, ..MessageJson::default() }
}

/// Reads the messages of a log.
struct Reader<'a> {
    run: &'a RunLog<'a>,
    places: slice::Iter<'a, Range<usize>>,
    /// The messages on several lines that are still to come.
    long: slice::Iter<'a, Range<usize>>,
    found: MessagePlaces<'a>,
    columns: Columns,
}

impl<'a> Reader<'a> {
    /// The bytes of the log that are the message which begins with this line.
    fn whole(&mut self, line: &Line<'a>) -> &'a [u8] {
        let behind = self.long.as_slice().partition_point(|part| part.start < line.at);
        self.long = self.long.as_slice()[behind..].iter();
        let long = self.long.as_slice().first().filter(|part| part.start == line.at);
        long.and_then(|part| self.run.ran.log.get(part.clone())).unwrap_or(line.bytes)
    }

    fn message(&mut self, line: &Line<'a>, said: &Message<'a>) -> MessageJson {
        let advice = Some(self.found.adviser.advice_on(line).join("\n")).filter(|advice| !advice.is_empty());
        let whole = self.whole(line);
        let long = if whole.len() > line.bytes.len() { message_of(whole) } else { None };
        let message = Message { scene: said.scene, met: said.met, ..long.unwrap_or(*said) };
        let function = if let Place::Execution { function, .. } = message.place { Some(function) } else { None };
        let is_warning = message.severity == Severity::Warning;
        let is_of_style = is_warning && function.is_none() && !self.run.ran.of_read.contains(&line.at);
        let kind = if is_of_style { STYLE_WARNING } else { kind_of(&message) };
        let text = if kind == STYLE_WARNING { &whole[b"Warning--".len()..] } else { message.text };
        let stands = if kind == STYLE_WARNING { self.found.of_style_warning(text) } else { self.found.of(&message) };
        let calls = message.scene.filter(|scene| scene.has_callers()).map(|scene| {
            let Reader { found, columns, .. } = self;
            found.of_calls(scene, function).map(|(call, part)| CallJson::of(call, part, columns)).collect()
        });
        let more = whole.len() - line.bytes.len();
        let log = self.places.next().map(|place| [place.start, place.end + more]);
        let severity = if is_warning { "warning" } else { "error" };
        let mut json = MessageJson { severity, calls, log, advice, ..error(text, kind) };
        (json.function, json.function_bytes) = shown(function);
        self.placed(json, &stands)
    }

    /// A message with its place.
    fn placed(&mut self, mut json: MessageJson, stands: &Stands<'a>) -> MessageJson {
        let file = stands.file.and_then(|name| self.found.sources.file(name));
        (json.file, json.file_bytes) = shown(stands.file);
        (json.path, json.path_bytes) = shown(file.map(|file| &file.path[..]));
        (json.entry, json.entry_bytes) = shown(stands.entry);
        json.line = stands.number;
        if let Some((line, (start, end))) = stands.part {
            let (column, column_bytes) = (self.columns.of(line, end), end + 1);
            (json.column, json.column_bytes) = (Some(self.columns.of(line, start)), Some(start + 1));
            json.end = Some(EndJson { line: stands.number, column, column_bytes }).filter(|_| end > start);
        }
        json
    }

    /// Takes a line that is no message; where it says that a limit or the budget ended the run, it is one.
    fn other(&mut self, line: &Line<'a>, content: &Content<'a>, report: &mut ReportJson) -> Option<MessageJson> {
        let mut advice = self.found.adviser.advice_on(line).into_iter();
        let Content::Ended(end) = content else { return None };
        let log = self.places.next().map(|place| [place.start, place.end]);
        let is_interrupted = matches!(self.run.interrupted, Some(Interrupted::Run(_)));
        let how = if is_interrupted { b"interrupted" } else { end.how };
        report.end = String::from_utf8_lossy(how).into_owned();
        (report.warnings, report.errors, report.steps) = (Some(end.warnings), Some(end.errors), Some(end.steps));
        let is_message = !is_interrupted && !end.is_finished();
        let said = if is_message { advice.next() } else { None };
        report.advice = advice.next();
        let (text, _) = split_first(line.bytes, b", warnings ").unwrap_or((line.bytes, b""));
        is_message.then(|| MessageJson { advice: said, log, ..self.at_end(error(text, kind_of_end(text))) })
    }

    /// What is said of a room that is full.
    fn full_room(&mut self) -> Option<MessageJson> {
        let (_, kind) = early_end(self.run.ran.answer);
        let notes = self.run.notes();
        let text = notes.split(|byte| *byte == b'\n').next().unwrap_or(b"");
        kind.map(|kind| self.at_end(error(text, kind)))
    }

    /// A message on the end of a run, with the place where the style stood.
    fn at_end(&mut self, json: MessageJson) -> MessageJson {
        let Some(end) = self.run.scenes.end.as_ref() else { return json };
        let Reader { found, columns, .. } = self;
        let calls = found.of_calls(&end.scene, None).map(|(call, part)| CallJson::of(call, part, columns)).collect();
        let at = End::placed(end);
        let (file, number) = (at.map(|at| &at.file[..]), at.map(|at| at.line));
        self.placed(MessageJson { calls: Some(calls), ..json }, &Stands { file, number, ..Stands::default() })
    }
}

impl CallJson {
    fn of(call: &Call, part: Option<Part<'_>>, columns: &mut Columns) -> CallJson {
        let braces = if call.function.starts_with(IN_BRACES) { IN_BRACES } else { b"" };
        let (function, function_bytes) = shown(Some(&[braces, call.owner()].concat()));
        let column = part.map(|(line, (start, _))| columns.of(line, start));
        let column_bytes = part.map(|(_, (start, _))| start + 1);
        CallJson { function, function_bytes, line: Some(call.line).filter(|line| *line > 0), column, column_bytes }
    }
}
