//! The run of a job with the letters of a language: over databases whose letters are coded, and what it writes turned back.

use crate::btx::{Answer, Ran};
use crate::event_places::{EventPlace, LogPlaces, Placed};
use crate::job::{File, Files};
use crate::languages::{AFTER, Language};
use crate::letter_codes::{AT_ONCE, Codes, InBraces, MARK, SHORT, Turned, write_part};
use crate::letter_places::{Met, has_digits};
use crate::letter_values::{self, FIXED, texts};
use crate::style_keys;
use memchr::memmem;
use std::ops::Range;
use std::sync::Arc;
use std::thread;

/// How many times as long the strings are that variables of a run with codes keep: a code has some four times the bytes of its letter.
const LONGER: u32 = 4;

/// What became of the letters of a language.
#[derive(Debug)]
pub enum Letters {
    /// The run read the databases as they are.
    AsTheyAre,
    /// It read coded ones, and what it wrote is turned back.
    Coded(Arc<Coded>),
    /// It read the databases as they are though a language was asked for.
    LeftOut(LeftOut),
}

/// Why the letters of a language were left out.
#[derive(Debug, Clone, Copy, PartialEq, Eq)]
pub enum LeftOut {
    NotUtf8,
    ControlCharacters,
    PrintsKeys,
    CutsLetters,
    Unfinished,
}

impl LeftOut {
    /// The reason, as the log has it.
    pub fn reason(self) -> &'static str {
        match self {
            LeftOut::NotUtf8 => "an entry or a string isn't UTF-8",
            LeftOut::ControlCharacters => "the style, an entry or a string has control characters",
            LeftOut::PrintsKeys => "the style prints text that it made for sorting",
            LeftOut::CutsLetters => "the style cuts text by bytes",
            LeftOut::Unfinished => "the run didn't finish",
        }
    }
}

/// The files of a job with coded letters, and their codes.
#[derive(Debug)]
pub struct Coded {
    pub files: Files,
    pub codes: Codes,
}

/// Whether a job has letters that a language may sort by rules of its own.
pub fn has_letters(files: &Files) -> bool {
    files.with_ending(".bib").any(|file| !bytes_of(file).is_ascii())
}

fn bytes_of(file: &File) -> &[u8] {
    file.bytes.as_deref().unwrap_or(b"")
}

/// What a style may keep of a string in a run with coded letters.
pub fn longer(most: u32) -> u32 {
    most.saturating_mul(LONGER).min(1_000_000)
}

/// Runs a job with the letters of a language; an error says why its list can't be made so, and None that no entry of it has such letters. Where the style's text doesn't show that
/// it prints no keys, that is seen by a run of its own.
pub fn run(
    files: &Files,
    language: &Arc<Language>,
    run: impl Fn(&Files) -> Ran + Sync,
) -> Result<Option<Ran>, LeftOut> {
    let chosen = letter_values::chosen(files, language)?;
    if chosen.values.iter().all(Vec::is_empty) {
        return Ok(None);
    }
    let style = files.with_ending(".bst").next().map_or(&b""[..], bytes_of);
    if has_digits(style) {
        return Err(LeftOut::ControlCharacters);
    }
    let types: Vec<&[u8]> = chosen.types.iter().map(|kind| kind.0).collect();
    let may_print_keys = style_keys::may_print_keys(style, &types, &FIXED);
    let job = Job { files, values: chosen.values, letters: chosen.letters, language };
    let ran = thread::scope(|scope| {
        let prints = may_print_keys.then(|| scope.spawn(|| job.prints_keys(&run)));
        let ran = job.run_with(InBraces::Coded, &run).or_else(|why| match why {
            LeftOut::CutsLetters => job.run_with(InBraces::AsTheyAre, &run),
            _ => Err(why),
        });
        match prints.map(|prints| prints.join().unwrap_or(true)) {
            Some(true) => Err(LeftOut::PrintsKeys),
            _ => ran,
        }
    });
    ran.map(Some)
}

/// Where these parts of a log are once it is turned back. No code has an end of a line in it.
fn moved(codes: &Codes, log: &[u8], parts: &[Range<usize>]) -> Vec<Range<usize>> {
    let (mut at, mut turned) = (0, 0);
    let mut place = |end: usize| {
        turned += codes.turn_back(&log[at..end]).text.map_or(end - at, |text| text.len());
        at = end;
        turned
    };
    parts.iter().map(|part| place(part.start)..place(part.end)).collect()
}

/// A job, the values of its files, the letters outside ASCII of these, and the language of the letters.
struct Job<'a> {
    files: &'a Files,
    values: Vec<Vec<Range<usize>>>,
    letters: Vec<Vec<Met>>,
    language: &'a Arc<Language>,
}

impl Job<'_> {
    /// The job with coded letters.
    fn coded(&self, in_braces: InBraces, are_marked: bool) -> Coded {
        let mut codes = Codes::new(self.language, in_braces, are_marked);
        let mut code = |((file, values), letters): ((&File, &Vec<Range<usize>>), &Vec<Met>)| {
            let bytes = file.bytes.as_deref().map(|bytes| coded_text(bytes, values, letters, &mut codes));
            File { name: file.name.clone(), bytes, path: file.path.clone() }
        };
        let all = self.files.all.iter().zip(&self.values).zip(&self.letters).map(&mut code).collect();
        Coded { files: Files { top: self.files.top.clone(), all }, codes }
    }

    /// The run over coded letters, turned back.
    fn run_with(&self, in_braces: InBraces, run: impl Fn(&Files) -> Ran) -> Result<Ran, LeftOut> {
        let coded = self.coded(in_braces, false);
        let ran = run(&coded.files);
        if !matches!(ran.answer, Answer::Done(report) if report.has_finished()) {
            return Err(LeftOut::Unfinished);
        }
        let (list, log) = (coded.codes.turn_back(&ran.list), coded.codes.turn_back(&ran.log));
        if !list.is_whole || !log.is_whole || !self.has_all_braces(&coded.codes, &list, &ran.list, run) {
            return Err(LeftOut::CutsLetters);
        }
        let moved = |parts: &[Range<usize>]| match log.text {
            None => parts.to_vec(),
            Some(_) => moved(&coded.codes, &ran.log, parts),
        };
        let (printed, long) = (moved(&ran.printed), moved(&ran.long));
        let of_read = moved(std::slice::from_ref(&ran.of_read)).into_iter().next().unwrap_or_default();
        let begins: Vec<Range<usize>> = ran.places.known.iter().map(|placed| placed.at..placed.at).collect();
        let begins = moved(&begins).into_iter().map(|begin| begin.start);
        let known = begins.zip(self.places_in_files(&coded, &ran.places.known));
        let places = LogPlaces { known: known.map(|(at, place)| Placed { at, place }).collect(), ..ran.places };
        let (is_utf8, letters) = (list.is_utf8, Letters::Coded(Arc::new(coded)));
        let (list, log) = (list.text_or(ran.list), log.text_or(ran.log));
        Ok(Ran { list, log, printed, long, places, of_read, is_utf8, letters, ..ran })
    }

    /// Where these places of coded files are in the files as they are.
    fn places_in_files(&self, coded: &Coded, places: &[Placed]) -> Vec<EventPlace> {
        let mut turned: Vec<EventPlace> = places.iter().map(|placed| placed.place).collect();
        for (number, file) in coded.files.all.iter().enumerate().filter(|(number, _)| !self.values[*number].is_empty())
        {
            let mut own: Vec<&mut EventPlace> = turned.iter_mut().filter(|place| place.file == number).collect();
            own.sort_by_key(|place| place.start);
            let parts: Vec<Range<usize>> = own.iter().map(|place| place.start..place.end).collect();
            let moved = moved(&coded.codes, bytes_of(file), &parts);
            own.iter_mut().zip(moved).for_each(|(place, part)| (place.start, place.end) = (part.start, part.end));
        }
        turned
    }

    /// Whether no brace of a list is left over from a code that was cut. A style may leave out braces of its own.
    fn has_all_braces(&self, codes: &Codes, list: &Turned, coded: &[u8], run: impl Fn(&Files) -> Ran) -> bool {
        const CUT: &[u8] = b"{\\}";
        let is_cut = has(list.text.as_deref().unwrap_or(coded), CUT)
            && !self.files.all.iter().any(|file| has(bytes_of(file), CUT));
        let depths = |list: &Turned| (list.depth, list.least_depth);
        !is_cut && (depths(list) == (0, 0) || depths(list) == depths(&codes.turn_back(&run(self.files).list)))
    }

    /// Whether the style prints what letters sort as.
    fn prints_keys(&self, run: impl Fn(&Files) -> Ran) -> bool {
        let coded = self.coded(InBraces::Coded, true);
        let list = run(&coded.files).list;
        coded.codes.turn_back(&list).text_or(list).iter().any(|byte| matches!(*byte, MARK | AFTER))
    }
}

/// A file whose values are coded, of whose texts these are the letters.
fn coded_text(text: &[u8], values: &[Range<usize>], letters: &[Met], codes: &mut Codes) -> Vec<u8> {
    let mut out = Vec::with_capacity(text.len() + letters.len() * SHORT + AT_ONCE);
    let written = match codes.are_of_letters_alone() {
        true => codes.code_letters(text, letters, 0, &mut out),
        false => code_values(text, values, letters, codes, &mut out),
    };
    write_part(text, written..text.len(), &mut out);
    out
}

/// Writes a text up to its last letter that has a code, with its values coded; up to where it is written.
fn code_values(text: &[u8], values: &[Range<usize>], letters: &[Met], codes: &mut Codes, out: &mut Vec<u8>) -> usize {
    let (mut at, mut written, mut letters) = (0, 0, letters);
    for part in values.iter().flat_map(|value| texts(text, value)) {
        // An entry that stands in another's value was coded with it.
        if part.start >= at {
            at = part.end;
            written = codes.code(text, part, &mut letters, written, out);
        }
    }
    written
}

/// Whether a text has this one in it.
fn has(text: &[u8], what: &[u8]) -> bool {
    memmem::find(text, what).is_some()
}

#[cfg(test)]
mod tests {
    use super::*;
    use crate::btx::{self, Options, Rooms};

    fn file(name: &str, bytes: &str) -> File {
        File { name: name.into(), bytes: Some(bytes.into()), path: Vec::new() }
    }

    /// A job whose style does this for its one entry, which has these fields.
    fn job(body: &str, fields: &str) -> Files {
        let style = format!(
            "ENTRY {{author title url}} {{}} {{}}\nFUNCTION {{misc}} {{ {body} newline$ }}\nREAD\nITERATE {{call.type$}}\n"
        );
        let top = file("a.aux", "\\citation{k}\n\\bibdata{b}\n\\bibstyle{s}\n");
        let all = vec![top, file("s.bst", &style), file("b.bib", &format!("@misc{{k, {fields}}}\n"))];
        Files { top: b"a.aux".to_vec(), all }
    }

    fn list(body: &str, fields: &str, name: &str) -> Result<String, LeftOut> {
        let rooms = Rooms { list: 1 << 16, log: 1 << 16 };
        let options = Options { utf8: true, ..Options::usual(10_000) };
        let language = Arc::new(Language::named(name.as_bytes()).unwrap());
        let ran = run(&job(body, fields), &language, |files| btx::run(&files.top, &files.all, &options, &rooms))?;
        Ok(String::from_utf8(ran.unwrap().list).unwrap())
    }

    #[test]
    fn letters_have_a_case_and_names_their_parts() {
        let listed = |body, fields| list(body, fields, "de").unwrap();
        assert_eq!(listed("title \"t\" change.case$ write$", "title = {Über die ÄSTHETIK}"), "Über die ästhetik\n");
        assert_eq!(listed("title \"u\" change.case$ write$", "title = \"Über {die} ß\""), "ÜBER {die} SS\n");
        assert_eq!(listed("author #1 \"{f.} {vv} {ll}\" format.name$ write$", "author = {Émile Zola}"), "É.  Zola\n");
        assert_eq!(listed("title #2 text.prefix$ write$", "title = {äöü}"), "äö\n");
    }

    #[test]
    fn only_texts_are_coded() {
        let fields = "title = \"ö\" # {ö} # ö # 12, URL = {ö}, ö = 1";
        let files = job("title write$", fields);
        let german = Arc::new(Language::named(b"de").unwrap());
        let chosen = letter_values::chosen(&files, &german).unwrap();
        let job = Job { files: &files, values: chosen.values, letters: chosen.letters, language: &german };
        let coded = job.coded(InBraces::Coded, false);
        let code = "{\\\u{1}\u{1}{o}}";
        let wanted = format!("@misc{{k, title = \"{code}\" # {{{code}}} # ö # 12, URL = {{ö}}, ö = 1}}\n");
        assert_eq!(String::from_utf8_lossy(bytes_of(&coded.files.all[2])), wanted);
        assert_eq!(coded.files.all[..2], files.all[..2]);
    }

    #[test]
    fn an_entry_in_the_value_of_another_is_coded_once() {
        let style = "ENTRY {title} {} {}\nFUNCTION {misc} { title write$ newline$ }\nREAD\nITERATE {call.type$}\n";
        let database =
            "@misc{outer, title = {é @misc{inner, title = {ö}} ö}}\n@misc{k, title = {x}, crossref = {outer}}\n";
        let top = file("a.aux", "\\citation{inner,k}\n\\bibdata{b}\n\\bibstyle{s}\n");
        let files = Files { top: b"a.aux".to_vec(), all: vec![top, file("s.bst", style), file("b.bib", database)] };
        let rooms = Rooms { list: 1 << 16, log: 1 << 16 };
        let options = Options { utf8: true, ..Options::usual(10_000) };
        let language = Arc::new(Language::named(b"de").unwrap());
        let ran = run(&files, &language, |files| btx::run(&files.top, &files.all, &options, &rooms)).unwrap().unwrap();
        let plain = btx::run(&files.top, &files.all, &options, &rooms);
        assert_eq!(ran.list, plain.list);
    }

    #[test]
    fn places_are_those_of_the_files_as_they_are() {
        let rooms = Rooms { list: 1 << 16, log: 1 << 16 };
        let options = Options { utf8: true, ..Options::usual(10_000) };
        let language = Arc::new(Language::named(b"de").unwrap());
        let job = job("title write$ #1 write$", "title = {Öä}, url = nosuch");
        let ran = run(&job, &language, |files| btx::run(&files.top, &files.all, &options, &rooms)).unwrap().unwrap();
        let plain = btx::run(&job.top, &job.all, &options, &rooms);
        assert_eq!((ran.places.known.len(), &ran.places), (2, &plain.places));
    }

    #[test]
    fn what_a_style_prints_is_no_message_with_letters_either() {
        let rooms = Rooms { list: 1 << 16, log: 1 << 16 };
        let options = Options { utf8: true, ..Options::usual(10_000) };
        let language = Arc::new(Language::named(b"de").unwrap());
        let job = job("title #10 int.to.chr$ * \"Error--\" * title * warning$ title write$", "title = {Ö}");
        let ran = run(&job, &language, |files| btx::run(&files.top, &files.all, &options, &rooms)).unwrap().unwrap();
        let printed: Vec<&[u8]> = ran.printed.iter().map(|part| &ran.log[part.clone()]).collect();
        assert_eq!(printed, ["Error--Ö".as_bytes()]);
    }

    #[test]
    fn what_cannot_be_turned_back_is_left_out() {
        let left_out = |body, fields| list(body, fields, "sv").unwrap_err();
        assert_eq!(left_out("title purify$ write$", "title = {ö}"), LeftOut::PrintsKeys);
        assert_eq!(left_out("title purify$ write$", "title = {é}"), LeftOut::PrintsKeys);
        assert_eq!(left_out("title #1 #1 substring$ write$", "title = {ö}"), LeftOut::CutsLetters);
        assert_eq!(left_out("title #1 #3 substring$ write$", "title = {ö}"), LeftOut::CutsLetters);
        assert_eq!(left_out("title write$ {#1} {} while$", "title = {ö}"), LeftOut::Unfinished);
        assert_eq!(left_out("title write$", "title = {ö\u{1}}"), LeftOut::ControlCharacters);
        assert_eq!(list("title purify$ pop$ title write$", "title = {ö}", "sv"), Ok("ö\n".into()));
    }

    #[test]
    fn letters_in_braces_stay_where_they_would_be_cut() {
        for (body, fields, wanted) in [
            ("title #3 text.prefix$ write$", "title = {{Öster}}", "{Öst}\n"),
            ("title #3 text.prefix$ write$", "title = {{ABÖster}}", "{ABÖ}\n"),
            ("title #3 text.prefix$ write$ \"}\" write$", "title = {ö{ABÖster}}", "ö{AB}}\n"),
        ] {
            assert_eq!(list(body, fields, "de").as_deref(), Ok(wanted), "{fields}");
        }
    }
}
