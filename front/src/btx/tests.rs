//! The wire between the library and its structs.

use super::*;
use crate::log::{Content, Severity};

const OPTIONS: Options = Options::usual(1000);
const ROOMS: Rooms = Rooms { list: 1 << 16, log: 1 << 16 };

fn file(name: &str, bytes: Option<&str>) -> File {
    File { name: name.into(), bytes: bytes.map(|bytes| bytes.into()), path: Vec::new() }
}

fn small_job(style: &str) -> Vec<File> {
    vec![
        file("a.aux", Some("\\citation{k}\n\\bibdata{b}\n\\bibstyle{s}\n")),
        file("s.bst", Some(style)),
        file("b.bib", Some("@misc{k, title = {T}}\n")),
    ]
}

const STYLE: &str = "ENTRY {title} {} {}\nFUNCTION {misc} {title write$ newline$}\nREAD\nITERATE {call.type$}\n";

#[test]
fn what_read_logs_and_what_takes_several_lines_is_known() {
    let style = STYLE.replace("title write$", "\"x\" warning$ \"a\" #10 int.to.chr$ * #1 + pop$");
    let mut files = small_job(&style);
    files[0].bytes = Some(b"\\citation{k,j}\n\\bibdata{b}\n\\bibstyle{s}\n".to_vec());
    let ran = run(b"a.aux", &files, &OPTIONS, &ROOMS);
    let of_read = &ran.log[ran.of_read.clone()];
    assert_eq!(of_read, b"Warning--I didn't find a database entry for \"j\"");
    let long: Vec<&[u8]> = ran.long.iter().map(|part| &ran.log[part.clone()]).collect();
    assert_eq!(long, [b"Error--\"a\n\" is not an integer while executing + for entry k"]);
    assert!(run(b"a.aux", &small_job(STYLE), &OPTIONS, &ROOMS).of_read.is_empty());
}

#[test]
fn messages_have_their_places() {
    let mut files = small_job(&STYLE.replace("title write$", "#1 write$ title"));
    files[2].bytes = Some(b"@misc{k, title = zz}\n@misc{j x}\n".to_vec());
    let ran = run(b"a.aux", &files, &OPTIONS, &ROOMS);
    let shown = |placed: &Placed| {
        let place = placed.place;
        let text = &files[place.file].bytes.as_deref().unwrap()[place.start..place.end];
        (place.file, place.line, String::from_utf8_lossy(text).into_owned(), place.token.is_some())
    };
    let wanted = [
        (2, 1, String::new(), false),
        (2, 2, String::new(), false),
        (1, 2, "write$".into(), true),
        (1, 4, "ITERATE".into(), false),
    ];
    assert_eq!(ran.places.known.iter().map(shown).collect::<Vec<_>>(), wanted);
    assert_eq!(ran.places.known[1].place.start, b"@misc{k, title = zz}\n@misc{j ".len());
    assert!(!ran.places.are_first);
}

#[test]
fn needs_names_the_top_file_then_those_that_it_names() {
    assert_eq!(needs(b"a\nb.aux", &[]).unwrap(), vec![b"a\nb.aux".to_vec()]);
    let top = &small_job(STYLE)[..1];
    assert_eq!(needs(b"a.aux", top).unwrap(), vec![b"s.bst".to_vec(), b"b.bib".to_vec()]);
    assert_eq!(needs(b"a.aux", &small_job(STYLE)).unwrap(), Vec::<Vec<u8>>::new());
}

#[test]
fn a_run_gives_its_list_and_its_report() {
    let ran = run(b"a.aux", &small_job(STYLE), &OPTIONS, &ROOMS);
    assert_eq!(ran.list, b"T\n");
    assert!(matches!(ran.answer, Answer::Done(Report { status: 0, end: 0, errors: 0, .. })), "{:?}", ran.answer);
}

#[test]
fn a_missing_file_is_a_message() {
    let mut files = small_job(STYLE);
    files[2] = file("b.bib", None);
    let ran = run(b"a.aux", &files, &OPTIONS, &ROOMS);
    assert!(matches!(ran.answer, Answer::Done(Report { status: 2, .. })), "{:?}", ran.answer);
}

#[test]
fn notes_say_where_a_style_stands() {
    let style = STYLE.replace("title write$", "#1 write$");
    let noted = notes(b"a.aux", &small_job(&style), &OPTIONS, 5).unwrap();
    let wanted = "event step 4 0 1\nitem ITERATE 4 call.type$\nsince in 2 0 0 misc\nentry k\nnext write$\nat in 2 0 1 misc\ndepth 1\nliteral 1 1\n";
    assert_eq!(String::from_utf8(noted).unwrap(), wanted);
    assert_eq!(notes(b"a.aux", &small_job(STYLE), &OPTIONS, 5).unwrap(), b"");
    let given = for_c(&[]);
    assert!(notes_of(b"a.aux", &given, &OPTIONS, 5, 10).is_none());
    let small = small_job(&style);
    assert_eq!(notes_of(b"a.aux", &for_c(&small), &OPTIONS, 5, 10).unwrap().len(), wanted.len());
}

#[test]
fn styles_are_checked() {
    let verdict = check_in(b"s.bst", STYLE.as_bytes(), 1000, 1).unwrap();
    let Some(Verdict::Warnings(notes)) = verdict else { panic!("{verdict:?}") };
    let wanted = "warning kind first\nnext write$\ndepth 1\noperand 0 text mewf\nwants text\nname field title\nmissing title\n\
        item ITERATE 4 call.type$\nat in 2 0 1 misc\ntype misc\n";
    assert_eq!(String::from_utf8(notes).unwrap(), wanted);
    let clean = STYLE.replace("title write$", "title empty$ 'skip$ { title write$ } if$");
    let types = vec![b"misc".to_vec()];
    assert_eq!(check(b"s.bst", clean.as_bytes(), 1000), Ok(Some(Verdict::Clean { literals: 3, bodies: 2, types })));
    assert!(matches!(check(b"s.bst", clean.as_bytes(), 1), Ok(Some(Verdict::Incomplete(_)))));
    let bound = Bound { once: 0, each: 11, kept: 7 };
    assert_eq!(
        check_ends(b"s.bst", clean.as_bytes(), 7),
        Ok(Some(Steps::Bounded(bound, vec![b"misc".to_vec()], Vec::new())))
    );
    let endless = clean.replace("{ title write$ }", "{ { #1 } 'skip$ while$ }");
    let notes = b"next while$\nunbounded of 2 1 2 misc\n".to_vec();
    assert_eq!(check_ends_in(b"s.bst", endless.as_bytes(), 7, 1), Ok(Some(Steps::Unbounded(notes))));
}

#[test]
fn what_a_style_prints_is_no_message() {
    let error = "Error--x while executing pop$ for entry k";
    let printed = format!("\"a\" #10 int.to.chr$ * \"{error}\" * duplicate$ top$ warning$ \"a\" #1 =");
    let ran = run(b"a.aux", &small_job(&STYLE.replace("title write$", &format!("{printed} pop$"))), &OPTIONS, &ROOMS);
    let errors = ran
        .lines_of_log()
        .lines()
        .filter(|line| matches!(line.content, Content::Message(message) if message.severity == Severity::Error));
    let errors: Vec<&[u8]> = errors.map(|line| line.bytes).collect();
    assert!(matches!(ran.answer, Answer::Done(Report { warnings: 1, errors: 1, .. })), "{:?}", ran.answer);
    assert_eq!(errors, [b"Error--= needs two integers or two strings while executing = for entry k"]);
    assert_eq!(ran.printed.len(), 2);
}

#[test]
fn a_database_is_read() {
    let text = b"@string{s = {x}} @misc{k, title = s # {T}, note=\"N\"} @comment";
    let records = read(text).unwrap();
    let shown: Vec<_> = records.iter().map(|it| (it.kind, &text[it.start..it.end], it.name_len)).collect();
    let wanted: [(u32, &[u8], usize); 7] = [
        (STRING, b"@string{s = {x}", 1),
        (5, b"}", 0),
        (3, b"@misc{k", 4),
        (FIELD, b"title = s # {T}", 5),
        (FIELD, b"note=\"N\"", 4),
        (5, b"}", 0),
        (0, b"@comment", 0),
    ];
    assert_eq!(shown, wanted);
    assert_eq!(read_in(text, 1, 0).unwrap(), (records, Vec::new()));
    assert_eq!(read(b"").unwrap(), []);
    let wrong = mistakes(b"@misc{k,\n note 1}\n@misc{j}\n@misc").unwrap();
    assert_eq!(wrong, [(2, b"I was expecting an =".to_vec()), (4, b"Illegal end of database file".to_vec())]);
}

#[test]
fn what_is_full_is_known() {
    let endless = |what: &str| {
        let style = format!("ENTRY {{}} {{}} {{}}\nFUNCTION {{f}} {{{{#1}} {{{what}}} while$}}\nREAD\nEXECUTE {{f}}\n");
        run(b"a.aux", &small_job(&style), &Options { budget: 1_000_000, ..OPTIONS }, &ROOMS)
    };
    let list = endless("\"text\" write$ newline$");
    assert_eq!(list.answer, Answer::ListFull);
    assert!(list.list.len() > 60_000 && list.list.starts_with(b"text\ntext\n"));
    let log = endless("\"text\" warning$");
    assert_eq!(log.answer, Answer::LogFull);
    assert!(log.log.len() > 60_000);
}
