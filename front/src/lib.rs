//! The front end of BibTeX in Rattle: the original's command line, TeX's search paths, the log in the shapes that editors know, and
//! explanations. What a job's list and log are is the proved library's work (`crates/btx_c`), which runs in this process; nothing of
//! this package is proved.
//!
//! The modules in the order of the data:
//!
//! | module | what |
//! |---|---|
//! | [`words`] | the words of the command line |
//! | [`system`] | what the standard library doesn't have of the system: libraries opened at run time, signals, limits, terminals |
//! | [`kpathsea`] | TeX's own path search, where it is installed |
//! | [`texmf`] | TeX's set-up, read from its own files, where that library isn't installed |
//! | [`databases`] | TeX's file databases (`ls-R`) |
//! | [`search`] | where the files of a job are found, and which may be read and written |
//! | [`btx`] | the proved library's calls |
//! | [`job`] | the files of a job, found and read |
//! | [`outputs`] | the list and the log: opened before a run, written after it |
//! | [`interrupt`], [`task`] | a run that a signal can end, and what becomes of what it gives |
//! | [`log`] | the messages of a log |
//! | [`event_places`] | where they were met, as the library's events have it |
//! | [`places`], [`notes`], [`scene`] | what was called and on the stack there: the library notes it in a run of its own |
//! | [`text`], [`aux_text`], [`style_text`], [`database`] | the texts of files: their lines, and where an error stands in them |
//! | [`sources`] | the files of a job as its messages speak of them |
//! | [`shapes`] | a log in the original's shapes |
//! | [`explain`] and its modules, [`entries`], [`shown_line`], [`advice`] | what follows a message for its reader: where it stands, and what to do |
//! | [`mistakes`] | what an author did where a database can't be read on |
//! | [`beside`] | which file may be meant by one that isn't there, and what a file is that isn't what its name says |
//! | [`unsaid`], [`doubts`], [`sign_doubts`], [`persons`] | what no run logs of the cited entries |
//! | [`document`], [`alike`], [`composed`] | the document beside the `.aux` file; characters that look like one of the keyboard; letters in two forms |
//! | [`missing_entry`], [`nearest`] | where an entry may be that wasn't found, and which name may be meant by one that isn't known |
//! | [`lacking`] | which field an entry lacks that a style asks for |
//! | [`letters`], [`half_letters`], [`languages`], [`letter_places`], [`plain_entries`], [`letter_values`], [`letter_codes`], [`style_keys`], [`keyed_hash`], [`letter_run`] | letters outside ASCII: half letters in a list, and the order of a language |
//! | [`run_log`] | the log of a run as it is written and printed |
//! | [`run_json`], [`message_places`], [`kinds`] | what a run says as lines of JSON: where each message stands, and a name for its kind |
//! | [`terminal`] | what is safe to print on a terminal, and how wide it is |
//! | [`exit`] | the exit statuses |
//! | [`code_places`], [`operands`], [`origins`] | what stands at a place of a style's code, and what that says of a wrong operand and of where it was pushed |
//! | [`repeats`] | errors of an execution that repeat |
//! | [`style_check`], [`style_read`], [`hints`] | what can be said of a style before any document uses it |
//! | [`code_hints`] | hints on operands in another order, on a test that is asked twice, and on a key to sort by that isn't cut |
//! | [`list_hints`] | hints on what the list of a style lacks, or has otherwise than it is meant |
//! | [`usual_types`] | the types that styles usually know |
//! | [`constants`] | constants that the function after them can't take |
//! | [`lint_types`] | for entries of which types that is said |
//! | [`lint_warnings`], [`lint_entry`], [`lint_endless`] | where a style may go wrong, and an entry that shows it; an entry with which a run stays in a loop |
//! | [`literals`] | which call on the way to such a place finds too few literals |
//! | [`lint_ties`] | from which unequal `if$` such a place may follow |
//! | [`lint_text`], [`lint_forms`], [`lint_json`] | what is printed of a style, for people and for other programs |
//! | [`trace`] | the run of one entry, call by call |
//! | [`search_program`], [`lint_program`], [`confined_program`] | the programs; `bibtex-lint` is another name of `bibtex-search` |
//!
//! `unsafe` stands in [`btx`] and [`system`] alone.

pub mod advice;
pub mod alike;
pub mod aux_text;
pub mod beside;
pub mod branches;
#[allow(unsafe_code)]
pub mod btx;
pub mod cased;
pub mod code_hints;
pub mod code_places;
pub mod composed;
pub mod confined_program;
pub mod constants;
pub mod database;
pub mod databases;
pub mod document;
pub mod doubts;
pub mod entries;
pub mod event_places;
pub mod exit;
pub mod explain;
pub mod half_letters;
pub mod hints;
pub mod interrupt;
pub mod job;
pub mod keyed_hash;
pub mod kinds;
pub mod kpathsea;
pub mod lacking;
pub mod languages;
pub mod letter_codes;
pub mod letter_places;
pub mod letter_run;
pub mod letter_values;
pub mod letters;
pub mod lint_databases;
pub mod lint_endless;
pub mod lint_ends;
pub mod lint_entry;
pub mod lint_forms;
pub mod lint_json;
pub mod lint_program;
pub mod lint_text;
pub mod lint_ties;
pub mod lint_types;
pub mod lint_warnings;
pub mod list_hints;
pub mod literals;
pub mod log;
pub mod loops;
pub mod message_places;
pub mod missing_entry;
pub mod mistakes;
pub mod nearest;
pub mod notes;
pub mod operands;
pub mod origins;
pub mod outputs;
pub mod persons;
pub mod places;
pub mod plain_entries;
pub mod repeats;
pub mod run_json;
pub mod run_log;
pub mod scene;
pub mod search;
pub mod search_program;
pub mod shapes;
pub mod shown_line;
pub mod sign_doubts;
pub mod sources;
pub mod style_check;
pub mod style_keys;
pub mod style_read;
pub mod style_text;
#[allow(unsafe_code)]
pub mod system;
pub mod task;
pub mod terminal;
pub mod texmf;
pub mod text;
pub mod trace;
pub mod unsaid;
pub mod usual_types;
pub mod words;
