//! For a style of which no bound is known an entry of a database with which a run isn't at its end after many steps. It is searched for, and tried by a run before it is shown.

use crate::btx::{self, Answer, MemoryRefused, Options, Ran};
use crate::job::{File, Files};
use crate::lint_entry::{Case, Entry, ROOMS, Search, number_of, tried_types};
use crate::notes::{self, What};
use crate::places::scenes;
use crate::scene::Call;
use crate::style_read::StyleRead;

/// An entry with which a run isn't at its end after `steps` steps.
#[derive(Debug, Clone, PartialEq, Eq)]
pub struct Endless {
    pub database: Vec<u8>,
    pub steps: u64,
    /// The loop in which it stays, if it is in one.
    pub inside: Option<Call>,
}

/// How many steps a run may take that tries many entries, one that makes an entry smaller, and the last one, after which the entry is shown.
const STEPS_OF_MANY: u64 = 1_000_000;
const STEPS_OF_ONE: u64 = 200_000;
const STEPS_SHOWN: u64 = 10_000_000;

/// How much work the search takes, in steps of styles, beside the last run.
const WORK: u64 = 60_000_000;

/// Values with which a loop over a text may miss its end: without a letter or a digit, of ASCII or at all, without a space, or with nothing. All are short, so that a loop
/// that ends is at its end soon.
const VALUES: [&str; 14] =
    ["", "1 2", "\u{c9}", " ", "A", "-", "--", "a b", "{}", "\\'", "A, B, C", "A and B", "1--2", "{\\'E}"];

/// An entry of this type with this value in each of the fields.
fn entry_of(kind: &[u8], fields: &[Vec<u8>], value: &str) -> Case {
    let fields = fields.iter().map(|name| (name.clone(), value.as_bytes().to_vec())).collect();
    Case { entries: vec![Entry { kind: kind.to_vec(), fields }], is_crossed: false }
}

impl Search<'_> {
    /// A run over this database, if it is stopped at this budget.
    fn stopped(&self, database: Vec<u8>, budget: u64) -> Option<(Files, Options, Ran)> {
        let (files, options) = (self.job(database), Options::usual(budget));
        let (ran, _) = self.run(&files, &options);
        let is_stopped = matches!(ran.answer, Answer::Done(report) if report.is_stopped());
        is_stopped.then_some((files, options, ran))
    }

    /// The key of the entry at which a run over this database is stopped; None where it comes to its end before that.
    fn stopped_at(&self, database: Vec<u8>) -> Option<Vec<u8>> {
        let (files, options, _) = self.stopped(database, STEPS_OF_MANY)?;
        self.add_noted(&files, 1, STEPS_OF_MANY);
        let notes = btx::notes(&files.top, &files.all, &options, 0)?;
        notes::read(&notes, &self.style.name).into_iter().find(|note| note.what == What::Stop)?.entry
    }

    /// The case, of these, at which a run over all of them is stopped, and by itself, too.
    fn staying<'c>(&self, cases: &'c [Case]) -> Option<&'c Case> {
        let text = |(number, case): (usize, &Case)| case.text(&format!("e{number}"));
        let database: Vec<u8> = cases.iter().enumerate().flat_map(text).collect();
        let key = self.stopped_at(database)?;
        let case = cases.get(number_of(&key)?)?;
        self.stays(case).then_some(case)
    }

    /// Whether a run over a case alone is stopped.
    fn stays(&self, case: &Case) -> bool {
        self.stopped(case.text("key"), STEPS_OF_ONE).is_some()
    }

    /// A case with as little in it as may be at which a run is stopped.
    fn least_staying(&self, case: Case) -> Case {
        let mut least = case;
        let is_less = |less: &Case| !less.entries.is_empty() && self.may_search() && self.stays(less);
        while let Some(less) = least.lesser().into_iter().find(is_less) {
            least = less;
        }
        least
    }

    /// A case at which a run is stopped.
    fn endless(&self) -> Option<Case> {
        let style = StyleRead::new(self.style.bytes.as_deref().unwrap_or_default());
        let types = tried_types(&style);
        let fields: Vec<Vec<u8>> = style.names.fields().map(<[u8]>::to_vec).collect();
        let found = VALUES.iter().find_map(|value| {
            let cases: Vec<Case> = types.iter().map(|kind| entry_of(kind, &fields, value)).collect();
            if self.may_search() { self.staying(&cases).cloned() } else { None }
        })?;
        Some(self.least_staying(found))
    }

    /// What is shown of a case with which a run isn't at its end after `STEPS_SHOWN` steps.
    fn shown_case(&self, case: &Case) -> Option<Endless> {
        let database = case.text("key");
        let (files, options, ran) = self.stopped(database.clone(), STEPS_SHOWN)?;
        let end = scenes(&files, &options, &ROOMS, &ran, false).end?;
        Some(Endless { database, steps: STEPS_SHOWN, inside: end.loops.into_iter().next() })
    }
}

/// An entry with which a run of this style isn't at its end after many steps, if one is found. Where memory is refused to a run, nothing is said.
pub fn endless(style: &File) -> Result<Option<Endless>, MemoryRefused> {
    let search = Search::new(style, WORK);
    let shown = search.endless().and_then(|case| search.shown_case(&case));
    if search.is_refused() { Err(MemoryRefused) } else { Ok(shown) }
}

#[cfg(test)]
mod tests {
    use super::*;

    fn shown(body: &str) -> Option<(String, Option<usize>)> {
        let text = format!(
            "ENTRY {{title note year}}{{}}{{}} INTEGERS {{n}}\nFUNCTION {{not}} {{{{#0}} {{#1}} if$}}\nFUNCTION {{misc}}\n{{ {body} }}\nREAD\nITERATE {{call.type$}}\n"
        );
        let style = File { name: b"s.bst".to_vec(), bytes: Some(text.into()), path: Vec::new() };
        let shown = endless(&style).unwrap()?;
        Some((String::from_utf8(shown.database).unwrap(), shown.inside.map(|call| call.line)))
    }

    #[test]
    fn an_entry_is_found_and_shrunk() {
        let until_a = "#0 'n :=\n{ title #1 #1 substring$ \"A\" = not }\n{ n #1 + 'n := } while$";
        assert_eq!(shown(until_a), Some(("@misc{key}\n".to_string(), Some(6))));
        let until_no_digit = "{ title \"1 2\" = }\n{ skip$ }\nwhile$";
        assert_eq!(shown(until_no_digit), Some(("@misc{key,\n  title = {1 2}}\n".to_string(), Some(6))));
    }

    #[test]
    fn none_is_found_where_each_run_ends() {
        assert_eq!(shown("#1000 'n := { n #0 > } { n #1 - 'n := } while$"), None);
    }
}
