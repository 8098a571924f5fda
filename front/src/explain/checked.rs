//! What the check of the style says of an error of its execution: the unequal `if$` from which it may follow, and what to do at its place.

use super::{Explainer, shown_path};
use crate::branches::{branches_in_words, difference};
use crate::code_places::Code;
use crate::lint_text::{cause_text, said_of};
use crate::lint_ties::Ties;
use crate::lint_warnings::{Fault, Warning, Warnings};
use crate::log::Message;
use crate::notes::Spot;
use crate::scene::Scene;
use crate::shown_line::ShownLine;
use crate::style_check::warnings_for_run;
use crate::terminal::plain;
use std::io::{self, Write};
use std::rc::Rc;

/// What the check says of an error.
#[derive(Debug, Default)]
pub(super) struct Said {
    /// The `if$` from which it may follow: its line, and its place in that.
    cause: Option<(usize, Option<usize>)>,
    /// What is said of that `if$`, and what each of its branches does.
    text: String,
    branches: Option<[String; 2]>,
    /// What to do.
    pub(super) advice: Option<String>,
}

impl Said {
    /// Whether it names an `if$` from which the error may follow.
    pub(super) fn has_cause(&self) -> bool {
        self.cause.is_some()
    }
}

impl<'a, W: Write> Explainer<'a, W> {
    /// What the check says of an error in a scene. It isn't asked where the style's text has mistakes: these come first.
    pub(super) fn said_by_check(&mut self, message: &Message<'a>, function: &[u8]) -> Option<Said> {
        let scene = message.scene.filter(|_| self.styles.first.is_none())?;
        let fault = Fault::of_message(message.text)?;
        let found = self.found_by_check()?;
        let met = warning_of(fault, function, scene);
        let code = self.code_of(scene)?;
        Some(said_of_met(&found, &met, code))
    }

    /// Where the style may go wrong; it is checked once.
    fn found_by_check(&mut self) -> Option<Rc<Warnings>> {
        let style = self.sources.style()?;
        style.bytes.as_ref()?;
        Some(Rc::clone(self.execution.checked.get_or_insert_with(|| Rc::new(warnings_for_run(style)))))
    }

    /// Names the `if$` from which an error may follow; its line is shown once.
    pub(super) fn put_cause(&mut self, said: &Said) -> io::Result<()> {
        let (Some((number, mark)), Some(file)) = (said.cause, self.sources.style()) else { return Ok(()) };
        let name = plain(shown_path(file));
        let text = format!("this may follow from {name}:{number}: {}", said.text);
        if !self.page.said.insert(text.clone()) {
            return self.page.put_place(&format!("this may follow from the unequal `if$` in line {number} as well"));
        }
        self.page.put_place(&text)?;
        if let Some([first, second]) = &said.branches {
            self.page.put_place(&format!("the first: {first}; the second: {second}"))?;
        }
        let Some(style) = self.sources.text(&file.name) else { return Ok(()) };
        let lines = ShownLine { name: &name, number, line: style.line(number), mark }.lines(self.page.terminal);
        self.page.put_lines(&lines)
    }

    /// Says of a run without an error that the check finds an `if$` by which the list may be wrong.
    pub(super) fn put_unequal(&mut self) -> io::Result<()> {
        let (Some(found), Some(file)) = (self.found_by_check(), self.sources.style()) else { return Ok(()) };
        let code = Code::new(file.bytes.as_deref().unwrap_or_default());
        let ties = Ties::new(&code, &found.causes);
        let Some(cause) = found.shown().into_iter().flat_map(|warning| ties.of(warning)).next() else { return Ok(()) };
        let (name, line, text) = (plain(shown_path(file)), cause.spot.call.line, cause_text(&code, cause));
        self.put_unsaid_of_style(&name)?;
        self.page.put_place(&format!("{name}:{line}: {text}"))?;
        self.page.put_advice("let both branches leave the same number of literals")
    }
}

/// What is said of an error that was met where the check notes this.
fn said_of_met(found: &Warnings, met: &Warning, code: &Code<'_>) -> Said {
    let place = |warning: &Warning| {
        let spot = warning.places.first().or(warning.item.as_ref());
        spot.map(|spot| (spot.call.line, spot.token.map(|(_, number)| number)))
    };
    let is_it = |warning: &&Warning| warning.next == met.next && place(warning) == place(met);
    let noted = found.warnings.iter().find(is_it);
    let ties = Ties::new(code, &found.causes);
    let causes = ties.of(noted.filter(|_| !met.places.is_empty()).unwrap_or(met));
    if let Some(cause) = causes.first() {
        let mark = code.place(&cause.spot, b"if$").map(|place| place.mark());
        let how = difference(cause.grows).and_then(|(_, advice)| Some(advice.split_once(": ")?.1.to_string()));
        let advice = format!(
            "let both branches of the `if$` in line {} leave the same number of literals{}",
            cause.spot.call.line,
            how.map_or(String::new(), |how| format!(": {how}"))
        );
        let cause_at = Some((cause.spot.call.line, mark));
        let branches = branches_in_words(code, cause);
        return Said { cause: cause_at, text: cause_text(code, cause), branches, advice: Some(advice) };
    }
    let of_kind = noted.filter(|warning| warning.fault == met.fault && met.fault != Some(Fault::LeftOver));
    Said { advice: of_kind.map(|warning| said_of(warning, code).1), ..Said::default() }
}

/// An error of a run in the form in which the check notes one.
fn warning_of(fault: Fault, function: &[u8], scene: &Scene) -> Warning {
    let calls = std::iter::once(&scene.at).chain(&scene.callers);
    let tokens = std::iter::once(&scene.token).chain(&scene.caller_tokens);
    let spots = calls.zip(tokens).map(|(call, token)| Spot { token: *token, call: call.clone() });
    let (items, places): (Vec<Spot>, Vec<Spot>) = spots.partition(|spot| spot.call.is_command());
    Warning {
        fault: Some(fault),
        next: function.to_vec(),
        item: items.into_iter().next(),
        places,
        ..Warning::default()
    }
}

#[cfg(test)]
mod tests {
    use super::*;
    use crate::literals::unequal;
    use crate::scene::Call;

    #[test]
    fn the_if_is_named_from_which_an_error_follows() {
        let style =
            "ENTRY {title}{}{}\nFUNCTION {and}\n{ 'skip$ { #0 } if$ }\nFUNCTION {misc}\n{ #1 #1 and title\n * }\n";
        let code = Code::new(style.as_bytes());
        let mut found = Warnings::default();
        found.add_causes(unequal(&code));
        let call = |function: &str, line| Call { function: function.into(), file: b"s.bst".to_vec(), line };
        let at = |line, number| Scene {
            at: call("FUNCTION {misc}", line),
            token: Some((0, number)),
            callers: vec![call("ITERATE {call.type$}", 9)],
            caller_tokens: vec![None],
            stack: Vec::new(),
            origins: Vec::new(),
        };
        let said = |scene: &Scene| said_of_met(&found, &warning_of(Fault::WrongKind, b"*", scene), &code);
        let met = said(&at(6, 4));
        assert_eq!(met.cause.map(|(line, _)| line), Some(3));
        assert!(met.text.starts_with("in and: the branches of this `if$` leave different numbers"), "{met:?}");
    }
}
