//! What is found of a style as JSON: the fields that the manual page of `bibtex-lint` describes, in their order.

use crate::btx::{Bound, Verdict};
use crate::code_places::Code;
use crate::constants::Constant;
use crate::lint_ends::Ends;
use crate::lint_entry::Shown;
use crate::lint_forms::{code_of, path_of};
use crate::lint_text::said_of;
use crate::lint_warnings::{Cause, Operand, Value, Warning};
use crate::notes::Spot;
use crate::style_check::StyleCheck;
use crate::terminal::plain;
use serde::Serialize;
use serde_json::ser::{Formatter, Serializer};
use std::io::{self, Write};

/// A style with all that is found of it.
#[derive(Serialize)]
struct StyleJson<'a> {
    style: String,
    verdict: &'a str,
    #[serde(skip_serializing_if = "Option::is_none")]
    literals: Option<u64>,
    #[serde(skip_serializing_if = "Option::is_none")]
    bodies: Option<u64>,
    #[serde(skip_serializing_if = "Option::is_none")]
    types: Option<Vec<String>>,
    #[serde(skip_serializing_if = "Option::is_none")]
    uncovered: Option<Vec<String>>,
    /// Null where the style isn't known to end.
    ends: Option<BoundJson>,
    /// A database with which a run isn't at its end after many steps.
    #[serde(skip_serializing_if = "Option::is_none")]
    endless: Option<String>,
    messages: Vec<String>,
    warnings: Vec<WarningJson<'a>>,
    #[serde(skip_serializing_if = "Option::is_none")]
    behind: Option<usize>,
    #[serde(skip_serializing_if = "Vec::is_empty")]
    causes: Vec<CauseJson>,
    #[serde(skip_serializing_if = "Vec::is_empty")]
    constants: Vec<ConstantJson<'a>>,
    hints: Vec<HintJson<'a>>,
}

/// A constant that the function after it can't take.
#[derive(Serialize)]
struct ConstantJson<'a> {
    text: &'a str,
    #[serde(rename = "do")]
    advice: &'a str,
    executed: &'a str,
    function: &'a str,
    line: usize,
}

impl ConstantJson<'_> {
    fn of(constant: &Constant) -> ConstantJson<'_> {
        let Constant { text, advice, function, owner, line, .. } = constant;
        ConstantJson { text, advice, executed: function, function: owner, line: *line }
    }
}

/// The bound of the steps of a style that ends.
#[derive(Serialize)]
struct BoundJson {
    once: u64,
    each: u64,
    kept: u32,
    #[serde(skip_serializing_if = "Option::is_none")]
    types: Option<Vec<String>>,
}

/// Where a style may go wrong.
#[derive(Serialize)]
struct WarningJson<'a> {
    text: String,
    #[serde(rename = "do")]
    advice: String,
    #[serde(skip_serializing_if = "Option::is_none")]
    fault: Option<&'a str>,
    executed: String,
    places: Vec<PlaceJson>,
    #[serde(skip_serializing_if = "Option::is_none")]
    command: Option<PlaceJson>,
    #[serde(skip_serializing_if = "Option::is_none")]
    operand: Option<OperandJson>,
    #[serde(skip_serializing_if = "Option::is_none")]
    missing: Option<String>,
    #[serde(skip_serializing_if = "Vec::is_empty")]
    types: Vec<String>,
    #[serde(skip_serializing_if = "Vec::is_empty")]
    given: Vec<String>,
    #[serde(skip_serializing_if = "Vec::is_empty")]
    blank: Vec<String>,
    /// The database that shows it; null where none does, and nothing where none was looked for.
    #[serde(skip_serializing_if = "Option::is_none")]
    entry: Option<Option<String>>,
    #[serde(skip_serializing_if = "Option::is_none")]
    logs: Option<String>,
}

/// A place of a style's code.
#[derive(Serialize)]
struct PlaceJson {
    function: String,
    line: usize,
}

/// Unequal functions of an `if$`, from which warnings may follow.
#[derive(Serialize)]
struct CauseJson {
    place: PlaceJson,
    grows: [[i64; 2]; 2],
}

/// What an operand may be, and whose value it is.
#[derive(Default, Serialize)]
struct OperandJson {
    position: usize,
    #[serde(skip_serializing_if = "Option::is_none")]
    integer: Option<[Option<i64>; 2]>,
    #[serde(skip_serializing_if = "Option::is_none")]
    text: Option<String>,
    #[serde(skip_serializing_if = "Option::is_none")]
    function: Option<String>,
    #[serde(skip_serializing_if = "Option::is_none")]
    field: Option<String>,
    #[serde(skip_serializing_if = "Option::is_none")]
    variable: Option<String>,
}

#[derive(Serialize)]
struct HintJson<'a> {
    line: usize,
    text: &'a str,
}

fn plain_names(names: &[Vec<u8>]) -> Vec<String> {
    names.iter().map(|name| plain(name)).collect()
}

impl PlaceJson {
    fn of(spot: &Spot) -> PlaceJson {
        PlaceJson { function: plain(&spot.call.function), line: spot.call.line }
    }
}

impl CauseJson {
    fn of(cause: &Cause) -> CauseJson {
        CauseJson { place: PlaceJson::of(&cause.spot), grows: cause.grows.map(|(least, most)| [least, most]) }
    }
}

impl OperandJson {
    fn of(operand: &Operand) -> OperandJson {
        let mut json = OperandJson { position: operand.position, ..OperandJson::default() };
        match &operand.value {
            Value::Any => {}
            Value::Integer(low, high) => json.integer = Some([*low, *high]),
            Value::Text(classes) => json.text = Some(plain(classes)),
            Value::Function(name) => json.function = Some(plain(name)),
        }
        match &operand.owner {
            Some((true, name)) => json.field = Some(plain(name)),
            Some((false, name)) => json.variable = Some(plain(name)),
            None => {}
        }
        json
    }
}

impl BoundJson {
    fn of(ends: &Ends) -> Option<BoundJson> {
        match ends {
            Ends::Proved(proved) => {
                let Bound { once, each, kept } = proved.bound;
                let types = proved.others.as_ref().map(|_| plain_names(&proved.types));
                Some(BoundJson { once, each, kept, types })
            }
            Ends::Unproved(_) => None,
        }
    }
}

impl<'a> WarningJson<'a> {
    fn of(warning: &'a Warning, code: &Code<'_>, shown: Option<&Shown>) -> WarningJson<'a> {
        let (text, advice) = said_of(warning, code);
        let (entry, logs) = match shown {
            None => (None, None),
            Some(Shown::Nowhere) => (Some(None), None),
            Some(Shown::By { database, message, .. }) => {
                (Some(Some(String::from_utf8_lossy(database).into_owned())), Some(plain(message)))
            }
        };
        WarningJson {
            text,
            advice,
            fault: warning.fault.map(|fault| fault.word()),
            executed: plain(&warning.next),
            places: warning.places.iter().map(PlaceJson::of).collect(),
            command: warning.item.as_ref().map(PlaceJson::of),
            operand: warning.operand.as_ref().map(OperandJson::of),
            missing: warning.missing.as_deref().map(plain),
            types: plain_names(&warning.types),
            given: plain_names(&warning.given),
            blank: plain_names(&warning.blank),
            entry,
            logs,
        }
    }
}

/// JSON on one line, with a space after each comma and each colon.
struct OnOneLine;

impl OnOneLine {
    fn separate<W: ?Sized + Write>(out: &mut W, is_first: bool) -> io::Result<()> {
        if is_first { Ok(()) } else { out.write_all(b", ") }
    }
}

impl Formatter for OnOneLine {
    fn begin_array_value<W: ?Sized + Write>(&mut self, out: &mut W, is_first: bool) -> io::Result<()> {
        OnOneLine::separate(out, is_first)
    }

    fn begin_object_key<W: ?Sized + Write>(&mut self, out: &mut W, is_first: bool) -> io::Result<()> {
        OnOneLine::separate(out, is_first)
    }

    fn begin_object_value<W: ?Sized + Write>(&mut self, out: &mut W) -> io::Result<()> {
        out.write_all(b": ")
    }
}

/// What is found of a style, as an object of JSON.
pub fn json_of(check: &StyleCheck) -> String {
    let (literals, bodies) = match check.verdict.as_ref().filter(|_| check.is_clean()) {
        Some(Verdict::Clean { literals, bodies, .. }) => (Some(*literals), Some(*bodies)),
        _ => (None, None),
    };
    let types = check.types();
    let lines = check.messages.log.split(|byte| *byte == b'\n').filter(|line| !line.is_empty());
    let code = code_of(check);
    let entry = |number: usize| check.entries.as_ref().and_then(|entries| entries.get(number));
    let shown = check.found.shown().into_iter().enumerate();
    let json = StyleJson {
        style: path_of(check),
        verdict: check.word(),
        literals,
        bodies,
        types: types.map(|types| plain_names(&types.taken)),
        uncovered: types.map(|types| plain_names(&types.uncovered)),
        ends: check.ends().and_then(BoundJson::of),
        endless: check.endless.as_ref().map(|endless| String::from_utf8_lossy(&endless.database).into_owned()),
        messages: lines.map(plain).collect(),
        warnings: shown.map(|(number, warning)| WarningJson::of(warning, &code, entry(number))).collect(),
        behind: Some(check.found.hidden()).filter(|hidden| *hidden > 0),
        causes: check.found.causes.iter().map(CauseJson::of).collect(),
        constants: check.constants.iter().map(ConstantJson::of).collect(),
        hints: check.hints.iter().map(|hint| HintJson { line: hint.line, text: &hint.text }).collect(),
    };
    on_one_line(&json)
}

/// A value as JSON, on one line.
pub fn on_one_line(value: &impl Serialize) -> String {
    let mut text = Vec::with_capacity(1 << 9);
    // Nothing of these has a key that is no text, a text takes all that is written to it, and all of that is UTF-8.
    let _ = value.serialize(&mut Serializer::with_formatter(&mut text, OnOneLine));
    String::from_utf8(text).unwrap_or_default()
}

#[cfg(test)]
mod tests {
    use super::*;

    #[test]
    fn texts_of_json() {
        assert_eq!(on_one_line(&"a\"b\\\u{1}é\n"), "\"a\\\"b\\\\\\u0001é\\n\"");
        let operand = OperandJson { integer: Some([None, Some(-1)]), ..OperandJson::default() };
        assert_eq!(on_one_line(&[operand]), "[{\"position\": 0, \"integer\": [null, -1]}]");
    }
}
