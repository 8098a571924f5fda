//! What is said of a style's steps: whether each run of it ends, and within how many.

use crate::btx::{self, Bound, MemoryRefused, Steps};
use crate::notes::{Spot, spot, word};
use crate::terminal::plain;

/// How many bytes a global string variable keeps, where the command line says nothing else.
const KEPT: u32 = 20_000;

/// The numbers of bytes at which the bound is asked for to find how it grows.
const ASKED: [u32; 4] = [0, 1, 2, 3];

/// What is known of the steps of a style's runs.
#[derive(Debug, Clone, PartialEq, Eq)]
pub enum Ends {
    /// Each run ends.
    Proved(Proved),
    /// That isn't proved.
    Unproved(Reason),
}

/// The bound of a style that ends.
#[derive(Debug, Clone, PartialEq, Eq)]
pub struct Proved {
    /// The bound where a global string variable keeps at most `KEPT` bytes: this one is proved.
    pub bound: Bound,
    /// How the bound grows with the number of bytes, if it has these numbers at each that was asked for.
    grows: Option<[Polynomial; 2]>,
    /// The types of entries, beside those that the style doesn't know.
    pub types: Vec<Vec<u8>>,
    /// Why no bound is known for entries of the other types for which the style is checked, if there are any.
    pub others: Option<Reason>,
}

/// Why a style isn't known to end.
#[derive(Debug, Clone, PartialEq, Eq)]
pub enum Reason {
    /// No bound is known of a token: what it executes, and where it stands.
    Token { next: Vec<u8>, spot: Spot },
    /// The function of this type asks for the entry's type again.
    Again(Vec<u8>),
    /// The bound doesn't fit 64 bits.
    TooGreat,
    /// The style is so large that none is looked for.
    TooLarge,
    /// The library says no more.
    NotSaid,
}

impl Ends {
    /// Why no bound is known, for entries of any type or of some.
    pub fn reason(&self) -> Option<&Reason> {
        match self {
            Ends::Proved(proved) => proved.others.as_ref(),
            Ends::Unproved(reason) => Some(reason),
        }
    }
}

/// The coefficients, from the constant on.
type Polynomial = [u64; 4];

/// What is known of the steps of the runs of a style, whose file has this name. None where the text is longer than a style may be.
pub fn ends_of(name: &[u8], style: &[u8]) -> Result<Option<Ends>, MemoryRefused> {
    let asked = |kept| btx::check_ends(name, style, kept);
    match asked(KEPT)? {
        None => Ok(None),
        Some(Steps::Unbounded(notes)) => {
            let reason = reason_of(&notes, name);
            let is_too_great = reason != Reason::TooLarge && matches!(asked(0)?, Some(Steps::Bounded(..)));
            Ok(Some(Ends::Unproved(if is_too_great { Reason::TooGreat } else { reason })))
        }
        Some(Steps::Bounded(bound, types, notes)) => {
            let found = bounds_at_few(asked, bound)?;
            let others = Some(notes).filter(|notes| !notes.is_empty()).map(|notes| reason_of(&notes, name));
            Ok(Some(Ends::Proved(Proved { bound, grows: grows(&found, bound), types, others })))
        }
    }
}

/// The bounds at the numbers of bytes that are asked for. Where one is the same as `at_most`, that of the usual number, no terms are to be shown, and no further one is asked for.
fn bounds_at_few(
    asked: impl Fn(u32) -> Result<Option<Steps>, MemoryRefused>,
    at_most: Bound,
) -> Result<Vec<Bound>, MemoryRefused> {
    let mut found = Vec::new();
    for kept in ASKED {
        match asked(kept)? {
            Some(Steps::Bounded(bound, ..)) if (bound.once, bound.each) == (at_most.once, at_most.each) => {
                return Ok(vec![bound; ASKED.len()]);
            }
            Some(Steps::Bounded(bound, ..)) => found.push(bound),
            _ => break,
        }
    }
    Ok(found)
}

/// How both numbers of a bound grow, by those at few bytes; None where that doesn't give those at `KEPT` bytes.
fn grows(found: &[Bound], bound: Bound) -> Option<[Polynomial; 2]> {
    let found: &[Bound; 4] = found.try_into().ok()?;
    let once = polynomial(&found.map(|bound| bound.once)).filter(|its| value(its, KEPT) == Some(bound.once))?;
    let each = polynomial(&found.map(|bound| bound.each)).filter(|its| value(its, KEPT) == Some(bound.each))?;
    Some([once, each])
}

/// The polynomial with these values at 0, 1, 2 and 3, if its coefficients are whole and none is negative.
fn polynomial(values: &[u64; 4]) -> Option<Polynomial> {
    let [a, b, c, d] = values.map(i128::from);
    let (first, second, third) = (b - a, c - 2 * b + a, d - 3 * c + 3 * b - a);
    if third % 6 != 0 || (second - third) % 2 != 0 {
        return None;
    }
    let (cubic, square) = (third / 6, (second - third) / 2);
    let coefficients = [a, first - square - cubic, square, cubic];
    let whole = coefficients.map(|coefficient| u64::try_from(coefficient).ok());
    Some([whole[0]?, whole[1]?, whole[2]?, whole[3]?])
}

/// Its value at a number; None where that doesn't fit.
fn value(polynomial: &Polynomial, at: u32) -> Option<u64> {
    polynomial
        .iter()
        .rev()
        .try_fold(0u64, |value, coefficient| value.checked_mul(u64::from(at))?.checked_add(*coefficient))
}

/// Why no bound is known, by the library's notes.
fn reason_of(notes: &[u8], style: &[u8]) -> Reason {
    let (mut next, mut reason) = (Vec::new(), Reason::NotSaid);
    for line in notes.split(|byte| *byte == b'\n') {
        match word(line) {
            (b"next", rest) => next = rest.to_vec(),
            (b"unbounded", rest) => {
                if let Some(spot) = spot(rest, style, true) {
                    reason = Reason::Token { next: std::mem::take(&mut next), spot };
                }
            }
            (b"again", rest) => reason = Reason::Again(rest.to_vec()),
            (b"large", _) => reason = Reason::TooLarge,
            _ => {}
        }
    }
    reason
}

// ---- in words ----

/// A number with a comma before each three digits.
pub fn grouped(number: u64) -> String {
    let digits = number.to_string();
    let mut text = String::new();
    for (at, digit) in digits.chars().enumerate() {
        if at > 0 && (digits.len() - at).is_multiple_of(3) {
            text.push(',');
        }
        text.push(digit);
    }
    text
}

/// From which number on only about how great it is is said, with the words for that.
const GREAT: [(u64, &str); 4] = [
    (1_000_000_000_000_000_000, "million million million"),
    (1_000_000_000_000_000, "thousand million million"),
    (1_000_000_000_000, "million million"),
    (1_000_000_000, "thousand million"),
];

/// A number as a reader takes it in: `1,472`, `about 6.4 thousand million`.
fn readable(number: u64) -> String {
    let Some((unit, words)) = GREAT.iter().find(|(unit, _)| number >= *unit) else { return grouped(number) };
    let tenths = (u128::from(number) * 10 + u128::from(*unit) / 2) / u128::from(*unit);
    format!("about {}.{} {words}", tenths / 10, tenths % 10)
}

/// A polynomial in N.
fn in_words(polynomial: &Polynomial) -> String {
    let term = |(power, coefficient): (usize, &u64)| match power {
        0 => grouped(*coefficient),
        1 => format!("{}*N", grouped(*coefficient)),
        _ => format!("{}*N^{power}", grouped(*coefficient)),
    };
    let terms = polynomial.iter().enumerate().filter(|(_, coefficient)| **coefficient > 0).map(term);
    let terms: Vec<String> = terms.collect();
    if terms.is_empty() { "0".to_string() } else { terms.join(" + ") }
}

impl Proved {
    /// The bound in words.
    pub fn in_words(&self) -> String {
        let (once, each) = (readable(self.bound.once), readable(self.bound.each));
        let kept = grouped(u64::from(KEPT));
        match &self.grows {
            Some(grows) if grows.iter().any(|its| its[1..] != [0; 3]) => {
                let [once_in_n, each_in_n] = grows.each_ref().map(in_words);
                format!(
                    "at most {once_in_n} steps, and {each_in_n} for each entry, where a string variable keeps at most N bytes ({once} and {each} for N = {kept})"
                )
            }
            _ => format!(
                "at most {once} steps, and {each} for each entry, where a string variable keeps at most {kept} bytes"
            ),
        }
    }
}

impl Reason {
    /// Why no bound is known, in words.
    pub fn in_words(&self) -> String {
        match self {
            Reason::Token { next, spot } => {
                let place = format!("`{}` in line {}, in {}", plain(next), spot.call.line, plain(spot.owner()));
                match &next[..] {
                    b"while$" => {
                        format!(
                            "{place}: its body isn't known to count towards its end, to make a text shorter or to walk along it"
                        )
                    }
                    b"if$" => format!("{place}: its functions don't stand quoted just before it"),
                    b":=" => format!("{place}: its variable doesn't stand quoted just before it"),
                    _ => format!("no bound is known of {place}"),
                }
            }
            Reason::Again(name) => format!("the function of the type {} asks for the entry's type again", plain(name)),
            Reason::TooGreat => "its bound doesn't fit 64 bits".to_string(),
            Reason::TooLarge => "no bound is looked for in so large a style".to_string(),
            Reason::NotSaid => "no bound is known".to_string(),
        }
    }
}

#[cfg(test)]
mod tests {
    use super::*;

    const HEAD: &str = "ENTRY {title}{}{} INTEGERS {n} STRINGS {s}\nFUNCTION {not} {{#0} {#1} if$}\n";

    fn said(rest: &str) -> String {
        match ends_of(b"s.bst", format!("{HEAD}{rest}").as_bytes()).unwrap().unwrap() {
            Ends::Proved(proved) => proved.in_words(),
            Ends::Unproved(reason) => reason.in_words(),
        }
    }

    #[test]
    fn bounds_are_said() {
        let kept = "for each entry, where a string variable keeps at most";
        assert_eq!(
            said("FUNCTION {f} {skip$} READ EXECUTE {f}"),
            format!("at most 2 steps, and 0 {kept} 20,000 bytes")
        );
        let loop_of_title =
            "FUNCTION {f} {title 's := {s empty$ not} {s #2 global.max$ substring$ 's :=} while$} READ ITERATE {f}";
        assert_eq!(
            said(loop_of_title),
            format!("at most 0 steps, and 23 + 16*N {kept} N bytes (0 and 320,023 for N = 20,000)")
        );
    }

    #[test]
    fn great_numbers_are_said_in_words() {
        let numbers = [999_999_999, 6_405_921_472, 1_950_000_000_000, u64::MAX];
        let words = [
            "999,999,999",
            "about 6.4 thousand million",
            "about 2.0 million million",
            "about 18.4 million million million",
        ];
        assert_eq!(numbers.map(readable), words);
    }

    #[test]
    fn reasons_are_said() {
        let place = "`while$` in line 3, in f: its body isn't known to count towards its end, to make a text shorter or to walk along it";
        assert_eq!(said("FUNCTION {f} {{#1} 'skip$ while$} READ EXECUTE {f}"), place);
        assert_eq!(
            said("FUNCTION {g} {#1 'skip$ 'skip$}\nFUNCTION {f} {g if$} READ EXECUTE {f}"),
            "`if$` in line 4, in f: its functions don't stand quoted just before it"
        );
        let again = "FUNCTION {article} {call.type$} READ ITERATE {call.type$}";
        assert_eq!(said(again), "the function of the type article asks for the entry's type again");
        let nested = ["a", "b", "c", "d", "e"].iter().fold(String::new(), |inside, name| {
            format!("s num.names$ '{name} := {{{name} #0 >}} {{{inside} {name} #1 - '{name} :=}} while$")
        });
        assert_eq!(
            said(&format!("INTEGERS {{a b c d e}} FUNCTION {{f}} {{{nested}}} READ EXECUTE {{f}}")),
            "its bound doesn't fit 64 bits"
        );
        let many = "#1 'n := ".repeat(800_000);
        assert_eq!(
            said(&format!("FUNCTION {{f}} {{{many}}} READ EXECUTE {{f}}")),
            "no bound is looked for in so large a style"
        );
    }

    #[test]
    fn growth_is_found() {
        assert_eq!(polynomial(&[0, 1, 3, 7]), None);
        assert_eq!(polynomial(&[0, 0, 1, 3]), None);
        assert_eq!(polynomial(&[1, 3, 9, 19]), Some([1, 0, 2, 0]));
        assert_eq!(polynomial(&[1, 4, 11, 22]), Some([1, 1, 2, 0]));
        assert_eq!(polynomial(&[0, 1, 8, 27]), Some([0, 0, 0, 1]));
        assert_eq!(polynomial(&[9, 5, 5, 5]), None);
        assert_eq!(value(&[1, 1, 2, 0], KEPT), Some(800_020_001));
        assert_eq!(value(&[0, 0, 0, u64::MAX], 2), None);
        assert_eq!(in_words(&[0, 1303, 0, 2]), "1,303*N + 2*N^3");
        assert_eq!(in_words(&[0; 4]), "0");
        let bound = |once| Bound { once, each: 7, kept: 0 };
        assert_eq!(grows(&[1, 2, 3, 4].map(bound), bound(20_001)), Some([[1, 1, 0, 0], [7, 0, 0, 0]]));
        assert_eq!(grows(&[1, 2, 3, 4].map(bound), bound(20_002)), None);
    }
}
