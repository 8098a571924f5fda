//! What may be meant otherwise in the text of one field: signs that LaTeX stops at, letters of HTML, names in another order than BibTeX's, a year that no label fits.

use crate::advice::Seen;
use crate::mistakes::number_meant;
use crate::sign_doubts::lost_formula;
use crate::terminal::plain;
use crate::text::find;

/// What is seen in a text: where, and the names for what is said of it.
#[derive(Debug, Clone, PartialEq, Eq)]
pub struct Doubt {
    pub place: usize,
    pub seen: Seen,
    pub names: Vec<String>,
}

/// Fields whose text LaTeX sets as text.
const TEXTS: [&[u8]; 13] = [
    b"title",
    b"booktitle",
    b"journal",
    b"publisher",
    b"series",
    b"note",
    b"organization",
    b"institution",
    b"school",
    b"address",
    b"edition",
    b"howpublished",
    b"type",
];

/// Fields that are addresses.
const ADDRESSES: [&[u8]; 3] = [b"url", b"doi", b"eprint"];

/// Commands whose argument is no text.
const OF_ADDRESSES: [&[u8]; 11] =
    [b"url", b"href", b"path", b"doi", b"nolinkurl", b"lstinline", b"verb", b"cite", b"ref", b"ce", b"ensuremath"];

/// Whether two names of fields are the same.
fn is_in(name: &[u8], names: &[&[u8]]) -> bool {
    names.iter().any(|known| name.eq_ignore_ascii_case(known))
}

/// What is seen in the text of a field that the style reads. `has_label` says that the style takes a label from the end of the year.
pub fn doubt(name: &[u8], text: &[u8], has_label: bool) -> Option<Doubt> {
    let is_address = is_in(name, &ADDRESSES);
    if is_address || is_in(name, &TEXTS) {
        let signs = |text| if is_address { backslash(text) } else { sign(text) };
        return entity(text, is_address).or_else(|| signs(text)).or_else(|| backslash_at_end(text));
    }
    if is_in(name, &[b"author", b"editor"]) {
        return entity(text, false).or_else(|| suffix(text)).or_else(|| initials(text));
    }
    let of_year = || letter_for_digit(text).or_else(|| has_label.then(|| year(text)).flatten());
    entity(text, false).or_else(|| is_in(name, &[b"year"]).then(of_year).flatten())
}

/// Whether a style takes a label from the end of the year, as `alpha` does.
pub fn has_label_of_year(style: &[u8]) -> bool {
    find(style, b"purify$ #-1 #2 substring$").is_some()
}

// ---- signs ----

/// Letters of HTML and what stands for them in TeX.
const ENTITIES: [(&[u8], &str); 13] = [
    (b"hyphen", "`-`"),
    (b"amp", "`\\&`"),
    (b"lt", "`$<$`"),
    (b"gt", "`$>$`"),
    (b"quot", "a quote of TeX, ``..''"),
    (b"apos", "`'`"),
    (b"nbsp", "`~`"),
    (b"ndash", "`--`"),
    (b"mdash", "`---`"),
    (b"lsquo", "a quote of TeX, `..'"),
    (b"rsquo", "`'`"),
    (b"ldquo", "a quote of TeX, ``..''"),
    (b"rdquo", "a quote of TeX, ``..''"),
];

/// The numbers of these letters.
const ENTITY_CODES: [(u32, &[u8]); 14] = [
    (0x22, b"quot"),
    (0x26, b"amp"),
    (0x27, b"apos"),
    (0x3C, b"lt"),
    (0x3E, b"gt"),
    (0xA0, b"nbsp"),
    (0x2010, b"hyphen"),
    (0x2011, b"hyphen"),
    (0x2013, b"ndash"),
    (0x2014, b"mdash"),
    (0x2018, b"lsquo"),
    (0x2019, b"rsquo"),
    (0x201C, b"ldquo"),
    (0x201D, b"rdquo"),
];

/// The end of the names that HTML has for letters with an accent.
const ACCENTS: [&[u8]; 9] = [b"uml", b"acute", b"grave", b"circ", b"tilde", b"cedil", b"ring", b"slash", b"zlig"];

/// The longest name of a letter of HTML.
const LONGEST_ENTITY: usize = 8;

/// A letter that is written as in HTML, as `&amp;`.
fn entity(text: &[u8], is_address: bool) -> Option<Doubt> {
    (0..text.len()).filter(|at| text[*at] == b'&').find_map(|at| {
        let rest = &text[at + 1..text.len().min(at + 2 + LONGEST_ENTITY)];
        let name = &rest[..rest.iter().position(|byte| *byte == b';')?];
        let meant = meant_by_entity(name, is_address)?;
        let place = at.checked_sub(1).filter(|before| text[*before] == b'\\').unwrap_or(at);
        let names = vec![plain(&text[place..at + name.len() + 2]), meant];
        Some(Doubt { place, seen: Seen::HtmlEntity, names })
    })
}

/// What stands for a letter of HTML; None where it isn't one.
fn meant_by_entity(name: &[u8], is_address: bool) -> Option<String> {
    if let Some((_, meant)) = ENTITIES.iter().find(|(known, _)| *known == name) {
        return Some(if is_address && name == b"amp" { "`&`".into() } else { (*meant).to_string() });
    }
    if let Some(code) = code_of(name) {
        let sign = ENTITY_CODES.iter().find(|(known, _)| *known == code);
        return match sign {
            Some((_, name)) => meant_by_entity(name, is_address),
            None if code < 0x20 => None,
            None => char::from_u32(code)
                .filter(|sign| sign.is_alphabetic())
                .map_or(Some("the letter itself".into()), |sign| Some(format!("`{sign}`"))),
        };
    }
    let is_letter = name.first().is_some_and(u8::is_ascii_alphabetic) && ACCENTS.iter().any(|end| name.ends_with(end));
    is_letter.then(|| "the letter itself".into())
}

/// The number of a letter that is written `#N` or `#xN`.
fn code_of(name: &[u8]) -> Option<u32> {
    let digits = std::str::from_utf8(name.strip_prefix(b"#")?).ok()?;
    let hexadecimal = digits.strip_prefix('x').or_else(|| digits.strip_prefix('X'));
    hexadecimal.map_or_else(|| digits.parse().ok(), |digits| u32::from_str_radix(digits, 16).ok())
}

/// A backslash that an address doesn't need: `\_`, also as `{\_}`.
fn backslash(text: &[u8]) -> Option<Doubt> {
    let pairs = text.windows(2).position(|pair| pair[0] == b'\\' && matches!(pair[1], b'_' | b'%' | b'&' | b'#'))?;
    let sign = plain(&text[pairs + 1..pairs + 2]);
    let before = pairs.checked_sub(1).filter(|before| text[*before] == b'{' && text.get(pairs + 2) == Some(&b'}'));
    let (place, written) = before.map_or((pairs, format!("\\{sign}")), |before| (before, format!("{{\\{sign}}}")));
    Some(Doubt { place, seen: Seen::BackslashInUrl, names: vec![sign, written] })
}

/// A backslash at the end of a text: the brace after it was meant to be printed.
fn backslash_at_end(text: &[u8]) -> Option<Doubt> {
    let backslashes = text.iter().rev().take_while(|byte| **byte == b'\\').count();
    let place = text.len().checked_sub(1).filter(|_| backslashes % 2 == 1)?;
    Some(Doubt { place, seen: Seen::BackslashAtEnd, names: Vec::new() })
}

/// A sign at which LaTeX stops where it stands in text. A text whose `$` aren't paired is left alone.
fn sign(text: &[u8]) -> Option<Doubt> {
    if !text.iter().any(|byte| matches!(byte, b'_' | b'^' | b'&' | b'%' | b'#')) || has_odd_formula(text) {
        return None;
    }
    let (mut at, mut is_formula) = (0, false);
    while let Some(byte) = text.get(at) {
        match byte {
            b'\\' => {
                let word = command_at(text, at + 1);
                is_formula = match text.get(at + 1) {
                    Some(b'(') => true,
                    Some(b')') => false,
                    _ => is_formula,
                };
                let is_skipped = is_in(word, &OF_ADDRESSES);
                at += 1 + word.len().max(1);
                if is_skipped {
                    at = after_group(text, at);
                }
                continue;
            }
            b'$' => is_formula = !is_formula,
            b'_' | b'^' if !is_formula => return Some(doubt_of_sign(text, at, Seen::SignOfFormula)),
            b'&' if !is_formula => return Some(doubt_of_sign(text, at, Seen::SignOfTable)),
            b'%' => return Some(doubt_of_sign(text, at, Seen::SignOfComment)),
            b'#' if !is_formula => return Some(doubt_of_sign(text, at, Seen::SignOfParameter)),
            _ => {}
        }
        at += 1;
    }
    None
}

fn doubt_of_sign(text: &[u8], place: usize, seen: Seen) -> Doubt {
    let seen = match seen {
        _ if find(&text[..place], b"://").is_some() => Seen::AddressInText,
        Seen::SignOfFormula if is_in_doi(&text[..place]) => Seen::DoiInText,
        _ => seen,
    };
    Doubt { place, seen, names: vec![plain(&text[place..=place])] }
}

/// Whether a text ends in a doi, as `10.1007/978-3` is one.
fn is_in_doi(text: &[u8]) -> bool {
    let start = text.iter().rposition(u8::is_ascii_whitespace).map_or(0, |white| white + 1);
    let is_doi = |at: usize| {
        let digits = text[at + 3..].iter().take_while(|byte| byte.is_ascii_digit()).count();
        digits >= 4 && text.get(at + 3 + digits) == Some(&b'/')
    };
    find(&text[start..], b"10.").is_some_and(|at| is_doi(start + at))
}

/// Whether a text has an odd number of `$` that begin or end a formula.
fn has_odd_formula(text: &[u8]) -> bool {
    let is_it = |at: &usize| text[*at] == b'$' && at.checked_sub(1).is_none_or(|before| text[before] != b'\\');
    (0..text.len()).filter(is_it).count() % 2 == 1
}

/// The letters of a command after its backslash.
fn command_at(text: &[u8], at: usize) -> &[u8] {
    let rest = text.get(at..).unwrap_or(b"");
    &rest[..rest.iter().position(|byte| !byte.is_ascii_alphabetic()).unwrap_or(rest.len())]
}

/// Where the group ends that begins here, after whitespace; the same place where none does.
fn after_group(text: &[u8], at: usize) -> usize {
    let Some(open) = text[at..].iter().position(|byte| !byte.is_ascii_whitespace()).map(|white| at + white) else {
        return text.len();
    };
    if text[open] != b'{' {
        return at;
    }
    let mut depth = 0_usize;
    for (place, byte) in text.iter().enumerate().skip(open) {
        match byte {
            b'{' => depth += 1,
            b'}' if depth == 1 => return place + 1,
            b'}' => depth -= 1,
            _ => {}
        }
    }
    text.len()
}

/// Where the groups end that follow one another from here on; the same place where none does.
fn after_groups(text: &[u8], mut at: usize) -> usize {
    while text.get(at) == Some(&b'{') {
        at = after_group(text, at);
    }
    at
}

// ---- names ----

/// What comes after a last name.
const SUFFIXES: [&[u8]; 7] = [b"jr", b"jr.", b"sr", b"sr.", b"II", b"III", b"IV"];

/// Whether a word comes after a last name.
pub fn is_suffix(word: &[u8]) -> bool {
    SUFFIXES.iter().any(|suffix| word == *suffix || suffix[0].is_ascii_lowercase() && word.eq_ignore_ascii_case(suffix))
}

/// The names of a list, each with its words and their places; only of a list without braces.
fn names(text: &[u8]) -> Vec<Vec<(usize, &[u8])>> {
    if text.contains(&b'{') {
        return Vec::new();
    }
    let mut all = vec![Vec::new()];
    let mut at = 0;
    for word in text.split(|byte| byte.is_ascii_whitespace() || *byte == b'~') {
        match word {
            b"" => {}
            _ if word.eq_ignore_ascii_case(b"and") => all.push(Vec::new()),
            _ => all.last_mut().into_iter().for_each(|name| name.push((at, word))),
        }
        at += word.len() + 1;
    }
    all
}

/// `Martin King, Jr.` and `King, Martin, Jr.`: the suffix is taken as the first name, or the first name as the suffix.
fn suffix(text: &[u8]) -> Option<Doubt> {
    let has_one = text.contains(&b',') && text.split(|byte| byte.is_ascii_whitespace() || *byte == b',').any(is_suffix);
    if !has_one {
        return None;
    }
    names(text).iter().find_map(|name| {
        let (last, others) = name.split_last().filter(|(last, _)| is_suffix(last.1))?;
        let parts: Vec<&[(usize, &[u8])]> = others.split_inclusive(|(_, word)| word.ends_with(b",")).collect();
        let joined = |words: &[(usize, &[u8])]| {
            let words: Vec<String> = words.iter().map(|(_, word)| plain(word)).collect();
            words.join(" ").trim_end_matches(',').to_string()
        };
        let (given, family) = match parts[..] {
            [one] if one.len() > 1 && one.last()?.1.ends_with(b",") => {
                let is_von = |(_, word): &(usize, &[u8])| word.first().is_some_and(u8::is_ascii_lowercase);
                one.split_at(one.iter().position(is_von).unwrap_or(one.len() - 1))
            }
            [family, given] if given.last()?.1.ends_with(b",") => (given, family),
            _ => return None,
        };
        if given.is_empty() {
            return None;
        }
        let (given, family) = (joined(given), joined(family));
        let names = vec![format!("{family}, {}, {given}", plain(last.1)), plain(last.1)];
        Some(Doubt { place: last.0, seen: Seen::SuffixLast, names })
    })
}

/// `Altschul SF and Gish W`: without commas the initials are taken as the last name.
fn initials(text: &[u8]) -> Option<Doubt> {
    if text.contains(&b',') || text.contains(&b'.') {
        return None;
    }
    let mut all = names(text);
    if all.len() > 1 && all.last().is_some_and(|name| matches!(name[..], [(_, b"others")])) {
        all.pop();
    }
    let is_initials = |word: &[u8]| word.len() <= 3 && word.iter().all(u8::is_ascii_uppercase) && !is_suffix(word);
    let is_name = |word: &[u8]| word.len() > 1 && word.iter().any(|byte| byte.is_ascii_lowercase() || *byte >= 0x80);
    let has_form = |name: &Vec<(usize, &[u8])>| {
        let Some((last, others)) = name.split_last() else { return false };
        is_initials(last.1) && !others.is_empty() && others.iter().all(|(_, word)| is_name(word))
    };
    let (last, others) = all.first()?.split_last()?;
    if !all.iter().all(has_form) || all.len() == 1 && last.1.len() < 2 {
        return None;
    }
    let family: Vec<String> = others.iter().map(|(_, word)| plain(word)).collect();
    let given: Vec<String> = last.1.iter().map(|letter| format!("{}.", char::from(*letter))).collect();
    let names = vec![format!("{}, {}", family.join(" "), given.join(" ")), plain(last.1)];
    Some(Doubt { place: last.0, seen: Seen::InitialsLast, names })
}

// ---- commands ----

/// Commands of letters, of which BibTeX changes the case as it does of the letters of ASCII.
const LETTERS: [&[u8]; 5] = [b"O", b"L", b"OE", b"AE", b"AA"];

/// What loses its capital letters outside of braces, where the style changes the case of the text: a command, or else a formula or a word.
pub fn lost_case(text: &[u8]) -> Option<Doubt> {
    lost_command(text).or_else(|| lost_formula(text)).or_else(|| lost_word(text))
}

/// A command whose name has a capital letter.
fn lost_command(text: &[u8]) -> Option<Doubt> {
    let mut depth = 0_i64;
    for (at, byte) in text.iter().enumerate() {
        depth += i64::from(*byte == b'{') - i64::from(*byte == b'}');
        if depth != 0 || *byte != b'\\' {
            continue;
        }
        let word = command_at(text, at + 1);
        let is_it = word.iter().any(u8::is_ascii_uppercase);
        let is_after_line_end = at.checked_sub(1).is_some_and(|before| text[before] == b'\\');
        if is_it && !is_after_line_end && !LETTERS.contains(&word) {
            let behind = at + 1 + word.len();
            let end = after_groups(text, behind);
            let (argument, command) = (plain(&text[behind..end]), plain(&text[at..behind]));
            let names = vec![command.clone() + &argument, command.to_ascii_lowercase() + &argument];
            return Some(Doubt { place: at, seen: Seen::LosesCase, names });
        }
    }
    None
}

/// How many words that lose their capital letters are named.
const MOST_WORDS: usize = 4;
/// How many words in small letters show that no word has a capital letter by its place alone, and how long each is.
const LEAST_SMALL: usize = 2;
const LEAST_LETTERS: usize = 4;

/// Long words that have small letters also in a title whose other words have capital ones.
#[rustfmt::skip]
const OF_GRAMMAR: [&[u8]; 22] = [
    b"about", b"after", b"against", b"among", b"before", b"behind", b"between", b"beyond", b"during", b"from", b"into", b"over", b"than", b"that", b"their", b"through", b"towards", b"under",
    b"using", b"versus", b"with", b"without",
];

/// Words that lose a capital letter: one after their first letter, as in `IBM`; or the first one, as in `Franklin`, where the other words of the text have small letters.
fn lost_word(text: &[u8]) -> Option<Doubt> {
    let words = hyphenated(bare_words(text), text);
    let is_small = |word: &[u8]| word.iter().all(|byte| byte.is_ascii_lowercase() || *byte == b'-');
    let is_long = |word: &[u8]| word.len() >= LEAST_LETTERS && !OF_GRAMMAR.contains(&word);
    let small = words.iter().filter(|(_, word)| is_small(word) && is_long(word)).count();
    let has_small = words.iter().any(|(_, word)| word.len() > 1 && is_small(word));
    // (`Digital Halftoning with texture control` has capital letters without names)
    let may_tell = |(place, word): &&(usize, &[u8])| *place > 0 && is_long(word) && is_small(&word[1..]);
    let has_parts = text.iter().any(|byte| matches!(byte, b':' | b'?' | b'.'));
    let may_have_names = small >= LEAST_SMALL && !has_parts;
    let has_names = may_have_names && words.iter().find(may_tell).is_some_and(|(_, word)| is_small(word));
    let is_lost = |(place, word): &(usize, &[u8])| {
        let is_name = has_names && word.len() >= LEAST_NAME && is_inside(text, *place);
        let has_later = word.windows(2).any(|pair| pair[0] != b'-' && pair[1].is_ascii_uppercase());
        has_small && (has_later || is_name && word[0].is_ascii_uppercase())
    };
    let mut lost = words.iter().copied().filter(is_lost);
    let (place, word) = lost.next()?;
    let more: Vec<String> = lost.map(|(_, word)| format!("`{}`", plain(word))).take(MOST_WORDS - 1).collect();
    if let Some((last, others)) = more.split_last() {
        let first = [&[format!("`{}`", plain(word))], others].concat().join(", ");
        return Some(Doubt { place, seen: Seen::WordsLoseCase, names: vec![first, last.clone(), plain(word)] });
    }
    let kept = usize::from(place == 0 || text[..place].ends_with(b": "));
    let made = [word[..kept].to_vec(), word[kept..].to_ascii_lowercase()].concat();
    Some(Doubt { place, seen: Seen::LosesCase, names: vec![plain(word), plain(&made)] })
}

/// The fewest letters of a word of which the first one is a name's.
const LEAST_NAME: usize = 3;

/// These words, those with a hyphen between them as one: `X-ray`.
fn hyphenated<'a>(words: impl Iterator<Item = (usize, &'a [u8])>, text: &'a [u8]) -> Vec<(usize, &'a [u8])> {
    let mut all: Vec<(usize, &[u8])> = Vec::new();
    for (place, word) in words {
        match all.last_mut() {
            Some((start, last)) if *start + last.len() + 1 == place && text[place - 1] == b'-' => {
                *last = &text[*start..place + word.len()];
            }
            _ => all.push((place, word)),
        }
    }
    all
}

/// Whether a word stands after another word of its sentence, so that a capital letter isn't its place's.
fn is_inside(text: &[u8], place: usize) -> bool {
    let before = text[..place].trim_ascii_end();
    before.last().is_some_and(|byte| byte.is_ascii_alphanumeric() || matches!(byte, b',' | b'}' | b')'))
}

/// The words of letters that stand outside of braces, formulas and commands, each with its place.
fn bare_words(text: &[u8]) -> impl Iterator<Item = (usize, &[u8])> {
    let (mut at, mut depth, mut is_formula) = (0, 0_i64, false);
    std::iter::from_fn(move || {
        while let Some(byte) = text.get(at) {
            let start = at;
            let length = text[at..].iter().take_while(|byte| byte.is_ascii_alphabetic()).count();
            match byte {
                b'{' => depth += 1,
                b'}' => depth -= 1,
                b'$' => is_formula = !is_formula,
                b'\\' => at += command_at(text, at + 1).len().max(1),
                _ => at += length.saturating_sub(1),
            }
            at += 1;
            if length > 0 && depth == 0 && !is_formula {
                return Some((start, &text[start..start + length]));
            }
        }
        None
    })
}

// ---- years ----

/// A year with a letter that looks like a digit.
fn letter_for_digit(text: &[u8]) -> Option<Doubt> {
    let (number, letter) = number_meant(text.trim_ascii()).filter(|(number, _)| number.len() == 4)?;
    Some(Doubt { place: 0, seen: Seen::LetterForDigit, names: vec![number, letter.to_string()] })
}

/// A year whose last two letters, of which the style makes a label, are no digits.
fn year(text: &[u8]) -> Option<Doubt> {
    let counted: Vec<u8> = text.iter().copied().filter(|byte| byte.is_ascii_alphanumeric() || *byte == b' ').collect();
    let end = &counted.trim_ascii_end()[counted.trim_ascii_end().len().saturating_sub(2)..];
    if end.is_empty() || end.iter().all(u8::is_ascii_digit) || text.contains(&b'\\') {
        return None;
    }
    let number = text.windows(4).find(|digits| digits.iter().all(u8::is_ascii_digit)).map_or("2000".into(), plain);
    Some(Doubt { place: 0, seen: Seen::YearOfWords, names: vec![number, plain(end)] })
}

#[cfg(test)]
mod tests {
    use super::*;

    fn seen(name: &str, text: &str) -> Option<(usize, Seen)> {
        doubt(name.as_bytes(), text.as_bytes(), true).map(|doubt| (doubt.place, doubt.seen))
    }

    #[test]
    fn capital_letters_that_are_lost_are_seen() {
        let lost = |text: &str| lost_case(text.as_bytes()).map(|doubt| (doubt.place, doubt.names[1].clone()));
        assert_eq!(lost("The IBM and others"), Some((4, "ibm".into())));
        assert_eq!(lost("IBM: some of it"), Some((0, "Ibm".into())));
        let seen = lost_case(b"The IBM PC and DNA of it").unwrap();
        assert_eq!(
            (seen.place, seen.seen, &seen.names[..]),
            (4, Seen::WordsLoseCase, &["`IBM`, `PC`".into(), "`DNA`".into(), "IBM".into()][..])
        );
        assert_eq!(lost("a: DNA of it"), Some((3, "Dna".into())));
        assert_eq!(lost("Some small words of Franklin"), Some((20, "franklin".into())));
        let seen = lost_case(b"A structure for DNA and the X-ray pattern of Franklin and Gosling").unwrap();
        assert_eq!(seen.names, ["`DNA`, `X-ray`, `Franklin`", "`Gosling`", "DNA"]);
        assert_eq!(lost("On iPhones, \\LaTeX"), Some((12, "\\latex".into())));
        for text in [
            "The {IBM} of {$AB$} and {\\TeX}",
            "ALL IN LARGE LETTERS",
            "On X-rays",
            "On A",
            "The Large Words of a Title with small",
            "Digital Halftoning with texture control",
            "On Low-Cost Printers",
            "Some odds and ends: a Curriculum",
            "Some small words: The other",
            "Some small words -- The other",
            "Word Hy-phen-a-tion by Com-put-er",
            "Some small words of a P and O",
            "A \\emph{DNA} of it",
            "",
            "\\",
            "IBM",
        ] {
            assert_eq!(lost(text), None, "{text}");
        }
    }

    #[test]
    fn signs_of_latex_are_seen() {
        assert_eq!(seen("title", "The {CO_2} law"), Some((7, Seen::SignOfFormula)));
        assert_eq!(seen("journal", "Law & Order"), Some((4, Seen::SignOfTable)));
        assert_eq!(seen("note", "50% off"), Some((2, Seen::SignOfComment)));
        assert_eq!(seen("title", "In C#"), Some((4, Seen::SignOfParameter)));
        for whole in
            ["$a_1$ and $b^2$", "a \\& b, 5\\%", "\\url{http://a/b_c%20d}", "\\href{a_b}{c}", "\\(x_1\\)", "5$ a_b"]
        {
            assert_eq!(seen("title", whole), None, "{whole}");
        }
        assert_eq!([seen("url", "http://a/b_c?d&e%20"), seen("file", "a_b")], [None, None]);
        assert_eq!(seen("note", "http://a/b_c"), Some((10, Seen::AddressInText)));
        assert_eq!(seen("note", "see doi:10.1007/978-3_2"), Some((21, Seen::DoiInText)));
        assert_eq!(seen("note", "10.1007/978 a_b"), Some((13, Seen::SignOfFormula)));
    }

    #[test]
    fn letters_of_html_and_backslashes_are_seen() {
        let said = |name: &str, text: &str| doubt(name.as_bytes(), text.as_bytes(), false).map(|doubt| doubt.names);
        assert_eq!(said("journal", "A &amp; B"), Some(vec!["&amp;".into(), "`\\&`".into()]));
        assert_eq!(said("journal", "A \\&amp; B"), Some(vec!["\\&amp;".into(), "`\\&`".into()]));
        assert_eq!(said("url", "a?b&amp;c"), Some(vec!["&amp;".into(), "`&`".into()]));
        assert_eq!(said("author", "G&ouml;del, K"), Some(vec!["&ouml;".into(), "the letter itself".into()]));
        assert_eq!(said("title", "O&#39;Hara").map(|names| names[1].clone()), Some("`'`".into()));
        assert_eq!(said("url", "a{\\_}b"), Some(vec!["_".into(), "{\\_}".into()]));
        assert_eq!(said("url", "a\\%20b"), Some(vec!["%".into(), "\\%".into()]));
        assert_eq!(said("pages", "1&#8211;2"), Some(vec!["&#8211;".into(), "`--`".into()]));
        assert_eq!(said("title", "&#xFC;ber"), Some(vec!["&#xFC;".into(), "`ü`".into()]));
        assert_eq!([said("url", "a&b;c"), said("author", "A \\& B;"), said("number", "&#;")], [None, None, None]);
    }

    #[test]
    fn names_in_another_order_are_seen() {
        let said = |text: &str| doubt(b"author", text.as_bytes(), false).map(|doubt| doubt.names[0].clone());
        assert_eq!(said("Martin Luther King, Jr.").as_deref(), Some("King, Jr., Martin Luther"));
        assert_eq!(said("A. B and King, Martin, Jr").as_deref(), Some("King, Jr, Martin"));
        assert_eq!(said("Ludwig van Beethoven, III").as_deref(), Some("van Beethoven, III, Ludwig"));
        assert_eq!(said("Altschul SF and Gish W and others").as_deref(), Some("Altschul, S. F."));
        for whole in [
            "King, Jr., Martin",
            "King, Jr.",
            "Henry VIII",
            "de la Cruz, Jr.",
            "Malcolm X",
            "Lee AB and Gish, W.",
            "A. Smith II",
            "{IBM Group AB}",
            "Jane Doe and IBM",
            "",
        ] {
            assert_eq!(said(whole), None, "{whole}");
        }
    }

    #[test]
    fn commands_keep_their_case_in_braces() {
        let said = |text: &str| lost_case(text.as_bytes()).map(|doubt| (doubt.place, doubt.names.join(" ")));
        assert_eq!(said("On \\SI{3}{\\%} of it"), Some((3, "\\SI{3}{\\%} \\si{3}{\\%}".to_string())));
        assert_eq!(said("On {\\SI{3}{\\%}} of it"), None);
        assert_eq!(said("Models in \\LaTeX and"), Some((10, "\\LaTeX \\latex".into())));
        assert_eq!(said("Erd\\H{o}s"), Some((3, "\\H{o} \\h{o}".into())));
        for whole in ["{\\LaTeX}", "\\emph{In \\TeX}", "\\AA ngstr", "\\\\The", "\\alpha", "{A} \\O B", "\\"] {
            assert_eq!(said(whole), None, "{whole}");
        }
    }

    #[test]
    fn years_of_words_are_seen() {
        assert_eq!([seen("year", "2O12"), seen("year", "l998")], [Some((0, Seen::LetterForDigit)); 2]);
        assert_eq!(seen("volume", "2O12"), None);
        assert_eq!(seen("year", "2021, in press"), Some((0, Seen::YearOfWords)));
        assert_eq!([seen("year", "2021"), seen("year", "(2021)"), seen("year", "in press 2021")], [None; 3]);
        assert_eq!(doubt(b"year", b"in press", false), None);
    }
}
