//! Characters that look like one of the keyboard, as word processors and pages of the web put them in its place.

/// The character, what it is, and the one of the keyboard.
type Row = (char, &'static str, char);

const CYRILLIC: &str = "a Cyrillic letter";
const GREEK: &str = "a Greek letter";
const QUOTE: &str = "a curly quote";

#[rustfmt::skip]
const ALIKE: &[Row] = &[
    ('\u{A0}', "a no-break space", ' '), ('\u{2009}', "a thin space", ' '), ('\u{202F}', "a narrow no-break space", ' '),
    ('\u{200B}', "a space without width", ' '), ('\u{FEFF}', "a byte order mark", ' '),
    ('\u{AD}', "a soft hyphen", '-'), ('\u{2010}', "a hyphen of Unicode", '-'), ('\u{2011}', "a no-break hyphen", '-'),
    ('\u{2012}', "a figure dash", '-'), ('\u{2013}', "an en dash", '-'), ('\u{2014}', "an em dash", '-'), ('\u{2212}', "a minus sign", '-'),
    ('\u{2018}', QUOTE, '\''), ('\u{2019}', QUOTE, '\''), ('\u{201C}', QUOTE, '"'), ('\u{201D}', QUOTE, '"'),
    ('\u{430}', CYRILLIC, 'a'), ('\u{435}', CYRILLIC, 'e'), ('\u{43E}', CYRILLIC, 'o'), ('\u{440}', CYRILLIC, 'p'),
    ('\u{441}', CYRILLIC, 'c'), ('\u{443}', CYRILLIC, 'y'), ('\u{445}', CYRILLIC, 'x'), ('\u{455}', CYRILLIC, 's'),
    ('\u{456}', CYRILLIC, 'i'), ('\u{458}', CYRILLIC, 'j'), ('\u{410}', CYRILLIC, 'A'), ('\u{412}', CYRILLIC, 'B'),
    ('\u{415}', CYRILLIC, 'E'), ('\u{41A}', CYRILLIC, 'K'), ('\u{41C}', CYRILLIC, 'M'), ('\u{41D}', CYRILLIC, 'H'),
    ('\u{41E}', CYRILLIC, 'O'), ('\u{420}', CYRILLIC, 'P'), ('\u{421}', CYRILLIC, 'C'), ('\u{422}', CYRILLIC, 'T'),
    ('\u{425}', CYRILLIC, 'X'), ('\u{3BF}', GREEK, 'o'), ('\u{3BD}', GREEK, 'v'), ('\u{391}', GREEK, 'A'),
    ('\u{392}', GREEK, 'B'), ('\u{395}', GREEK, 'E'), ('\u{397}', GREEK, 'H'), ('\u{399}', GREEK, 'I'),
    ('\u{39A}', GREEK, 'K'), ('\u{39C}', GREEK, 'M'), ('\u{39D}', GREEK, 'N'), ('\u{39F}', GREEK, 'O'),
    ('\u{3A1}', GREEK, 'P'), ('\u{3A4}', GREEK, 'T'), ('\u{3A7}', GREEK, 'X'), ('\u{396}', GREEK, 'Z'),
];

/// A name with characters of the keyboard in the place of those that look like them.
#[derive(Debug, Clone, PartialEq, Eq)]
pub struct Alike {
    /// The name, without spaces at its end.
    pub name: Vec<u8>,
    /// The first such character, in words.
    pub what: String,
    /// The one of the keyboard.
    pub meant: char,
}

/// What a name may be meant to be; None where it has no such character.
pub fn alike(name: &[u8]) -> Option<Alike> {
    if name.is_ascii() {
        return None;
    }
    let row = |character: char| ALIKE.iter().find(|(other, ..)| *other == character);
    let text = std::str::from_utf8(name).ok()?;
    let (first, what, meant) = text.chars().find_map(row)?;
    let written: String =
        text.chars().map(|character| row(character).map_or(character, |(.., meant)| *meant)).collect();
    let what = format!("{what} (U+{:04X})", u32::from(*first));
    Some(Alike { name: written.trim_end().as_bytes().to_vec(), what, meant: *meant })
}

#[cfg(test)]
mod tests {
    use super::*;

    #[test]
    fn what_looks_alike_is_named() {
        let found =
            |name: &str| alike(name.as_bytes()).map(|alike| (String::from_utf8(alike.name).unwrap(), alike.what));
        assert_eq!(found("a\u{2013}b"), Some(("a-b".into(), "an en dash (U+2013)".into())));
        assert_eq!(found("year\u{A0}"), Some(("year".into(), "a no-break space (U+00A0)".into())));
        assert_eq!(found("kn\u{443}th"), Some(("knyth".into(), "a Cyrillic letter (U+0443)".into())));
        assert_eq!([found("smith-2010"), found("m\u{FC}ller")], [None, None]);
        assert_eq!(alike(b"a\xFFb"), None);
    }
}
