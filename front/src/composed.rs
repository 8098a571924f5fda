//! Letters that are written in two ways: as one character, and as a letter with a combining mark after it. For BibTeX these are other keys.

/// A combining mark, letters, and what each of them is with it.
type Row = (char, &'static str, &'static str);

#[rustfmt::skip]
const COMPOSED: &[Row] = &[
    ('\u{300}', "aeiounAEIOUN", "àèìòùǹÀÈÌÒÙǸ"),
    ('\u{301}', "aeiouyclnrszAEIOUYCLNRSZ", "áéíóúýćĺńŕśźÁÉÍÓÚÝĆĹŃŔŚŹ"),
    ('\u{302}', "aeioucghjswyAEIOUCGHJSWY", "âêîôûĉĝĥĵŝŵŷÂÊÎÔÛĈĜĤĴŜŴŶ"),
    ('\u{303}', "anoiuANOIU", "ãñõĩũÃÑÕĨŨ"),
    ('\u{304}', "aeiouAEIOU", "āēīōūĀĒĪŌŪ"),
    ('\u{306}', "aegiouAEGIOU", "ăĕğĭŏŭĂĔĞĬŎŬ"),
    ('\u{307}', "cegzCEGIZ", "ċėġżĊĖĠİŻ"),
    ('\u{308}', "aeiouyAEIOUY", "äëïöüÿÄËÏÖÜŸ"),
    ('\u{30A}', "auAU", "åůÅŮ"),
    ('\u{30B}', "ouOU", "őűŐŰ"),
    ('\u{30C}', "cdelnrstzaiouCDELNRSTZAIOU", "čďěľňřšťžǎǐǒǔČĎĚĽŇŘŠŤŽǍǏǑǓ"),
    ('\u{326}', "stST", "șțȘȚ"),
    ('\u{327}', "cgklnrstCGKLNRST", "çģķļņŗşţÇĢĶĻŅŖŞŢ"),
    ('\u{328}', "aeiuAEIU", "ąęįųĄĘĮŲ"),
];

/// What a letter is with this combining mark.
fn with_mark(letter: char, mark: char) -> Option<char> {
    let (_, letters, composed) = COMPOSED.iter().find(|row| row.0 == mark)?;
    composed.chars().nth(letters.chars().position(|other| other == letter)?)
}

/// A name with one character for each letter that has a combining mark; None where it has no such letter.
pub fn composed(name: &[u8]) -> Option<Vec<u8>> {
    if name.is_ascii() {
        return None;
    }
    let (mut made, mut is_other) = (String::new(), false);
    for character in std::str::from_utf8(name).ok()?.chars() {
        match made.chars().next_back().and_then(|letter| with_mark(letter, character)) {
            Some(whole) => {
                made.pop();
                made.push(whole);
                is_other = true;
            }
            None => made.push(character),
        }
    }
    is_other.then(|| made.into_bytes())
}

#[cfg(test)]
mod tests {
    use super::*;

    #[test]
    fn marks_are_put_on_their_letters() {
        let made = |name: &str| composed(name.as_bytes()).map(|made| String::from_utf8(made).unwrap());
        assert_eq!(made("mu\u{308}ller-c\u{327}e\u{301}"), Some("müller-çé".into()));
        assert_eq!(made("Z\u{30C}iz\u{30C}ek"), Some("Žižek".into()));
        assert_eq!([made("müller"), made("muller"), made("x\u{308}"), made("\u{308}u")], [None, None, None, None]);
        assert_eq!(composed(b"u\xCC\x88\xFF"), None);
    }

    #[test]
    fn each_letter_has_its_own() {
        for (mark, letters, composed) in COMPOSED {
            assert_eq!(letters.chars().count(), composed.chars().count(), "{mark:?}");
        }
    }
}
