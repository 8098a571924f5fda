//! What looks right in an editor and isn't what it looks like: a letter and an accent that is a character of its own, and a dash between pages that is no hyphen. And a formula that loses its capital letters.

use crate::advice::Seen;
use crate::doubts::Doubt;
use crate::terminal::plain;

/// Accents that are characters of their own, TeX's commands for them, and letters with them: each after the letter without.
const ACCENTS: [(char, &str, &str); 13] = [
    ('\u{300}', "`", "aàeèiìoòuùnǹAÀEÈIÌOÒUÙNǸ"),
    ('\u{301}', "'", "aáeéiíoóuúyýcćnńsśzźlĺrŕgǵAÁEÉIÍOÓUÚYÝCĆNŃSŚZŹLĹRŔ"),
    ('\u{302}', "^", "aâeêiîoôuûcĉgĝhĥjĵsŝwŵyŷAÂEÊIÎOÔUÛCĈGĜHĤJĴSŜWŴYŶ"),
    ('\u{303}', "~", "aãeẽiĩnñoõuũAÃEẼIĨNÑOÕUŨ"),
    ('\u{304}', "=", "aāeēiīoōuūAĀEĒIĪOŌUŪ"),
    ('\u{306}', "u", "aăeĕgğiĭoŏuŭAĂEĔGĞIĬOŎUŬ"),
    ('\u{307}', ".", "cċeėgġzżCĊEĖGĠIİZŻ"),
    ('\u{308}', "\"", "aäeëiïoöuüyÿAÄEËIÏOÖUÜYŸ"),
    ('\u{30A}', "r", "aåuůAÅUŮ"),
    ('\u{30B}', "H", "oőuűOŐUŰ"),
    ('\u{30C}', "v", "aǎcčdďeěgǧnňrřsštťzžCČDĎEĚGǦNŇRŘSŠTŤZŽ"),
    ('\u{327}', "c", "cçsştţCÇSŞTŢ"),
    ('\u{328}', "k", "aąeęiįuųAĄEĘIĮUŲ"),
];

/// A letter and an accent after it that is a character of its own.
pub fn accent(text: &[u8]) -> Option<Doubt> {
    // (all of these begin with one of two bytes)
    if !text.iter().any(|byte| matches!(byte, 0xCC | 0xCD)) {
        return None;
    }
    let text = std::str::from_utf8(text).ok()?;
    let pairs = text.char_indices().zip(text.chars().skip(1));
    pairs.filter(|((_, letter), _)| letter.is_alphabetic()).find_map(|((place, letter), accent)| {
        let (_, command, letters) = ACCENTS.iter().find(|(its, ..)| *its == accent)?;
        let all: Vec<char> = letters.chars().collect();
        let whole = all.chunks_exact(2).find(|pair| pair[0] == letter).map(|pair| pair[1]);
        let command = format!("`{{\\{command}{{{letter}}}}}`");
        let meant = whole.map_or(command.clone(), |whole| format!("`{whole}`, one letter, or {command}"));
        let names = vec![meant, letter.to_string(), format!("U+{:04X}", u32::from(accent))];
        Some(Doubt { place, seen: Seen::AccentApart, names })
    })
}

/// Signs that look like the hyphens between pages, and their names.
const DASHES: [(char, &str); 7] = [
    ('\u{2010}', "a hyphen"),
    ('\u{2011}', "a hyphen at which no line breaks"),
    ('\u{2012}', "a dash as wide as a digit"),
    ('\u{2013}', "an en dash"),
    ('\u{2014}', "an em dash"),
    ('\u{2015}', "a bar"),
    ('\u{2212}', "a minus sign"),
];

/// A dash between pages that isn't the hyphen by which a style knows that there are several.
pub fn dash(text: &[u8]) -> Option<Doubt> {
    if !text.contains(&0xE2) || text.contains(&b'-') {
        return None;
    }
    let text = std::str::from_utf8(text).ok()?;
    let (place, (sign, name)) =
        text.char_indices().find_map(|(at, sign)| Some((at, DASHES.iter().find(|(its, _)| *its == sign)?)))?;
    let has_both = text[..place].ends_with(|end: char| end.is_ascii_alphanumeric() || end == ' ');
    let meant = text.trim().split(*sign).map(str::trim).collect::<Vec<_>>().join("--");
    let names = vec![plain(meant.as_bytes()), format!("U+{:04X}, {name}", u32::from(*sign))];
    has_both.then_some(Doubt { place, seen: Seen::DashOfPages, names })
}

/// How long a formula is at most that is named.
const LONGEST_FORMULA: usize = 80;

/// A formula outside of braces with a capital letter, which a style that changes the case makes a small one.
pub fn lost_formula(text: &[u8]) -> Option<Doubt> {
    let (mut depth, mut start, mut made) = (0_i64, None, Vec::new());
    let mut is_escaped = false;
    for (at, byte) in text.iter().enumerate() {
        depth += i64::from(*byte == b'{') - i64::from(*byte == b'}');
        let is_sign = *byte == b'$' && !is_escaped && depth == 0;
        is_escaped = *byte == b'\\' && !is_escaped;
        match start {
            Some(from) if is_sign => {
                made.push(*byte);
                let formula: &[u8] = &text[from..=at];
                if formula != made && formula.len() <= LONGEST_FORMULA {
                    let names = vec![plain(formula), plain(&made)];
                    return Some(Doubt { place: from, seen: Seen::LosesCase, names });
                }
                start = None;
            }
            None if is_sign => (start, made) = (Some(at), vec![*byte]),
            Some(_) => made.push(if depth == 0 { byte.to_ascii_lowercase() } else { *byte }),
            None => {}
        }
    }
    None
}

#[cfg(test)]
mod tests {
    use super::*;

    #[test]
    fn accents_of_their_own_are_seen() {
        let said = |text: &str| accent(text.as_bytes()).map(|doubt| (doubt.place, doubt.names.join("|")));
        assert_eq!(said("Erdo\u{30B}s"), Some((3, "`ő`, one letter, or `{\\H{o}}`|o|U+030B".to_string())));
        assert_eq!(said("\u{E9} x\u{301}"), Some((3, "`{\\'{x}}`|x|U+0301".to_string())));
        for whole in ["Erdős", "o", "", " \u{301}", "\u{301}"] {
            assert_eq!(said(whole), None, "{whole}");
        }
        assert_eq!(accent(b"o\xCC\xFF"), None);
    }

    #[test]
    fn dashes_of_pages_are_seen() {
        let said = |text: &str| dash(text.as_bytes()).map(|doubt| doubt.names.join("|"));
        assert_eq!(said("85\u{2013}103").as_deref(), Some("85--103|U+2013, an en dash"));
        assert_eq!(said(" 85 \u{2212} 103").as_deref(), Some("85--103|U+2212, a minus sign"));
        for whole in ["85--103", "85-103", "85", "\u{2013}85", "85\u{E9}", ""] {
            assert_eq!(said(whole), None, "{whole}");
        }
    }

    #[test]
    fn formulas_keep_their_letters_in_braces() {
        let said = |text: &str| lost_formula(text.as_bytes()).map(|doubt| (doubt.place, doubt.names[1].clone()));
        assert_eq!(said("An $O(n \\log n)$ network"), Some((3, "$o(n \\log n)$".to_string())));
        assert_eq!(said("On $n$ and $K_{AB}$-theory"), Some((11, "$k_{AB}$".to_string())));
        for whole in ["An {$O(n)$} network", "On $n$", "A \\$ B \\$", "{A $K$ b}", "$K", "$x_{AB}$"] {
            assert_eq!(said(whole), None, "{whole}");
        }
    }
}
