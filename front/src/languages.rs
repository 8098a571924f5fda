//! What the letters of a language sort as. The rules are those of primary weights alone: of the default table of Unicode 15.0 (DUCET), and of CLDR's tailorings as Perl's
//! `Unicode::Collate::Locale` 1.31 has them. So `v` and `w` of Swedish and Finnish, which CLDR tells apart today, are two letters here.

/// A byte that sorts after each letter of ASCII; `purify$` keeps it, and it has no width. A `*` stands for it in the tables.
pub const AFTER: u8 = 0xFF;

/// Small letters, and what each of them sorts as. Of several letters that are one in a language, as `ch`, it is what the first of them sorts as; the others stay.
type Rule = (&'static str, &'static str);

/// A language: its name and its own rules.
type Row = (&'static str, &'static [Rule]);

/// What letters sort as in any language that has no rule for them.
#[rustfmt::skip]
const ROOT: [Rule; 61] = [
    ("àáâãäåāăąǎǟǡǻȁȃȧḁạảấầẩẫậắằẳẵặẚ", "a"), ("ⱥ", "a*"), ("æǣǽ", "ae"), ("ḃḅḇ", "b"), ("ƀƃɓ", "b*"),
    ("çćĉċčḉ", "c"), ("ƈȼ", "c*"), ("ðďđḋḍḏḑḓ", "d"), ("ƌȡẟɖɗ", "d*"), ("ȸ", "db"), ("ǆǳǅǲ", "dz"),
    ("èéêëēĕėęěȅȇȩḕḗḙḛḝẹẻẽếềểễệ", "e"), ("ǝɇəɛ", "e*"), ("ḟ", "f"), ("ƒ", "f*"), ("ĝğġģǧǵḡ", "g"), ("ƣǥɠɣ", "g*"),
    ("ĥħȟḣḥḧḩḫẖ", "h"), ("ƕ", "h*"), ("ìíîïĩīĭįǐȉȋḭḯỉị", "i"), ("ıɨɩ", "i*"), ("ĳ", "ij"), ("ĵǰ", "j"), ("ȷɉ", "j*"),
    ("ķǩḱḳḵ", "k"), ("ƙ", "k*"), ("ĺļľŀłḷḹḻḽ", "l"), ("ƚƛȴ", "l*"), ("ǉǈ", "lj"), ("ỻ", "ll"), ("ḿṁṃ", "m"), ("ɯ", "m*"),
    ("ñńņňŉǹṅṇṉṋ", "n"), ("ŋƞȵɲ", "n*"), ("ǌǋ", "nj"), ("òóôõöøōŏőơǒǫǭǿȍȏȫȭȯȱṍṏṑṓọỏốồổỗộớờởỡợ", "o"), ("ȣɔɵ", "o*"),
    ("œ", "oe"), ("ṕṗ", "p"), ("ƥ", "p*"), ("ĸɋ", "q*"), ("ȹ", "qp"), ("ŕŗřȑȓṙṛṝṟ", "r"), ("ɍʀ", "r*"),
    ("śŝşšſșṡṣṥṧṩẛ", "s"), ("ƪȿẜẝʃ", "s*"), ("ß", "ss"), ("ţťțṫṭṯṱẗ", "t"), ("ŧƫƭȶʈⱦ", "t*"),
    ("ùúûüũūŭůűųưǔǖǘǚǜȕȗṳṵṷṹṻụủứừửữự", "u"), ("ʉʊ", "u*"), ("ṽṿ", "v"), ("ỽʋʌ", "v*"), ("ŵẁẃẅẇẉẘ", "w"),
    ("ẋẍ", "x"), ("ýÿŷȳẏẙỳỵỷỹ", "y"), ("ƴȝɏỿ", "y*"), ("źżžẑẓẕ", "z"), ("þƅƨƶƹƺƻƽƿǯȥɀɂʒ", "z*"), ("ƾ", "ts"), ("ƍ", "zw"),
];

/// How many places letters have in tables: the Latin letters that most texts have.
pub const PLACES: usize = 0x330;

/// The place of a letter in a table.
pub const fn place_of(letter: u32) -> Option<usize> {
    match letter as usize {
        number @ 0x80..=0x2AF => Some(number - 0x80),
        number @ 0x1E00..=0x1EFF => Some(number - 0x1E00 + 0x230),
        _ => None,
    }
}

/// The letter of two or three bytes that begins at this place of a text in UTF-8, and where it ends.
const fn letter_at(text: &[u8], at: usize) -> (u32, usize) {
    let (first, second) = (text[at] as u32, (text[at + 1] & 0x3F) as u32);
    if first < 0xE0 {
        return ((first & 0x1F) << 6 | second, at + 2);
    }
    ((first & 0xF) << 12 | second << 6 | (text[at + 2] & 0x3F) as u32, at + 3)
}

/// Writes a number at the places of these letters.
const fn with_rule(mut table: [u8; PLACES], letters: &[u8], number: u8) -> [u8; PLACES] {
    let mut at = 0;
    while at < letters.len() {
        let (letter, after) = letter_at(letters, at);
        if let Some(place) = place_of(letter) {
            table[place] = number;
        }
        at = after;
    }
    table
}

/// At the place of each letter the number of its rule for any language, counted from 1; 0 where there is none.
const RULE_OF: [u8; PLACES] = {
    let (mut table, mut rule) = ([0; PLACES], 0);
    while rule < ROOT.len() {
        table = with_rule(table, ROOT[rule].0.as_bytes(), rule as u8 + 1);
        rule += 1;
    }
    table
};

/// What a letter sorts as in any language that has no rule for it.
fn of_all(small: char) -> Option<&'static str> {
    let rule = match place_of(u32::from(small)) {
        Some(place) => usize::from(RULE_OF[place]).checked_sub(1).map(|rule| &ROOT[rule]),
        None => ROOT.iter().find(|(letters, _)| letters.contains(small)),
    };
    rule.map(|(_, written)| *written)
}

/// The languages. Those without a rule of their own sort by the letter without its marks.
#[rustfmt::skip]
const LANGUAGES: [Row; 19] = [
    ("plain", &[]), ("de", &[]), ("en", &[]), ("fr", &[]), ("it", &[]), ("nl", &[]), ("pt", &[]),
    ("de-phonebook", &[("ä", "ae"), ("ö", "oe"), ("ü", "ue")]),
    ("es", &[("ñ", "n*")]),
    ("pl", &[("ą", "a*"), ("ć", "c*"), ("ę", "e*"), ("ł", "l*"), ("ń", "n*"), ("ó", "o*"), ("ś", "s*"), ("ź", "z*"), ("ż", "z**")]),
    ("cs", &[("č", "c*"), ("ch", "h*"), ("ř", "r*"), ("š", "s*"), ("ž", "z*")]),
    ("sk", &[("ä", "a*"), ("č", "c*"), ("ch", "h*"), ("ô", "o*"), ("ř", "r*"), ("š", "s*"), ("ž", "z*")]),
    ("hu", &[
        ("cs", "c*"), ("dz", "d*"), ("dzs", "d**"), ("gy", "g*"), ("ly", "l*"), ("ny", "n*"), ("öőȫ", "o*"), ("sz", "s*"), ("ty", "t*"), ("üűǖǘǚǜ", "u*"), ("zs", "z*"),
        // Doubled, they are written with their first letter doubled.
        ("ccs", "c*s"), ("ddz", "d*z"), ("ddzs", "d**zs"), ("ggy", "g*y"), ("lly", "l*y"), ("nny", "n*y"), ("ssz", "s*z"), ("tty", "t*y"), ("zzs", "z*s"),
    ]),
    ("sv", &[("å", "*a"), ("äæęǟǣǽ", "*b"), ("öøőœôȫǿ", "*c"), ("üűǖǘǚǜ", "y"), ("þ", "th")]),
    // (`aa` is another way to write `å`)
    ("da", &[("æäęǟǣǽ", "*a"), ("øöőœȫǿ", "*b"), ("åǻ", "*ca"), ("aa", "*c"), ("üűǖǘǚǜ", "y"), ("þ", "th")]),
    ("nb", &[("æäęǟǣǽ", "*a"), ("øöőœȫǿ", "*b"), ("åǻ", "*ca"), ("aa", "*c"), ("üűǖǘǚǜ", "y"), ("þ", "th")]),
    ("fi", &[("åǻ", "*a"), ("äæǟǣǽ", "*b"), ("öøȫǿ", "*c"), ("üǖǘǚǜ", "y")]),
    ("tr", &[("ç", "c*"), ("ğ", "g*"), ("ı", "h*"), ("ö", "o*"), ("ş", "s*"), ("ü", "u*")]),
    ("hr", &[("č", "c*"), ("ć", "c**"), ("dž", "d*"), ("ǆ", "d*z*"), ("đ", "d**"), ("lj", "l*"), ("ǉ", "l*j"), ("nj", "n*"), ("ǌ", "n*j"), ("š", "s*"), ("ž", "z*")]),
];

/// The names of all languages, as they are listed where another one is refused.
pub fn names() -> String {
    LANGUAGES.map(|row| row.0).join(", ")
}

/// A language, read from its row.
#[derive(Debug, Clone, PartialEq, Eq)]
pub struct Language {
    pub name: &'static str,
    /// Its own rules.
    own: &'static [Rule],
    /// Letters that are one, the longest first, and what the first of them sorts as.
    several: Vec<(&'static str, Vec<u8>)>,
}

/// What a rule says that a letter sorts as.
fn key(written: &str) -> Vec<u8> {
    written.bytes().map(|byte| if byte == b'*' { AFTER } else { byte }).collect()
}

/// Whether the letters of a rule are one letter each: some of ASCII are one together with those that follow.
fn are_single(letters: &str) -> bool {
    !letters.contains(|letter: char| letter.is_ascii())
}

impl Language {
    /// The language of this name.
    pub fn named(name: &[u8]) -> Option<Language> {
        let (name, own) = *LANGUAGES.iter().find(|row| row.0.as_bytes() == name)?;
        let mut several: Vec<(&str, Vec<u8>)> =
            own.iter().filter(|rule| !are_single(rule.0)).map(|(letters, written)| (*letters, key(written))).collect();
        several.sort_by_key(|(letters, _)| std::cmp::Reverse(letters.chars().count()));
        Some(Language { name, own, several })
    }

    /// Whether `I` is the capital of `ı`, and `İ` that of `i`.
    pub fn is_dotless(&self) -> bool {
        self.name == "tr"
    }

    /// Whether it has rules for letters of ASCII.
    pub fn has_rules_for_ascii(&self) -> bool {
        self.is_dotless() || !self.several.is_empty()
    }

    /// What a small letter outside ASCII sorts as; None where it isn't a Latin one.
    pub fn key(&self, small: char) -> Option<Vec<u8>> {
        let mut own = self.own.iter().filter(|rule| are_single(rule.0));
        let of_own = own.find(|(letters, _)| letters.contains(small)).map(|(_, written)| *written);
        of_own.or_else(|| of_all(small)).map(key)
    }

    /// What the first letter of a text sorts as by being one with those that follow.
    pub fn key_of_several(&self, text: &str) -> Option<&[u8]> {
        let first = text.bytes().next()?.to_ascii_lowercase();
        let begins = |letters: &str| {
            let mut small = text.chars().flat_map(char::to_lowercase);
            letters.as_bytes()[0] == first && letters.chars().all(|letter| small.next() == Some(letter))
        };
        self.several.iter().find(|(letters, _)| begins(letters)).map(|(_, key)| key.as_slice())
    }
}

#[cfg(test)]
mod tests {
    use super::*;

    fn language(name: &str) -> Language {
        Language::named(name.as_bytes()).unwrap()
    }

    #[test]
    fn languages_are_known_by_their_names() {
        assert!(names().starts_with("plain, de, en, fr") && names().ends_with("tr, hr"));
        assert!(LANGUAGES.iter().all(|(name, _)| language(name).name == *name));
        assert_eq!(Language::named(b"xx"), None);
        assert_eq!(Language::named(b""), None);
    }

    #[test]
    fn rules_of_a_language_come_before_those_of_all() {
        let keys = |name: &str| ['ä', 'é', 'å'].map(|letter| language(name).key(letter));
        assert_eq!(keys("plain"), [key("a"), key("e"), key("a")].map(Some));
        assert_eq!(keys("de-phonebook"), [key("ae"), key("e"), key("a")].map(Some));
        assert_eq!(keys("da"), [key("*a"), key("e"), key("*ca")].map(Some));
        assert_eq!(language("sv").key('я'), None);
    }

    #[test]
    fn the_longest_of_several_letters_counts() {
        let hungarian = language("hu");
        let keys = ["dzsida", "Dzeta", "DDZS", "d", "cs"].map(|text| hungarian.key_of_several(text));
        assert_eq!(keys, [Some(&key("d**")[..]), Some(&key("d*")), Some(&key("d**zs")), None, Some(&key("c*"))]);
        assert_eq!(language("hr").key_of_several("Džamonja"), Some(&key("d*")[..]));
        assert_eq!(language("de").key_of_several("ch"), None);
    }

    #[test]
    fn the_table_has_the_rules_of_all_letters() {
        let listed = |small| ROOT.iter().find(|(letters, _)| letters.contains(small)).map(|(_, written)| *written);
        for small in ('\u{80}'..='\u{3000}').chain("Я“ff".chars()) {
            assert_eq!(of_all(small), listed(small), "{small}");
        }
    }

    #[test]
    fn each_letter_has_one_rule() {
        for (name, rules) in LANGUAGES.iter().chain(&[("root", &ROOT[..])]) {
            let mut letters: Vec<char> =
                rules.iter().filter(|rule| are_single(rule.0)).flat_map(|rule| rule.0.chars()).collect();
            let count = letters.len();
            letters.sort();
            letters.dedup();
            assert_eq!(letters.len(), count, "{name}");
        }
        assert!(LANGUAGES.iter().all(|(_, rules)| rules.len() <= 25));
    }
}
