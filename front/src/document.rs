//! The document whose citations a job has, where it stands beside the `.aux` file: `paper.tex` beside `paper.aux`. It is read for hints alone.

use crate::beside;
use crate::job::{File, Files};
use crate::search::path_of;
use crate::text::{Text, find};
use std::collections::{HashMap, HashSet};
use std::fs;
use std::io::Read;
use std::ops::Range;

/// A longer document isn't looked at.
const MOST_READ: u64 = 1 << 24;

/// Commands that read other files, in which more is cited.
const READ_OTHERS: [&[u8]; 5] = [b"\\input{", b"\\include{", b"\\subfile", b"\\import", b"\\subimport"];

/// Encodings that aren't UTF-8, as `inputenc` names them.
const OTHER_ENCODINGS: [&[u8]; 8] =
    [b"latin", b"ansinew", b"cp125", b"cp850", b"cp437", b"applemac", b"macce", b"koi8"];

/// Styles whose labels don't fit citations by author and year.
const PLAIN_STYLES: [&str; 7] = ["plain", "unsrt", "alpha", "abbrv", "ieeetr", "acm", "siam"];

/// A document.
#[derive(Debug, Clone)]
pub struct Document {
    /// The file.
    pub file: File,
    /// Its words, where all that it cites stands in it.
    words: Option<HashSet<Vec<u8>>>,
    /// Where each key, database and style stands first in it.
    named: Names,
    /// For each character that LaTeX takes for a key, since no brace follows a `\\cite`, that citation.
    unbraced: HashMap<Vec<u8>, Unbraced>,
}

/// Where each name of a kind stands first.
type Names = HashMap<(Named, Vec<u8>), Spot>;

/// A citation whose key has no braces.
#[derive(Debug, Clone, PartialEq, Eq)]
pub struct Unbraced {
    /// The command, without its backslash.
    pub command: Vec<u8>,
    /// What may be meant as the key: the option that stands after it, or the word.
    pub word: Vec<u8>,
    /// The number of its line.
    pub number: usize,
}

/// A place of the document: its line, from its beginning to its end, the line's number, and the place in it.
#[derive(Debug, Clone)]
struct Spot {
    line: Range<usize>,
    number: usize,
    place: usize,
}

/// What an argument of the document names.
#[derive(Debug, Clone, Copy, PartialEq, Eq, Hash)]
pub enum Named {
    Key,
    Database,
    Style,
}

impl Spot {
    fn new(lines: &Text<'_>, place: usize) -> Spot {
        let number = lines.line_of(place);
        let (start, end) = lines.span(number);
        Spot { line: start..end, number, place: place - start }
    }
}

/// Keys that are typed in a document where a citation may be meant.
#[derive(Debug, Clone, PartialEq, Eq)]
pub struct Typed<'d> {
    pub keys: Vec<&'d [u8]>,
    /// All that is typed, with its brackets.
    pub text: &'d [u8],
    pub line: &'d [u8],
    pub number: usize,
    pub place: usize,
}

/// Where the text of a document begins, and how long its keys in brackets may be.
const BEGIN_DOCUMENT: &[u8] = b"\\begin{document}";
const LONGEST_TYPED: usize = 200;

/// Adds the keys that are typed in a line, from a place on.
fn typed_in<'d>(
    line: &'d [u8],
    from: usize,
    number: usize,
    is_key: &impl Fn(&[u8]) -> bool,
    found: &mut Vec<Typed<'d>>,
) {
    let mut at = from;
    while let Some(before) = line[at..].iter().position(|byte| b"[(@".contains(byte)) {
        let place = at + before;
        let typed = text_typed_at(line, place).map(|text| (text, keys_typed(text)));
        let typed = typed.filter(|(_, keys)| keys.iter().all(|key| may_be_typed(key) && is_key(key)));
        at = place + typed.as_ref().map_or(1, |(text, _)| text.len());
        found.extend(typed.map(|(text, keys)| Typed { keys, text, line, number, place }));
    }
}

/// What is typed from a bracket or an `@` on; None where the sign is of a command, a formula or an address.
fn text_typed_at(line: &[u8], place: usize) -> Option<&[u8]> {
    let before = &line[..place];
    // (an option follows its command, or that and its star or another argument, also after spaces)
    let is_of_command = |before: &[u8]| {
        let letters = before.iter().rev().take_while(|byte| byte.is_ascii_alphabetic()).count();
        before[..before.len() - letters].ends_with(b"\\") || before.ends_with(b"*")
    };
    let is_free = before.last().is_none_or(|byte| byte.is_ascii_whitespace() || b"~-\"'`(".contains(byte));
    if !is_free || is_of_command(before.trim_ascii_end()) {
        return None;
    }
    let rest = &line[place..line.len().min(place + LONGEST_TYPED)];
    let is_of_key = |byte: &&u8| byte.is_ascii_alphanumeric() || b"-_:/.+".contains(byte) || !byte.is_ascii();
    let end = match rest[0] {
        b'[' => rest.iter().position(|byte| *byte == b']')? + 1,
        b'(' => rest.iter().position(|byte| *byte == b')')? + 1,
        _ => 1 + rest[1..].iter().take_while(is_of_key).count(),
    };
    let text = &rest[..end];
    Some(text.strip_suffix(b".").filter(|_| rest[0] == b'@').unwrap_or(text))
}

/// The keys in what is typed, without brackets and `@`.
fn keys_typed(text: &[u8]) -> Vec<&[u8]> {
    let is_bracket = |byte: &u8| b"[]()".contains(byte);
    let inside = if text.first().is_some_and(is_bracket) { &text[1..text.len() - 1] } else { text };
    let keys = inside.split(|byte| matches!(byte, b',' | b';')).map(<[u8]>::trim_ascii);
    keys.map(|key| key.strip_prefix(b"@").unwrap_or(key)).collect()
}

/// Whether a key is more than a number, such as one of a formula or of a list.
fn may_be_typed(key: &[u8]) -> bool {
    key.len() > 1 && key.iter().any(u8::is_ascii_alphabetic)
}

/// How much is read of each `.aux` file that may include another one, and of how many of them.
const MOST_OF_AUX: u64 = 1 << 20;
const MOST_FILES: usize = 100;

/// What a command's arguments name; None where it names nothing of a bibliography.
fn named_by(command: &[u8]) -> Option<Named> {
    match command {
        b"bibliography" => Some(Named::Database),
        b"bibliographystyle" => Some(Named::Style),
        _ => find(&command.to_ascii_lowercase(), b"cite").map(|_| Named::Key),
    }
}

/// Where the keys, databases and styles of a text of TeX stand that has no comments; and its citations without braces.
fn names_in(text: &[u8]) -> (Names, HashMap<Vec<u8>, Unbraced>) {
    let (lines, mut found, mut unbraced, mut at) = (Text::new(text), HashMap::new(), HashMap::new(), 0);
    while let Some(before) = text[at..].iter().position(|byte| *byte == b'\\') {
        let start = at + before + 1;
        let length = text[start..].iter().take_while(|byte| byte.is_ascii_alphabetic()).count();
        at = start + length.max(1).min(text.len() - start);
        if let Some(named) = named_by(&text[start..start + length]) {
            for (piece, place) in pieces_of_argument(text, at) {
                found.entry((named, piece.to_vec())).or_insert_with(|| Spot::new(&lines, place));
            }
            if let Some((key, word)) = unbraced_key(text, at).filter(|_| named == Named::Key) {
                let place = key.as_ptr() as usize - text.as_ptr() as usize;
                let (command, number) = (text[start..at].to_vec(), lines.line_of(place));
                found.entry((named, key.to_vec())).or_insert_with(|| Spot::new(&lines, place));
                unbraced.entry(key.to_vec()).or_insert(Unbraced { command, word: word.to_vec(), number });
            }
        }
    }
    (found, unbraced)
}

/// The character that LaTeX takes for the key of a citation whose command ends here and has no brace after it, and what may be meant as the key.
fn unbraced_key(text: &[u8], from: usize) -> Option<(&[u8], &[u8])> {
    let (mut rest, mut option) = (&text[from..], None);
    rest = rest.strip_prefix(b"*").unwrap_or(rest).trim_ascii_start();
    while let Some(inside) = rest.strip_prefix(b"[") {
        let end = inside.iter().position(|byte| *byte == b']')?;
        option = Some(inside[..end].trim_ascii());
        rest = inside[end + 1..].trim_ascii_start();
    }
    let first = rest.first().filter(|byte| !b"{}\\#$%&~".contains(byte))?;
    // (a letter of UTF-8 is one character as LaTeX reads it)
    let length = 1 + rest[1..].iter().take_while(|byte| !first.is_ascii() && **byte & 0xC0 == 0x80).count();
    let is_of_word = |byte: &&u8| !byte.is_ascii_whitespace() && !b"\\{}[](),;~".contains(byte);
    let inside = rest.strip_prefix(b"(").unwrap_or(rest);
    let word = &inside[..inside.iter().take_while(is_of_word).count()];
    let word = word.strip_suffix(b".").unwrap_or(word);
    Some((&rest[..length], option.unwrap_or(word)))
}

/// The pieces of the argument after a command that ends here, with the place of each; options in brackets are passed over.
fn pieces_of_argument(text: &[u8], from: usize) -> Vec<(&[u8], usize)> {
    let mut at = from + usize::from(text.get(from) == Some(&b'*'));
    while text.get(at) == Some(&b'[') {
        let Some(end) = find(&text[at..], b"]") else { return Vec::new() };
        at += end + 1;
    }
    let Some(inside) = text.get(at..).and_then(|rest| rest.strip_prefix(b"{")) else { return Vec::new() };
    let Some(end) = inside.iter().position(|byte| matches!(byte, b'{' | b'}')) else { return Vec::new() };
    let pieces = inside[..end].split(|byte| *byte == b',').map(<[u8]>::trim_ascii);
    pieces.map(|piece| (piece, piece.as_ptr() as usize - text.as_ptr() as usize)).collect()
}

/// The job that includes the top `.aux` file of this one, which `\include` has made; None where it is no such file, and the name is None where no other names it.
pub fn job_that_includes(files: &Files) -> Option<Option<Vec<u8>>> {
    find(files.bytes(&files.top)?, b"\\@setckpt{")?;
    let line = [b"\\@input{", &files.top[..], b"}"].concat();
    let includes = |name: &Vec<u8>| {
        let mut bytes = Vec::new();
        let read = fs::File::open(path_of(name)).and_then(|file| file.take(MOST_OF_AUX).read_to_end(&mut bytes));
        read.is_ok() && find(&bytes, &line).is_some()
    };
    let others = beside::names(".aux").into_iter().filter(|name| *name != files.top).take(MOST_FILES);
    Some(others.filter(|name| fs::metadata(path_of(name)).is_ok_and(|data| data.is_file())).find(includes))
}

impl Document {
    /// The document of a job; None where none stands beside its `.aux` file.
    pub fn of(files: &Files) -> Option<Document> {
        let name = [files.top.strip_suffix(b".aux")?, b".tex"].concat();
        let found = fs::metadata(path_of(&name)).ok().filter(|data| data.is_file() && data.len() <= MOST_READ)?;
        let mut bytes = Vec::with_capacity(found.len() as usize);
        fs::File::open(path_of(&name)).ok()?.take(MOST_READ).read_to_end(&mut bytes).ok()?;
        Some(Document::new(File { path: name.clone(), name, bytes: Some(bytes) }))
    }

    fn new(file: File) -> Document {
        let bytes = file.bytes.as_deref().unwrap_or(b"");
        let parts = |byte: &u8| byte.is_ascii_whitespace() || matches!(byte, b'{' | b'}' | b',' | b'[' | b']');
        let is_whole = !READ_OTHERS.iter().any(|command| find(bytes, command).is_some());
        let words = || bytes.split(parts).filter(|word| !word.is_empty()).map(<[u8]>::to_vec).collect();
        let words = is_whole.then(words);
        let text: Vec<u8> = bytes.split_inclusive(|byte| *byte == b'\n').flat_map(blank_comment).collect();
        let (named, unbraced) = names_in(&text);
        Document { file, words, named, unbraced }
    }

    /// Where it names a key, a database or a style first: the line, its number, and the place in it.
    pub fn place_of(&self, named: Named, name: &[u8]) -> Option<(&[u8], usize, usize)> {
        let spot = self.named.get(&(named, name.to_vec()))?;
        Some((self.bytes().get(spot.line.clone())?, spot.number, spot.place))
    }

    /// The databases or styles that it names, in their order, and the number of the line of each.
    pub fn names(&self, named: Named) -> Vec<(&[u8], usize)> {
        let mut found: Vec<(usize, &[u8], usize)> = self
            .named
            .iter()
            .filter(|((its, _), _)| *its == named)
            .map(|((_, name), spot)| (spot.line.start + spot.place, &name[..], spot.number))
            .collect();
        found.sort_unstable();
        found.into_iter().map(|(_, name, number)| (name, number)).collect()
    }

    /// The keys that are typed in square brackets, as `[knuth84]`, and the number of the line of each.
    pub fn typed_keys(&self, is_key: impl Fn(&[u8]) -> bool) -> Vec<(&[u8], usize)> {
        let are_keys = |keys: &[u8]| keys.split(|byte| *byte == b',').all(|key| is_key(key.trim_ascii()));
        let typed = self.lines().flat_map(|(number, line)| {
            let after = line.split(|byte| *byte == b'[').skip(1);
            after.filter_map(move |rest| Some((&rest[..rest.iter().position(|byte| *byte == b']')?], number)))
        });
        typed.filter(|(keys, _)| are_keys(keys)).collect()
    }

    /// The keys that are typed where a citation may be meant: as `[knuth84]`, `[@knuth84]`, `(knuth84)` or `@knuth84`. A key without a digit is one only where it is no word of the text.
    pub fn typed(&self, is_key: impl Fn(&[u8]) -> bool) -> Vec<Typed<'_>> {
        let text = self.bytes();
        let begin = find(text, BEGIN_DOCUMENT).map_or(0, |at| at + BEGIN_DOCUMENT.len());
        let (mut found, mut start) = (Vec::new(), 0);
        for (index, line) in text.split_inclusive(|byte| *byte == b'\n').enumerate() {
            let whole = without_comment(line).trim_ascii_end();
            let from = begin.saturating_sub(start).min(whole.len());
            typed_in(whole, from, index + 1, &is_key, &mut found);
            start += line.len();
        }
        let is_sure = |typed: &Typed<'_>| typed.keys.iter().all(|key| key.iter().any(u8::is_ascii_digit));
        if !found.iter().all(is_sure) {
            let words = self.plain_words();
            let is_no_word = |key: &&[u8]| !words.contains(&key.to_ascii_lowercase());
            let is_bare = |typed: &Typed<'_>| typed.text.starts_with(b"(");
            found.retain(|typed| is_sure(typed) || !is_bare(typed) && typed.keys.iter().all(is_no_word));
        }
        found
    }

    /// The words that stand between whitespace and signs of a sentence, in small letters.
    fn plain_words(&self) -> HashSet<Vec<u8>> {
        let lines = self.lines().flat_map(|(_, line)| line.split(u8::is_ascii_whitespace));
        let words = lines.map(|word| word.trim_ascii_end());
        let bare = words.map(|word| word.strip_suffix(b".").or(word.strip_suffix(b",")).unwrap_or(word));
        bare.filter(|word| word.first().is_some_and(u8::is_ascii_alphabetic)).map(<[u8]>::to_ascii_lowercase).collect()
    }

    /// The line that reads this part of the document, and its number.
    pub fn line_of_part(&self, stem: &[u8]) -> Option<(usize, &[u8])> {
        let reads = |line: &[u8]| {
            [&b"\\include{"[..], b"\\input{"]
                .iter()
                .any(|command| find(line, &[command, stem, b"}"].concat()).is_some())
        };
        self.lines().find(|(_, line)| reads(line))
    }

    fn bytes(&self) -> &[u8] {
        self.file.bytes.as_deref().unwrap_or(b"")
    }

    /// Its lines without their comments, with their numbers.
    fn lines(&self) -> impl Iterator<Item = (usize, &[u8])> {
        let lines = self.bytes().split(|byte| *byte == b'\n').enumerate();
        lines.map(|(index, line)| (index + 1, without_comment(line)))
    }

    /// Whether a key is neither cited in it nor named in another way. It may be in a file that it reads, or be one by which a class steers its style: then it isn't said to be missing.
    pub fn lacks(&self, key: &[u8]) -> bool {
        self.words.as_ref().is_some_and(|words| !words.contains(key)) && find(key, b"ontrol").is_none()
    }

    /// The citation without braces of which LaTeX takes this character for the key.
    pub fn unbraced(&self, key: &[u8]) -> Option<&Unbraced> {
        self.unbraced.get(key)
    }

    /// Whether it has a citation whose key is made of the argument of a macro, so that the key needn't stand in it.
    pub fn has_macro_of_keys(&self) -> bool {
        self.named.keys().any(|(named, name)| *named == Named::Key && name.contains(&b'#'))
    }

    /// Whether it was changed after the file at this path.
    pub fn is_newer_than(&self, path: &[u8]) -> bool {
        let changed = |path: &[u8]| fs::metadata(path_of(path)).and_then(|data| data.modified()).ok();
        changed(&self.file.path).zip(changed(path)).is_some_and(|(its, other)| its > other)
    }

    /// The line of a command with an argument, such as `\bibliography`.
    pub fn line_of(&self, command: &[u8]) -> Option<usize> {
        let whole = [command, b"{"].concat();
        self.lines().find(|(_, line)| find(line, &whole).is_some()).map(|(number, _)| number)
    }

    /// Whether it says that its letters are written in another way than UTF-8.
    pub fn has_other_encoding(&self) -> bool {
        let of_encoding =
            |line: &[u8]| [&b"inputenc"[..], b"inputencoding"].iter().any(|word| find(line, word).is_some());
        let is_other = |line: &[u8]| OTHER_ENCODINGS.iter().any(|name| find(line, name).is_some());
        self.lines().any(|(_, line)| of_encoding(line) && is_other(line))
    }

    /// The line of `\bibliographystyle`, where the package `natbib` cites by author and year and this style gives it neither.
    pub fn line_of_unfit_style(&self, style: &[u8]) -> Option<usize> {
        let is_plain = PLAIN_STYLES.iter().any(|name| style == name.as_bytes());
        let has = |line: &[u8], words: &[&[u8]]| words.iter().any(|word| find(line, word).is_some());
        let of_natbib = |line: &[u8]| has(line, &[b"natbib"]) && has(line, &[b"\\usepackage", b"\\RequirePackage"]);
        let is_natbib = is_plain && self.lines().any(|(_, line)| of_natbib(line));
        let sets = [&b"natbib"[..], b"\\setcitestyle", b"\\bibpunct", b"\\citestyle"];
        let by_number = |line: &[u8]| has(line, &sets[2..]) || has(line, &sets) && has(line, &[b"numbers", b"super"]);
        let is_other = is_natbib && self.lines().any(|(_, line)| by_number(line));
        self.line_of(b"\\bibliographystyle").filter(|_| is_natbib && !is_other)
    }
}

/// A line with its end, in which spaces stand for a comment.
fn blank_comment(line: &[u8]) -> Vec<u8> {
    let end = without_comment(line).len();
    let blank = |(at, byte): (usize, &u8)| if at < end || *byte == b'\n' { *byte } else { b' ' };
    line.iter().enumerate().map(blank).collect()
}

/// A line of TeX without its comment.
fn without_comment(line: &[u8]) -> &[u8] {
    let is_comment = |at: &usize| line[*at] == b'%' && at.checked_sub(1).is_none_or(|before| line[before] != b'\\');
    &line[..(0..line.len()).find(is_comment).unwrap_or(line.len())]
}

#[cfg(test)]
mod tests {
    use super::*;

    fn document(text: &str) -> Document {
        Document::new(File { name: b"a.tex".to_vec(), bytes: Some(text.into()), path: Vec::new() })
    }

    #[test]
    fn keys_are_looked_for() {
        let whole = document("\\cite{one,two} \\citep[see][p. 3]{three}");
        assert_eq!([&b"one"[..], b"two", b"three", b"four"].map(|key| whole.lacks(key)), [false, false, false, true]);
        assert!(!document("\\input{chapter}").lacks(b"four") && !whole.lacks(b"REV41Control"));
    }

    #[test]
    fn names_have_places() {
        let text = "% \\cite{a}\n\\citep*[see][p. 3]{b,\n  a} \\bibliography{refs}\n\\Cite{} \\bibliographystyle{a}\\";
        let document = document(text);
        let place = |named, name: &str| document.place_of(named, name.as_bytes()).map(|(_, number, at)| (number, at));
        assert_eq!(
            [place(Named::Key, "b"), place(Named::Key, "a"), place(Named::Key, "")],
            [Some((2, 19)), Some((3, 2)), Some((4, 6))]
        );
        assert_eq!(place(Named::Database, "refs"), Some((3, 19)));
        assert_eq!([place(Named::Style, "a"), place(Named::Style, "refs")], [Some((4, 27)), None]);
    }

    #[test]
    fn what_it_names_and_types_is_listed() {
        let document = document("\\bibliography{b,a}\nSee [k, l] and [3].\n% [m]\n\\include{part}\n");
        assert_eq!(document.names(Named::Database), [(&b"b"[..], 1), (b"a", 1)]);
        assert_eq!(document.names(Named::Style), []);
        let known = |keys: &'static [u8]| document.typed_keys(|key| keys.contains(&key[0]));
        assert_eq!([known(b"kl"), known(b"k3"), known(b"m")], [vec![(&b"k, l"[..], 2)], vec![(&b"3"[..], 2)], vec![]]);
        assert_eq!(document.line_of_part(b"part").map(|(number, _)| number), Some(4));
        assert_eq!(document.line_of_part(b"par"), None);
    }

    #[test]
    fn citations_without_braces_are_found() {
        let found = |text: &str, key: &str| {
            let document = document(text);
            document.unbraced(key.as_bytes()).map(|it| String::from_utf8_lossy(&it.word).into_owned())
        };
        let word = |word: &str| Some(word.to_string());
        assert_eq!([found("\\cite ray01.", "r"), found("\\citep[ray01] a", "a")], [word("ray01"), word("ray01")]);
        assert_eq!([found("\\cite(ray01)", "("), found("\\cite*é1 x", "é")], [word("ray01"), word("é1")]);
        for text in ["\\cite {ray01}", "\\cite[r]{r}", "\\let\\my\\cite\\relax", "\\cite", "\\cite[r", "\\cite#1"] {
            assert_eq!(document(text).unbraced, HashMap::new(), "{text}");
        }
        assert!(document("\\def\\a#1{\\cite{x#1}}").has_macro_of_keys() && !document("\\cite{x}").has_macro_of_keys());
    }

    #[test]
    fn natbib_needs_its_styles() {
        let line = |head: &str, style: &str| {
            document(&format!("{head}\n\\bibliographystyle{{s}}\n")).line_of_unfit_style(style.as_bytes())
        };
        assert_eq!(line("\\usepackage[round]{natbib}", "plain"), Some(2));
        assert_eq!(line("\\usepackage[round]{natbib}", "plainnat"), None);
        for other in
            ["\\usepackage[numbers]{natbib}", "% \\usepackage{natbib}", "\\usepackage{natbib}\\setcitestyle{numbers}"]
        {
            assert_eq!(line(other, "plain"), None, "{other}");
        }
    }

    #[test]
    fn encodings_are_named() {
        assert!(document("\\usepackage[latin1]{inputenc}").has_other_encoding());
        assert!(!document("\\usepackage[utf8]{inputenc}").has_other_encoding());
    }
}
