//! What the files `texmf.cnf` say: each line `NAME = VALUE` sets a variable, and `NAME.PROGRAM = VALUE` sets it for one program.

use std::collections::HashMap;

/// The program whose settings count.
pub const PROGRAM: &[u8] = b"bibtex";

/// The variables that are set, with their values as they stand there.
#[derive(Debug, Clone, Default, PartialEq, Eq)]
pub struct Settings(HashMap<Vec<u8>, Vec<u8>>);

impl Settings {
    /// Reads files. Of several values of a variable the first counts.
    pub fn read<'a>(texts: impl Iterator<Item = &'a [u8]>) -> Settings {
        let mut settings = HashMap::new();
        for line in texts.flat_map(joined_lines) {
            if let Some((name, value)) = setting(&line) {
                settings.entry(name).or_insert(value);
            }
        }
        Settings(settings)
    }

    /// The value of a variable: the one for this program, or else the one for all.
    pub fn get(&self, name: &[u8]) -> Option<&[u8]> {
        let for_program = self.0.get(&[name, b".", PROGRAM].concat());
        for_program.or_else(|| self.0.get(name)).map(Vec::as_slice)
    }
}

/// The lines of a file; one that ends with a `\` goes on in the next.
fn joined_lines(text: &[u8]) -> Vec<Vec<u8>> {
    let (mut lines, mut begun) = (Vec::new(), Vec::new());
    for line in text.split(|byte| *byte == b'\n').map(<[u8]>::trim_ascii_end) {
        match line.strip_suffix(b"\\") {
            Some(line) => begun.extend_from_slice(line),
            None => lines.push([std::mem::take(&mut begun).as_slice(), line].concat()),
        }
    }
    lines.push(begun);
    lines
}

/// A line without a comment: a `%` or `#` at its beginning or after whitespace begins one.
fn without_comment(line: &[u8]) -> &[u8] {
    let begins_comment =
        |at: &usize| matches!(line[*at], b'%' | b'#') && (*at == 0 || line[at - 1].is_ascii_whitespace());
    let end = (0..line.len()).find(begins_comment).unwrap_or(line.len());
    line[..end].trim_ascii()
}

/// The name and the value that a line sets; None where it sets nothing. A `;` between folders is a `:`.
fn setting(line: &[u8]) -> Option<(Vec<u8>, Vec<u8>)> {
    let (name, rest) = word(without_comment(line), b"=.");
    let (name, rest) = match rest.strip_prefix(b".") {
        Some(rest) => {
            let (program, rest) = word(rest.trim_ascii_start(), b"=");
            ([name, b".", program].concat(), rest)
        }
        None => (name.to_vec(), rest),
    };
    let value = rest.strip_prefix(b"=").unwrap_or(rest).trim_ascii();
    let value = value.iter().map(|byte| if *byte == b';' { b':' } else { *byte }).collect::<Vec<u8>>();
    (!name.is_empty() && !value.is_empty()).then_some((name, value))
}

/// The word at the beginning of a text, up to whitespace or one of these bytes, and what follows after whitespace.
fn word<'a>(text: &'a [u8], ends: &[u8]) -> (&'a [u8], &'a [u8]) {
    let ends_word = |byte: &u8| byte.is_ascii_whitespace() || ends.contains(byte);
    let (word, rest) = text.split_at(text.iter().position(ends_word).unwrap_or(text.len()));
    (word, rest.trim_ascii_start())
}

#[cfg(test)]
mod tests {
    use super::*;

    fn read(text: &str) -> Settings {
        Settings::read([text.as_bytes()].into_iter())
    }

    #[test]
    fn lines_set_variables() {
        let text = "% comment\nA = x;y\n  B=z % not this\nC q#r\nD.bibtex = one\nD = two\nE.tex = three\nA = late\n\
            LONG = {\\\n  a,\\\n  b}\nEMPTY =\n# B = c\n";
        let settings = read(text);
        let get = |name: &str| settings.get(name.as_bytes()).map(|value| String::from_utf8_lossy(value).into_owned());
        assert_eq!(get("A").as_deref(), Some("x:y"));
        assert_eq!(get("B").as_deref(), Some("z"));
        assert_eq!(get("C").as_deref(), Some("q#r"));
        assert_eq!(get("D").as_deref(), Some("one"));
        assert_eq!(get("LONG").as_deref(), Some("{  a,  b}"));
        assert_eq!([get("E"), get("EMPTY"), get("%")], [None, None, None]);
    }

    #[test]
    fn the_first_file_counts() {
        let settings = Settings::read([&b"A = 1\n"[..], b"A = 2\nB = 3"].into_iter());
        assert_eq!((settings.get(b"A"), settings.get(b"B")), (Some(&b"1"[..]), Some(&b"3"[..])));
    }
}
