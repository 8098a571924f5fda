//! A search path, with its default, its braces and its variables written out.

use super::variables::Variables;

/// How deep values may hold values with braces in them. TeX's own are two deep.
const DEEPEST: usize = 6;

/// How deep braces may stand in braces; a deeper `{` is a byte like any other. How many elements an element stands for at most, and how many bytes are written for them; the rest
/// of the element is left out.
const DEEPEST_BRACES: usize = 100;
const MOST_TEXTS: usize = 10_000;
const MOST_WRITTEN: usize = 10_000_000;

/// A path with `:` between its elements, where it has `;` as in a file for another system.
pub fn with_colons(path: &[u8]) -> Vec<u8> {
    path.iter().map(|byte| if *byte == b';' { b':' } else { *byte }).collect()
}

/// A path with the default in the place of its first empty element: an extra `:` at its beginning, at its end, or in it.
pub fn with_default(path: Option<&[u8]>, default: &[u8]) -> Vec<u8> {
    let Some(path) = path.filter(|path| !path.is_empty() && *path != b":") else { return default.to_vec() };
    if path.starts_with(b":") {
        return [default, path].concat();
    }
    if path.ends_with(b":") {
        return [path, default].concat();
    }
    match path.windows(2).position(|pair| pair == b"::") {
        Some(at) => [&path[..=at], default, &path[at + 1..]].concat(),
        None => path.to_vec(),
    }
}

/// A path with all braces, variables and `~` written out.
pub fn written_out(path: &[u8], variables: &Variables) -> Vec<u8> {
    let elements = elements(path).into_iter().flat_map(|element| element_written_out(element, variables, DEEPEST));
    elements.collect::<Vec<_>>().join(&b':')
}

/// The elements of a path; a `:` in braces stands in one element.
fn elements(path: &[u8]) -> Vec<&[u8]> {
    let mut depth = 0usize;
    let ends_element = |byte: &u8| {
        match byte {
            b'{' => depth += 1,
            b'}' => depth = depth.saturating_sub(1),
            _ => {}
        }
        *byte == b':' && depth == 0
    };
    path.split(ends_element).collect()
}

/// The elements that one stands for. What a variable gives may have braces again.
fn element_written_out(element: &[u8], variables: &Variables, deepest: usize) -> Vec<Vec<u8>> {
    let texts = Braces { rest: element, deepest: DEEPEST_BRACES, room: MOST_WRITTEN }.texts().into_iter();
    texts
        .flat_map(|text| {
            let expansion = variables.written_out(&text);
            if expansion == text || deepest == 0 {
                return vec![expansion];
            }
            let parts = elements(&expansion).into_iter();
            parts.flat_map(|part| element_written_out(part, variables, deepest - 1)).take(MOST_TEXTS).collect()
        })
        .take(MOST_TEXTS)
        .collect()
}

/// A text with braces that is read.
struct Braces<'a> {
    rest: &'a [u8],
    /// How much deeper braces may stand.
    deepest: usize,
    /// How many bytes may be written.
    room: usize,
}

impl Braces<'_> {
    /// Takes room for these bytes; where there is none, all that follows is left out.
    fn has_room(&mut self, bytes: usize) -> bool {
        let has_room = bytes <= self.room;
        self.room = if has_room { self.room - bytes } else { 0 };
        if !has_room {
            self.rest = b"";
        }
        has_room
    }

    /// The texts that the text up to a `}` stands for: `a{b,c}d` is `abd` and `acd`.
    fn texts(&mut self) -> Vec<Vec<u8>> {
        let (mut texts, mut begun) = (Vec::new(), vec![Vec::new()]);
        while let Some((first, rest)) = self.rest.split_first().filter(|(first, _)| **first != b'}') {
            self.rest = rest;
            match first {
                b',' | b':' => texts.append(&mut std::mem::replace(&mut begun, vec![Vec::new()])),
                b'{' if self.deepest > 0 => {
                    self.deepest -= 1;
                    let inner = self.texts();
                    self.deepest += 1;
                    self.rest = self.rest.get(1..).unwrap_or_default();
                    if self.has_room(length_of(&begun) * inner.len() + length_of(&inner) * begun.len()) {
                        begun = joined(&begun, &inner);
                    }
                }
                b'$' if rest.starts_with(b"{") => {
                    let (name, rest) =
                        rest.split_at(rest.iter().position(|byte| *byte == b'}').map_or(rest.len(), |end| end + 1));
                    begun.iter_mut().for_each(|text| text.extend([b"$", name].concat()));
                    self.rest = rest;
                }
                byte => {
                    if self.has_room(begun.len()) {
                        begun.iter_mut().for_each(|text| text.push(*byte));
                    }
                }
            }
        }
        texts.append(&mut begun);
        texts
    }
}

/// How many bytes these texts have, with one more for each.
fn length_of(texts: &[Vec<u8>]) -> usize {
    texts.iter().map(|text| text.len() + 1).sum()
}

/// Each of these texts with each of those after it.
fn joined(texts: &[Vec<u8>], behind: &[Vec<u8>]) -> Vec<Vec<u8>> {
    texts.iter().flat_map(|text| behind.iter().map(move |more| [&text[..], more].concat())).collect()
}

#[cfg(test)]
mod tests {
    use super::super::variables::tests::variables;
    use super::*;

    fn path(text: &str) -> String {
        let set_up =
            "HOME_TREE = ~/texmf\nLOCAL = /local\nNONE = {}\nTEXMF = {$NONE$HOME_TREE,!!$LOCAL}\nROUND = $ROUND:/x\n";
        String::from_utf8(written_out(text.as_bytes(), &variables(&[("HOME", "/h")], set_up))).unwrap()
    }

    #[test]
    fn braces_and_variables_are_written_out() {
        for (text, wanted) in [
            (".:$TEXMF/bst//", ".:/h/texmf/bst//:!!/local/bst//"),
            ("$TEXMF/{bst,csf}//", "/h/texmf/bst//:!!/local/bst//:/h/texmf/csf//:!!/local/csf//"),
            ("{/a,/b:/c}/x", "/a/x:/b/x:/c/x"),
            ("/a,/b", "/a:/b"),
            ("/a{b{c,d},e}f", "/abcf:/abdf:/aef"),
            ("${LOCAL}/x:~/y", "/local/x:/h/y"),
            ("{a", "a"),
            ("a}b", "a"),
            ("a::b", "a::b"),
            ("", ""),
            ("$unset/x", "$unset/x"),
        ] {
            assert_eq!(path(text), wanted, "{text}");
        }
        assert!(path("$ROUND").starts_with(":/x"));
    }

    #[test]
    fn very_many_braces_end() {
        let many = path(&("/".to_string() + &"{a,b}".repeat(10_000)));
        assert!(many.split(':').count() <= MOST_TEXTS);
        assert!(path(&"{".repeat(50_000)).len() < 50_000);
        assert_eq!(path(&("{".repeat(50) + "a,b" + &"}".repeat(50) + "c")), "ac:bc");
    }

    #[test]
    fn an_empty_element_is_the_default() {
        let defaulted = |path: &str| String::from_utf8(with_default(Some(path.as_bytes()), b"D:E")).unwrap();
        assert_eq!(
            ["", ":", ":a", "a:", "a::b", "a:::b", "a:b"].map(defaulted),
            ["D:E", "D:E", "D:E:a", "a:D:E", "a:D:E:b", "a:D:E::b", "a:b"]
        );
        assert_eq!(with_default(None, b"D"), b"D");
        assert_eq!(with_colons(b"a;b"), b"a:b");
    }
}
