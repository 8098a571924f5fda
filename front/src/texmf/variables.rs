//! The values of variables: of the environment, or else of TeX's set-up; and texts with variables in them, written out.

use super::home::Home;
use super::settings::{PROGRAM, Settings};
use crate::text::find;
use std::collections::HashMap;
use std::env;
use std::fs;
use std::os::unix::ffi::OsStringExt;

/// How many variables may stand within one another where a text is written out, and how many references and bytes of values may come to stand in it in all. TeX's own set-up has
/// a few hundred of them; a hostile one would take all time, or all of the stack.
const MOST_WITHIN: usize = 1_000;
const MOST_WRITTEN: usize = 1_000_000;

/// The variables whose values are being written out, and how much room is left for what they stand for.
struct Within {
    names: Vec<Vec<u8>>,
    room: usize,
}

impl Within {
    fn new(names: Vec<Vec<u8>>) -> Within {
        Within { names, room: MOST_WRITTEN }
    }

    /// Whether this value may stand here too; its room is taken then.
    fn takes(&mut self, name: &[u8], value: &[u8]) -> bool {
        let left = self.room.checked_sub(1 + value.len());
        let may_be = self.names.len() < MOST_WITHIN && !self.names.iter().any(|other| other == name);
        self.room = left.unwrap_or(0);
        may_be && left.is_some()
    }
}

/// The variables that a search knows.
pub struct Variables {
    /// Those that are given to the program: the environment, and what is known of TeX's folders.
    given: HashMap<Vec<u8>, Vec<u8>>,
    settings: Settings,
}

impl Variables {
    /// The environment's, and those of the set-up that stands there.
    pub fn new(home: &Home, settings: Settings) -> Variables {
        let mut given: HashMap<Vec<u8>, Vec<u8>> =
            env::vars_os().map(|(name, value)| (name.into_vec(), value.into_vec())).collect();
        given.extend(home.variables());
        given.insert(b"progname".to_vec(), PROGRAM.to_vec());
        Variables { given, settings }
    }

    /// The value that the environment gives; that for this program alone comes first.
    pub fn given(&self, name: &[u8]) -> Option<&[u8]> {
        let names = [[name, b".", PROGRAM].concat(), [name, b"_", PROGRAM].concat(), name.to_vec()];
        let mut values = names.iter().filter_map(|name| self.given.get(name));
        values.find(|value| !value.is_empty()).map(Vec::as_slice)
    }

    /// The value that the set-up gives, as it stands there.
    pub fn setting(&self, name: &[u8]) -> Option<&[u8]> {
        self.settings.get(name)
    }

    /// The value of a variable, written out.
    pub fn value(&self, name: &[u8]) -> Option<Vec<u8>> {
        let value = self.given(name).or_else(|| self.setting(name))?;
        Some(self.expanded(value, &mut Within::new(vec![name.to_vec()])))
    }

    /// A text with its variables, and a `~` at its beginning, written out.
    pub fn written_out(&self, text: &[u8]) -> Vec<u8> {
        self.expanded(text, &mut Within::new(Vec::new()))
    }

    /// The same; `within` has the variables whose values are written out already. In one of these it stands for nothing, and so it does where there is no room left.
    fn expanded(&self, text: &[u8], within: &mut Within) -> Vec<u8> {
        let mut expansion = Vec::new();
        let mut rest = text;
        while let Some(at) = rest.iter().position(|byte| *byte == b'$') {
            let (reference, behind) = Reference::read(&rest[at..]);
            expansion.extend_from_slice(&rest[..at]);
            expansion.extend(self.referred(&reference, within));
            rest = behind;
        }
        expansion.extend_from_slice(rest);
        self.with_home(&expansion)
    }

    /// What a reference stands for.
    fn referred(&self, reference: &Reference<'_>, within: &mut Within) -> Vec<u8> {
        let name = reference.name;
        let value = self.given(name).or_else(|| self.setting(name));
        match value.filter(|_| !name.is_empty()) {
            Some(value) if within.takes(name, value) => {
                within.names.push(name.to_vec());
                let expansion = self.expanded(value, within);
                within.names.pop();
                expansion
            }
            Some(_) => Vec::new(),
            None => reference.unset.to_vec(),
        }
    }

    /// A text with the home folder for a `~` at its beginning.
    fn with_home(&self, text: &[u8]) -> Vec<u8> {
        let (mark, path) = text.strip_prefix(b"!!").map_or((&b""[..], text), |path| (&b"!!"[..], path));
        let Some(rest) = path.strip_prefix(b"~") else { return text.to_vec() };
        let (user, below) = rest.split_at(rest.iter().position(|byte| *byte == b'/').unwrap_or(rest.len()));
        let home = if user.is_empty() { self.given(b"HOME").map(<[u8]>::to_vec) } else { home_of(user) };
        let home = home.unwrap_or_else(|| b".".to_vec());
        [mark, home.strip_suffix(b"/").filter(|_| !below.is_empty()).unwrap_or(&home), below].concat()
    }
}

/// A reference to a variable: `$NAME` or `${NAME}`.
struct Reference<'a> {
    /// The variable's name; empty where the `$` begins none.
    name: &'a [u8],
    /// What the reference stands for where the variable isn't set.
    unset: &'a [u8],
}

impl<'a> Reference<'a> {
    /// The reference that this text begins with, and what comes after it. The text begins with a `$`.
    fn read(text: &'a [u8]) -> (Reference<'a>, &'a [u8]) {
        if text.get(1) == Some(&b'{') {
            let Some(end) = find(text, b"}") else { return (Reference { name: b"", unset: b"" }, b"") };
            return (Reference { name: &text[2..end], unset: b"" }, &text[end + 1..]);
        }
        let is_of_name = |byte: &u8| byte.is_ascii_alphanumeric() || *byte == b'_';
        let end = 1 + text[1..].iter().take_while(|byte| is_of_name(byte)).count();
        let (all, behind) = text.split_at(end);
        (Reference { name: &all[1..], unset: all }, behind)
    }
}

/// The home folder of another user, as the system's table has it.
fn home_of(user: &[u8]) -> Option<Vec<u8>> {
    let table = fs::read("/etc/passwd").ok()?;
    let mut lines = table.split(|byte| *byte == b'\n').map(|line| line.split(|byte| *byte == b':').collect::<Vec<_>>());
    lines.find(|fields| fields.first() == Some(&user)).and_then(|fields| Some(fields.get(5)?.to_vec()))
}

#[cfg(test)]
pub mod tests {
    use super::*;

    /// Variables of an environment, and of a set-up.
    pub fn variables(given: &[(&str, &str)], set_up: &str) -> Variables {
        let given = given.iter().map(|(name, value)| (name.as_bytes().to_vec(), value.as_bytes().to_vec())).collect();
        Variables { given, settings: Settings::read([set_up.as_bytes()].into_iter()) }
    }

    fn written_out(text: &str) -> String {
        let given = [("HOME", "/h"), ("A", "a$B"), ("E", ""), ("P", "all"), ("P_bibtex", "ours")];
        let known = variables(&given, "A = not this\nB = b\nE = e\nS = $T\nT = $S/x\nH = ~/y\n");
        String::from_utf8(known.written_out(text.as_bytes())).unwrap()
    }

    #[test]
    fn a_hostile_set_up_has_an_end() {
        let doubled: String = (0..40).map(|number| format!("V{number} = $V{0}$V{0}\n", number + 1)).collect();
        let chained: String = (0..100_000).map(|number| format!("V{number} = a$V{}\n", number + 1)).collect();
        for (set_up, most) in [(doubled + "V40 = a\n", MOST_WRITTEN), (chained, MOST_WITHIN)] {
            let written = variables(&[], &set_up).written_out(b"$V0");
            assert!(written.len() <= most, "{}", written.len());
        }
    }

    #[test]
    fn variables_are_written_out() {
        for (text, wanted) in [
            ("$A/${B}c", "ab/bc"),
            ("$E", "e"),
            ("$P", "ours"),
            ("$none/x ${none}y $? a$", "$none/x y $? a$"),
            ("${A", ""),
            ("$S", "/x"),
            ("!!$H", "!!/h/y"),
            ("", ""),
        ] {
            assert_eq!(written_out(text), wanted, "{text}");
        }
    }

    #[test]
    fn a_home_folder_stands_for_its_mark() {
        assert_eq!(
            ["~", "~/a", "!!~/a", "a~", "~nobody-here/a"].map(written_out),
            ["/h", "/h/a", "!!/h/a", "a~", "./a"]
        );
    }
}
