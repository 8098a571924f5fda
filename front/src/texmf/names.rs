//! Which names may be read and written, by TeX's variables `openin_any` and `openout_any`.

/// How much is allowed.
#[derive(Debug, Clone, Copy, PartialEq, Eq)]
pub enum Openness {
    /// Any name.
    Any,
    /// No name with a part that begins with a dot.
    Restricted,
    /// Nor one that leads out of the present folder.
    Paranoid,
}

impl Openness {
    /// What a value of the variable says.
    pub fn of(value: &[u8]) -> Openness {
        match value.first() {
            Some(b'a' | b'y' | b'1') => Openness::Any,
            Some(b'r' | b'n' | b'0') => Openness::Restricted,
            _ => Openness::Paranoid,
        }
    }
}

/// Whether a name is allowed. `output_folder` is the value of `TEXMFOUTPUT`, in which absolute names are allowed.
pub fn is_allowed(name: &[u8], openness: Openness, output_folder: Option<&[u8]>) -> bool {
    match openness {
        Openness::Any => true,
        Openness::Restricted => !has_hidden_part(name),
        Openness::Paranoid => !has_hidden_part(name) && !leads_out(name, output_folder),
    }
}

/// Whether a part of the name begins with a dot. `.` and `..` count for none, nor does a last part `.tex`.
fn has_hidden_part(name: &[u8]) -> bool {
    let name = name.strip_suffix(b".tex").filter(|folder| folder.is_empty() || folder.ends_with(b"/")).unwrap_or(name);
    name.split(|byte| *byte == b'/').any(|part| part.starts_with(b".") && part != b"." && part != b"..")
}

/// Whether the name is absolute, but not below `output_folder`, or has a part `..`.
fn leads_out(name: &[u8], output_folder: Option<&[u8]>) -> bool {
    let is_below =
        |folder: &[u8]| !folder.is_empty() && name.starts_with(folder) && name[folder.len()..].starts_with(b"/");
    let is_outside = name.starts_with(b"/") && !output_folder.is_some_and(is_below);
    is_outside || name.split(|byte| *byte == b'/').any(|part| part == b"..")
}

#[cfg(test)]
mod tests {
    use super::*;

    #[test]
    fn values_say_how_much_is_allowed() {
        for (value, openness) in [
            ("a", Openness::Any),
            ("yes", Openness::Any),
            ("1", Openness::Any),
            ("r", Openness::Restricted),
            ("n", Openness::Restricted),
            ("0", Openness::Restricted),
            ("p", Openness::Paranoid),
            ("x", Openness::Paranoid),
        ] {
            assert_eq!(Openness::of(value.as_bytes()), openness, "{value}");
        }
    }

    #[test]
    fn names_are_allowed_or_not() {
        for (name, is_restricted, is_paranoid) in [
            ("a.aux", true, true),
            ("a/b.aux", true, true),
            ("./a", true, true),
            ("../a", true, false),
            ("a/../b", true, false),
            ("a/..", true, false),
            ("/a", true, false),
            ("/out/a", true, true),
            ("/outer/a", true, false),
            ("/out", true, false),
            (".a", false, false),
            ("a/.b/c", false, false),
            ("...", false, false),
            ("a/.tex", true, true),
            (".tex/a", false, false),
        ] {
            let allowed = |openness| is_allowed(name.as_bytes(), openness, Some(b"/out"));
            assert_eq!(
                [allowed(Openness::Restricted), allowed(Openness::Paranoid)],
                [is_restricted, is_paranoid],
                "{name}"
            );
            assert!(allowed(Openness::Any));
        }
        assert!(!is_allowed(b"/a", Openness::Paranoid, Some(b"")) && !is_allowed(b"/a", Openness::Paranoid, None));
    }
}
