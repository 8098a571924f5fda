//! Which file may be meant by one that a job names and that isn't there; and what a file is that isn't what its name says.

use crate::advice::Seen;
use crate::job::{File, Files};
use crate::nearest::{distance, nearest};
use crate::search::path_of;
use crate::terminal::plain;
use std::fs;
use std::os::unix::ffi::OsStringExt;

/// How many names of the folder are read, and how many are shown.
const MOST_READ: usize = 2_000;
const MOST_SHOWN: usize = 4;

/// Styles that many documents name.
const STYLES: [&str; 26] = [
    "plain",
    "abbrv",
    "alpha",
    "unsrt",
    "acm",
    "ieeetr",
    "siam",
    "apalike",
    "plainnat",
    "abbrvnat",
    "unsrtnat",
    "IEEEtran",
    "IEEEtranS",
    "splncs04",
    "elsarticle-num",
    "elsarticle-harv",
    "ACM-Reference-Format",
    "apacite",
    "apsrev4-1",
    "apsrev4-2",
    "mnras",
    "chicago",
    "agsm",
    "dcu",
    "spbasic",
    "amsplain",
];

/// The names of the files with this ending in the present folder, in their order; of very many some.
pub fn names(ending: &str) -> Vec<Vec<u8>> {
    let Ok(folder) = fs::read_dir(".") else { return Vec::new() };
    let all = folder.take(MOST_READ).filter_map(|entry| Some(entry.ok()?.file_name().into_vec()));
    let mut names: Vec<Vec<u8>> = all.filter(|name| name.ends_with(ending.as_bytes())).collect();
    names.sort();
    names
}

/// Which file may be meant by one that wasn't found; None where nothing is like it.
pub fn meant(error: &[u8], files: &Files) -> Option<String> {
    if let Some(name) = error.strip_prefix(b"I couldn't open style file ") {
        return meant_style(name);
    }
    let name = error.strip_prefix(b"I couldn't open database file ")?;
    let mut there = names(".bib");
    there.retain(|there| files.file(there).is_none());
    below(base(name)).map(|path| format!("is it `{}`?", plain(&path))).or_else(|| meant_among(name, &there, ".bib"))
}

/// The name, without its ending, of the one database that is likely to be meant by one that wasn't found: one of nearly this name, or the only one of the folder.
pub fn database_meant(name: &[u8], files: &Files) -> Option<Vec<u8>> {
    let mut there = names(".bib");
    there.retain(|there| files.file(there).is_none());
    let stem = |name: &[u8]| name.strip_suffix(b".bib").unwrap_or(name).to_vec();
    if let Some(path) = below(base(name)) {
        return Some(stem(&path));
    }
    let stems: Vec<Vec<u8>> = there.iter().map(|name| stem(name)).collect();
    let near = nearest(&stem(base(name)), stems.iter().map(Vec::as_slice)).map(<[u8]>::to_vec);
    near.or_else(|| stems.into_iter().next().filter(|_| there.len() == 1))
}

/// Which `.aux` file may be meant by one that isn't there.
pub fn meant_job(name: &[u8]) -> Option<String> {
    if let Some(path) = below(base(name)) {
        return Some(format!("is it `{}`?", plain(path.strip_suffix(b".aux").unwrap_or(&path))));
    }
    let document = [name.strip_suffix(b".aux").unwrap_or(name), b".tex"].concat();
    let is_there = path_of(&document).is_file();
    meant_among(name, &names(".aux"), ".aux")
        .or_else(|| is_there.then(|| format!("run LaTeX on {} first", plain(&document))))
}

/// The file of this name in one of the folders of the present one, if only one of them has it.
fn below(name: &[u8]) -> Option<Vec<u8>> {
    let folders = fs::read_dir(".").ok()?.take(MOST_READ).filter_map(|entry| {
        let entry = entry.ok()?;
        let is_folder = entry.file_type().ok()?.is_dir();
        Some(entry.file_name().into_vec()).filter(|name| is_folder && !name.starts_with(b"."))
    });
    let mut found = folders.map(|folder| [&folder[..], b"/", name].concat()).filter(|path| path_of(path).is_file());
    found.next().filter(|_| found.next().is_none())
}

fn meant_style(name: &[u8]) -> Option<String> {
    let stem = base(name).strip_suffix(b".bst")?;
    let there = names(".bst");
    let all = STYLES.iter().map(|style| style.as_bytes()).chain(there.iter().map(|name| &name[..name.len() - 4]));
    let all: Vec<&[u8]> = all.filter(|style| *style != stem).collect();
    // (names of styles are short, so two letters may differ where the first two are the same)
    let begins_so = |style: &&&[u8]| stem.len() > 3 && style.get(..2) == stem.get(..2) && distance(stem, style) <= 2;
    let near = nearest(stem, all.iter().copied()).or_else(|| all.iter().find(begins_so).copied());
    near.map(|near| format!("is it `{}`?", plain(near)))
}

/// The nearest of these names to one, or the first of them.
fn meant_among(name: &[u8], there: &[Vec<u8>], ending: &str) -> Option<String> {
    let stem = |name: &[u8]| name.strip_suffix(ending.as_bytes()).unwrap_or(name).to_vec();
    let stems: Vec<Vec<u8>> = there.iter().map(|name| stem(name)).collect();
    let wanted = stem(base(name));
    let same = stems.iter().map(Vec::as_slice).find(|stem| *stem == wanted);
    if let Some(near) = same.or_else(|| nearest(&wanted, stems.iter().map(Vec::as_slice))) {
        return Some(format!("is it `{}`?", plain(near)));
    }
    let shown: Vec<String> = there.iter().take(MOST_SHOWN).map(|name| plain(name)).collect();
    let dots = if there.len() > MOST_SHOWN { ", .." } else { "" };
    (!shown.is_empty()).then(|| format!("this folder has {}{dots}", shown.join(", ")))
}

/// A name without its folders.
fn base(name: &[u8]) -> &[u8] {
    name.rsplit(|byte| matches!(byte, b'/' | b'\\')).next().unwrap_or(name)
}

/// What to do about a file that isn't what its name says; None where nothing is odd about it.
pub fn what_is_odd(file: &File) -> Option<String> {
    let bytes = file.bytes.as_deref()?;
    let start = &bytes[..bytes.len().min(1_000)];
    let without_mark = start.strip_prefix(b"\xEF\xBB\xBF").unwrap_or(start);
    let first = without_mark.trim_ascii_start();
    let begins = |word: &[u8]| first.get(..word.len()).is_some_and(|begin| begin.eq_ignore_ascii_case(word));
    let seen = if [&b"\xFF\xFE"[..], b"\xFE\xFF"].iter().any(|mark| bytes.starts_with(mark)) {
        Seen::FileIsUtf16
    } else if begins(b"<!DOCTYPE") || begins(b"<html") {
        Seen::FileIsHtml
    } else if begins(b"%0 ") && first.windows(2).any(|pair| pair == b"\n%") {
        Seen::FileIsEndNote
    } else if begins(b"TY  - ") {
        Seen::FileIsRis
    } else if without_mark.len() < start.len() && file.name.ends_with(b".bst") {
        Seen::FileHasMark
    } else if bytes.contains(&b'\r') && !bytes.contains(&b'\n') {
        Seen::FileIsOneLine
    } else {
        return None;
    };
    Some(seen.with(&[&plain(crate::explain::shown_path(file))]))
}

#[cfg(test)]
mod tests {
    use super::*;

    #[test]
    fn files_are_meant_by_others() {
        let there = [b"main.bib".to_vec(), b"refs.bib".to_vec()];
        let meant = |name: &str| meant_among(name.as_bytes(), &there, ".bib");
        assert_eq!(meant("bib/refs.bib").as_deref(), Some("is it `refs`?"));
        assert_eq!(meant("C:\\me\\ref.bib").as_deref(), Some("is it `refs`?"));
        assert_eq!(meant("literature.bib").as_deref(), Some("this folder has main.bib, refs.bib"));
        assert_eq!(meant_among(b"x.bib", &[], ".bib"), None);
        assert_eq!(meant_style(b"plane.bst").as_deref(), Some("is it `plain`?"));
        assert_eq!([meant_style(b"plain.bst"), meant_style(b"nosuchstyle.bst")], [None, None]);
    }

    #[test]
    fn files_may_be_something_else() {
        let odd = |name: &str, bytes: &[u8]| {
            let file = File { name: name.into(), bytes: Some(bytes.to_vec()), path: Vec::new() };
            what_is_odd(&file)
        };
        let seen = |seen: Seen, name: &str| Some(seen.with(&[name]));
        assert_eq!(odd("a.bib", b"\xFF\xFE@\0m\0"), seen(Seen::FileIsUtf16, "a.bib"));
        assert_eq!(odd("a.bib", b"\n<!doctype html>\n"), seen(Seen::FileIsHtml, "a.bib"));
        assert_eq!(odd("a.bib", b"%0 Book\n%A Knuth\n"), seen(Seen::FileIsEndNote, "a.bib"));
        assert_eq!(odd("a.bib", b"%0 is my comment\n@misc{a}\n"), None);
        assert_eq!(odd("a.bib", b"TY  - JOUR\n"), seen(Seen::FileIsRis, "a.bib"));
        assert_eq!(odd("s.bst", b"\xEF\xBB\xBFENTRY\n"), seen(Seen::FileHasMark, "s.bst"));
        assert_eq!(odd("a.bib", b"@misc{a}\r@misc{b}\r"), seen(Seen::FileIsOneLine, "a.bib"));
        assert_eq!([odd("a.bib", b"\xEF\xBB\xBF@misc{a}\r\n"), odd("a.bib", b"")], [None, None]);
    }
}
