//! TeX's file databases (`ls-R`): text files that list the folders of a tree and the files in them.

use crate::job::{Unread, unread_at};
use crate::search::{path_of, stands_as_file, without_slashes};
use crate::system::position;
use std::cell::OnceCell;
use std::fs;

/// For how many names the text of a database is looked through; for more of them its lines are sorted.
const MOST_LOOKED_THROUGH: usize = 16;

/// A file database: the folder that it is of, with a `/`, and its text.
struct Database {
    root: Vec<u8>,
    text: Vec<u8>,
    /// Where the text's lines begin, in the order of the lines' bytes; known once it is needed.
    sorted: OnceCell<Vec<usize>>,
}

/// The databases of TeX's trees.
pub struct Databases {
    all: Vec<Database>,
    /// Whether a file beside one may give files other names, or a database has another name. Only TeX's library knows these.
    pub have_aliases: bool,
    /// The first that the machine couldn't read.
    pub unread: Option<Unread>,
}

impl Databases {
    /// Reads the databases in these folders, with `:` between them.
    pub fn read(folders: &[u8]) -> Databases {
        let mut databases = Databases { all: Vec::new(), have_aliases: false, unread: None };
        for folder in folders.split(|byte| *byte == b':').filter(|folder| !folder.is_empty()) {
            let root = [folder.strip_suffix(b"/").unwrap_or(folder), b"/"].concat();
            let beside = |name: &[u8]| [&root, name].concat();
            databases.have_aliases |= [&b"aliases"[..], b"ls-r"].iter().any(|name| path_of(&beside(name)).exists());
            let database = beside(b"ls-R");
            let data = fs::metadata(path_of(&database));
            match data.and_then(|data| if data.is_file() { fs::read(path_of(&database)).map(Some) } else { Ok(None) }) {
                Ok(Some(text)) => databases.all.push(Database { root, text, sorted: OnceCell::new() }),
                Ok(None) => {}
                Err(fault) => databases.unread = databases.unread.or_else(|| unread_at(&database, &fault)),
            }
        }
        databases
    }

    /// Whether one of them is of a folder that this one is in.
    pub fn list(&self, folder: &[u8]) -> bool {
        self.all.iter().any(|database| folder.starts_with(&database.root))
    }

    /// The paths of the files of this name, in the order of the databases. `looked_for` is for how many names that was asked before.
    pub fn files_named(&self, name: &[u8], looked_for: usize) -> Vec<Vec<u8>> {
        let files = |database: &Database| match looked_for < MOST_LOOKED_THROUGH {
            true => database.paths(name, database.places(name).into_iter()),
            false => database.paths(name, database.sorted_places(name).into_iter()),
        };
        self.all.iter().flat_map(files).collect()
    }

    /// All names of files that they list.
    #[cfg(test)]
    pub fn names(&self) -> impl Iterator<Item = &[u8]> {
        self.all.iter().flat_map(|database| database.text.split(|byte| *byte == b'\n'))
    }
}

impl Database {
    /// Where the lines with this name begin: the text is looked through.
    fn places(&self, name: &[u8]) -> Vec<usize> {
        let line = [b"\n", name, b"\n"].concat();
        let (mut places, mut from) = (Vec::new(), 0);
        while let Some(at) = position(&self.text[from..], &line) {
            from += at + 1;
            places.push(from);
        }
        places
    }

    /// The same: they are looked for among the sorted lines.
    fn sorted_places(&self, name: &[u8]) -> Vec<usize> {
        let sorted = self.sorted.get_or_init(|| {
            let behind_ends = self.text.iter().enumerate().filter(|(_, byte)| **byte == b'\n').map(|(end, _)| end + 1);
            let mut starts: Vec<usize> = behind_ends.collect();
            starts.sort_by_key(|start| self.line(*start));
            starts
        });
        let first = sorted.partition_point(|start| self.line(*start) < name);
        sorted[first..].iter().copied().take_while(|start| self.line(*start) == name).collect()
    }

    /// The line that begins there.
    fn line(&self, start: usize) -> &[u8] {
        let rest = &self.text[start..];
        &rest[..position(rest, b"\n").unwrap_or(rest.len())]
    }

    /// The paths of the files of this name whose lines begin there. The places ascend, so each heading is looked for from the place before it on.
    fn paths(&self, name: &[u8], places: impl Iterator<Item = usize>) -> Vec<Vec<u8>> {
        let (mut from, mut last) = (0, None);
        let folder = |place: usize| {
            last = heading(&self.text[from..place]).or(last);
            from = place;
            last.and_then(|heading| folder_of(&self.root, heading))
        };
        places.filter_map(folder).map(|folder| [&folder, name].concat()).collect()
    }
}

/// The first of these files that is one of an element's, and can be read.
pub fn first_in<'a>(files: &'a [Vec<u8>], element: &[u8]) -> Option<&'a Vec<u8>> {
    files.iter().find(|file| is_in(file, element) && stands_as_file(file))
}

/// Whether a file of a database is one of an element's, by the library's own rule: the file is in the element's folder, or below it where that
/// ends with `//`.
fn is_in(file: &[u8], element: &[u8]) -> bool {
    let same = file.iter().zip(element).take_while(|(one, other)| one == other).count();
    let (file_rest, element_rest) = (&file[same..], &element[same..]);
    if element_rest.is_empty() {
        let rest = file_rest.strip_prefix(b"/").unwrap_or(file_rest);
        return !rest.contains(&b'/');
    }
    let is_deep = same > 0 && element[same - 1] == b'/' && element_rest[0] == b'/' && !file_rest.is_empty();
    if !is_deep {
        return false;
    }
    let below = without_slashes(element_rest);
    below.is_empty() || (same..file.len()).any(|at| file[at - 1] == b'/' && is_in(&file[at..], below))
}

/// The folder that a heading names, with a `/`, below that of its database. None for a hidden one.
fn folder_of(root: &[u8], heading: &[u8]) -> Option<Vec<u8>> {
    let is_hidden = |part: &[u8]| part.starts_with(b".") && part.len() > 1;
    if heading.split(|byte| *byte == b'/').skip(1).any(is_hidden) {
        return None;
    }
    match heading.strip_prefix(b"./") {
        Some(below) => Some([root, below, b"/"].concat()),
        None => Some([heading, b"/"].concat()),
    }
}

/// The folder whose files a database lists where this text ends: the last line that names a folder and ends with a `:`, without that.
fn heading(text: &[u8]) -> Option<&[u8]> {
    let mut rest = text;
    loop {
        let end = rest.windows(2).rposition(|pair| pair == b":\n")?;
        let begin = rest[..end].iter().rposition(|byte| *byte == b'\n').map_or(0, |line_end| line_end + 1);
        let line = &rest[begin..end];
        if [&b"/"[..], b"./", b"../"].iter().any(|mark| line.starts_with(mark)) {
            return Some(line);
        }
        rest = &rest[..begin];
    }
}

#[cfg(test)]
mod tests {
    use super::*;

    #[test]
    fn an_element_has_its_files() {
        for (file, element, is_its) in [
            ("/t/b/x.bst", "/t/b", true),
            ("/t/b/x.bst", "/t/b/", true),
            ("/t/b/x.bst", "/t", false),
            ("/t/b/c/x.bst", "/t//", true),
            ("/t/bc/x.bst", "/t/b//", false),
            ("/t/b/x.bst", "/t/b//", true),
            ("/t/a/b/x.bst", "/t//b", true),
            ("/t/a/b/c/x.bst", "/t//b", false),
            ("/t/a/b/c/x.bst", "/t//b//", true),
            ("/t//x.bst", "/t", false),
            ("/t//x.bst", "/t//", true),
        ] {
            assert_eq!(is_in(file.as_bytes(), element.as_bytes()), is_its, "{file} {element}");
        }
    }

    #[test]
    fn a_heading_is_the_last_line_that_names_a_folder() {
        assert_eq!(heading(b"% ls-R\n./:\na\n\n./bibtex/bst:\nx.bst\n"), Some(&b"./bibtex/bst"[..]));
        assert_eq!(heading(b"./:\n.:\nx.bst\n"), Some(&b"./"[..]));
        assert_eq!(heading(b"x\n"), None);
    }

    #[test]
    fn a_heading_names_a_folder_below_the_databases() {
        assert_eq!(folder_of(b"/t/", b"./a/b").as_deref(), Some(&b"/t/a/b/"[..]));
        assert_eq!(folder_of(b"/t/", b"/u/a").as_deref(), Some(&b"/u/a/"[..]));
        assert_eq!(folder_of(b"/t/", b"./a/.git"), None);
    }

    #[test]
    fn many_files_of_one_name_are_found_in_one_pass() {
        let text = ["% ls-R\n./a:\n".as_bytes(), &b"d.bib\n".repeat(200_000), b"x:\nd.bib\n\n./b:\nd.bib\n"].concat();
        let database = Database { root: b"/t/".to_vec(), text, sorted: OnceCell::new() };
        let paths = database.paths(b"d.bib", database.places(b"d.bib").into_iter());
        let [.., last, of_b] = &paths[..] else { panic!("{}", paths.len()) };
        assert_eq!((&last[..], &of_b[..]), (&b"/t/a/d.bib"[..], &b"/t/b/d.bib"[..]));
    }

    #[test]
    fn files_are_found_by_looking_and_by_sorting() {
        let text = b"% ls-R\n./:\na\n\n./b:\nx.bst\nx\n\n./c:\nx.bst\n".to_vec();
        let all = vec![Database { root: b"/t/".to_vec(), text, sorted: OnceCell::new() }];
        let databases = Databases { all, have_aliases: false, unread: None };
        for (name, wanted) in [("x.bst", vec!["/t/b/x.bst", "/t/c/x.bst"]), ("x", vec!["/t/b/x"]), ("none", vec![])] {
            for looked_for in [0, MOST_LOOKED_THROUGH] {
                let found = databases.files_named(name.as_bytes(), looked_for);
                assert_eq!(found, wanted.iter().map(|path| path.as_bytes().to_vec()).collect::<Vec<_>>(), "{name}");
            }
        }
        assert!(databases.list(b"/t/b//") && !databases.list(b"/u"));
    }
}
