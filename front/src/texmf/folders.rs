//! The folders that an element of a search path stands for. A `//` in an element stands for any folders between.

use crate::job::{FileNumber, Unread, unread_at};
use crate::search::{path_of, within, without_slashes};
use crate::system::position;
use std::collections::HashSet;
use std::fs;
use std::io;
use std::os::unix::ffi::OsStringExt;
use std::os::unix::fs::MetadataExt;

/// The folders that an element stands for, in the order in which they are looked through. `unread` is the first that the machine couldn't read.
pub fn folders_of(element: &[u8], unread: &mut Option<Unread>) -> Vec<Vec<u8>> {
    let element = &element[element.iter().take_while(|byte| **byte == b'/').count().saturating_sub(1)..];
    match element.get(1..).and_then(|rest| position(rest, b"//")) {
        Some(at) => folders_below(&element[..at + 1], without_slashes(&element[at + 1..]), unread),
        None => vec![element.to_vec()],
    }
}

/// The folders that stand, after `below`, in a folder and in those below it. Hidden folders don't count.
fn folders_below(top: &[u8], below: &[u8], unread: &mut Option<Unread>) -> Vec<Vec<u8>> {
    let (mut found, mut left, mut seen) = (Vec::new(), vec![top.to_vec()], HashSet::new());
    while let Some(folder) = left.pop() {
        if !is_new_folder(&folder, &mut seen) {
            continue;
        }
        left.extend(folders_in(&folder, unread).into_iter().rev());
        if below.is_empty() {
            found.push(folder);
        } else {
            let inside = folders_of(&within(&folder, below), unread).into_iter();
            found.extend(inside.filter(|folder| path_of(folder).is_dir()));
        }
    }
    found
}

/// Whether it is a folder that wasn't seen before: links can lead back.
fn is_new_folder(path: &[u8], seen: &mut HashSet<FileNumber>) -> bool {
    fs::metadata(path_of(path)).is_ok_and(|data| data.is_dir() && seen.insert((data.dev(), data.ino())))
}

/// What stands in a folder and may be a folder itself.
fn folders_in(folder: &[u8], unread: &mut Option<Unread>) -> Vec<Vec<u8>> {
    let may_be_folder = |entry: &fs::DirEntry| entry.file_type().is_ok_and(|kind| kind.is_dir() || kind.is_symlink());
    let mut note = |fault: io::Error| *unread = unread.take().or_else(|| unread_at(folder, &fault));
    let Ok(entries) = fs::read_dir(path_of(folder)).map_err(&mut note) else { return Vec::new() };
    let entries = entries.filter_map(|entry| entry.map_err(&mut note).ok());
    let names = entries.filter(may_be_folder).map(|entry| entry.file_name().into_vec());
    names.filter(|name| !name.starts_with(b".")).map(|name| within(folder, &name)).collect()
}

#[cfg(test)]
mod tests {
    use super::*;
    use std::path::PathBuf;

    /// A folder with files in it, which is removed at the end.
    struct Room(PathBuf);

    impl Room {
        fn new(name: &str, files: &[&str]) -> Room {
            let room = std::env::temp_dir().join(format!("bibtex-front-{name}-{}", std::process::id()));
            for file in files.iter().map(|file| room.join(file)) {
                fs::create_dir_all(file.parent().unwrap()).unwrap();
                fs::write(file, "").unwrap();
            }
            Room(room)
        }

        /// Where the file is found, from the room on.
        fn find(&self, element: &str, name: &str) -> Option<String> {
            let room = format!("{}/", self.0.display());
            let folders = folders_of(format!("{room}{element}").as_bytes(), &mut None);
            let found =
                folders.iter().map(|folder| within(folder, name.as_bytes())).find(|path| path_of(path).is_file())?;
            Some(String::from_utf8(found).unwrap().strip_prefix(&room).unwrap().to_string())
        }
    }

    impl Drop for Room {
        fn drop(&mut self) {
            let _ = fs::remove_dir_all(&self.0);
        }
    }

    #[test]
    fn files_are_found_below_an_element() {
        let room = Room::new("elements", &["t/x", "t/a/b/y", "t/a/.hidden/z", "t/a/bst/base/w"]);
        std::os::unix::fs::symlink("..", room.0.join("t/a/round")).unwrap();
        let find = |element: &str, name: &str| room.find(element, name).unwrap_or_default();
        assert_eq!(find("t", "x"), "t/x");
        assert_eq!([find("t", "y"), find("t//", "z"), find("none//", "x")], [""; 3]);
        assert_eq!(find("t//", "y"), "t/a/b/y");
        assert_eq!(find("t//bst//", "w"), "t/a/bst/base/w");
        assert_eq!(find("t//b", "y"), "t/a/b/y");
        assert_eq!(find("t//", "b/y"), "t/a/b/y");
    }
}
