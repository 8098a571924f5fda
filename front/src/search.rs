//! Where the files of a job are found, and which may be read and written.
//!
//! Where TeX is installed, files are found where TeX finds them. Its library reads all file databases (`ls-R`) at the first question, which takes
//! most of its time. So its set-up is read here without them; a name is looked for in the databases' text, and what isn't found so is asked of
//! the library in full. Where the library isn't installed, TeX's set-up is read by [`crate::texmf`], and the same search does the rest.

use crate::databases::{Databases, first_in};
use crate::job::{Unread, why_missing};
use crate::kpathsea::{Format, Kpathsea};
use crate::system::{PathLibrary, position, set_variable};
use crate::terminal::steers_terminals;
use crate::texmf::Texmf;
use crate::texmf::home::Home;
use std::cell::{Cell, OnceCell};
use std::env;
use std::ffi::{CStr, OsStr, OsString};
use std::fs;
use std::io::ErrorKind;
use std::os::unix::ffi::OsStrExt;
use std::path::Path;

/// The longest name that is looked for: no path of the system is longer.
const LONGEST_NAME: usize = 4096;

/// How many names are looked for before TeX's library is asked: for more of them its own search is quicker.
const MOST_QUICK: usize = 16;

/// The variable that lists the folders which have a database.
const DATABASES: &str = "TEXMFDBS";

/// The path of a file of this name.
pub fn path_of(name: &[u8]) -> &Path {
    Path::new(OsStr::from_bytes(name))
}

/// TeX's set-up.
pub trait SetUp {
    /// The path along which such files are looked for.
    fn path(&self, format: Format) -> Option<Vec<u8>>;

    /// The folders that are there of a path.
    fn folders(&self, path: &[u8]) -> Option<Vec<u8>>;

    /// What the files of the set-up say of a variable.
    fn setting(&self, name: &CStr) -> Option<Vec<u8>>;

    /// The value of a variable: of the environment, or else of the set-up.
    fn value(&self, name: &CStr) -> Option<Vec<u8>>;

    /// Where the disk has a file of this name in an element of a path.
    fn find_in(&self, element: &[u8], name: &[u8]) -> Option<Vec<u8>>;

    /// Whether a file of this name may be read.
    fn may_read(&self, name: &[u8]) -> bool;

    /// Whether a file of this name may be written.
    fn may_write(&self, name: &[u8]) -> bool;
}

/// Where files are looked for.
pub enum Search {
    /// Where TeX's library of path search finds them.
    ByLibrary(LibrarySearch),
    /// Where TeX's set-up, which is read here, says that they are.
    BySetUp(SetUpSearch),
    /// In the folders that BSTINPUTS and BIBINPUTS list: TeX isn't installed.
    Folders,
}

impl Search {
    /// Begins a search. To be called as long as the program has one thread.
    pub fn begin() -> Search {
        // The library may be there without a TeX, for other programs.
        let has_set_up = || Home::of_user().is_some_and(|home| home.has_set_up_for_library());
        match PathLibrary::open() {
            Some(library) if has_set_up() => Search::ByLibrary(LibrarySearch::begin(library)),
            _ => Texmf::find().map_or(Search::Folders, |texmf| Search::BySetUp(SetUpSearch::new(texmf))),
        }
    }

    /// Where a style or a database is found.
    pub fn find(&self, name: &[u8], format: Format) -> Option<Vec<u8>> {
        if name.len() > LONGEST_NAME {
            return None;
        }
        match self {
            // (the library prints names as they are)
            Search::ByLibrary(search) if !steers_terminals(name) => search.find(name, format),
            Search::BySetUp(search) => search.find(name, format),
            _ => places(name, format).find(|path| stands_as_file(path)),
        }
    }

    /// What stands in the place of a file that wasn't found: in the user's own folders, a file that may not be read, or something that is no
    /// ordinary file; there, and where TeX's databases list the file, what the machine keeps us from seeing.
    pub fn in_its_place(&self, name: &[u8], format: Format) -> Option<Vec<u8>> {
        let is_other = |path: &[u8]| fs::metadata(path_of(path)).is_ok_and(|data| !data.is_file());
        let is_there = |path: &Vec<u8>| !matches!(stands_at(path), Stands::File | Stands::Other) || is_other(path);
        let is_hidden = |path: &Vec<u8>| stands_at(path) == Stands::Hidden;
        places(name, format).find(is_there).or_else(|| self.listed(name).into_iter().find(is_hidden))
    }

    /// TeX's databases, and how many names were looked for in them.
    fn databases(&self) -> Option<(&Databases, usize)> {
        match self {
            Search::ByLibrary(search) => Some((search.databases(), search.looked_for.get())),
            Search::BySetUp(search) => Some((search.databases(), search.looked_for.get())),
            Search::Folders => None,
        }
    }

    /// The files of this name that TeX's databases list.
    fn listed(&self, name: &[u8]) -> Vec<Vec<u8>> {
        let (_, last) = split_name(name);
        self.databases().map_or_else(Vec::new, |(databases, looked_for)| databases.files_named(last, looked_for))
    }

    /// What the machine couldn't read of TeX's set-up, its databases and its folders: who knows then what isn't there?
    pub fn unread(&self) -> Option<Unread> {
        let of_set_up = || match self {
            Search::ByLibrary(search) => search.unread_set_up.get_or_init(|| Home::of_user()?.unread_set_up()).clone(),
            Search::BySetUp(search) => search.texmf.unread(),
            Search::Folders => None,
        };
        self.databases().and_then(|(databases, _)| databases.unread.clone()).or_else(of_set_up)
    }

    /// TeX's set-up, where TeX is installed.
    fn set_up(&self) -> Option<&dyn SetUp> {
        match self {
            Search::ByLibrary(search) => Some(&search.set_up),
            Search::BySetUp(search) => Some(&search.texmf),
            Search::Folders => None,
        }
    }

    /// Whether a file of this name may be read.
    pub fn may_read(&self, name: &[u8]) -> bool {
        self.set_up().is_none_or(|set_up| set_up.may_read(name))
    }

    /// Whether a file of this name may be written.
    pub fn may_write(&self, name: &[u8]) -> bool {
        self.set_up().is_none_or(|set_up| set_up.may_write(name))
    }

    /// The value of a variable of TeX's set-up.
    pub fn value(&self, name: &CStr) -> Option<Vec<u8>> {
        self.set_up()?.value(name)
    }

    /// A number of TeX's set-up that can be the limit of a variable.
    pub fn limit(&self, name: &CStr) -> Option<u32> {
        let value = String::from_utf8(self.value(name)?).ok()?;
        value.parse().ok().filter(|limit| (1..=1_000_000).contains(limit))
    }
}

/// The folders that BSTINPUTS or BIBINPUTS lists; an empty one is the present folder.
fn folders(format: Format) -> Vec<Vec<u8>> {
    let listed = env::var_os(format.variable()).filter(|listed| !listed.is_empty()).unwrap_or_else(|| ".".into());
    let folder = |folder: &[u8]| if folder.is_empty() { b".".to_vec() } else { folder.to_vec() };
    listed.as_bytes().split(|byte| *byte == b':').map(folder).collect()
}

/// Where a file may stand in the folders that BSTINPUTS or BIBINPUTS lists.
fn places(name: &[u8], format: Format) -> impl Iterator<Item = Vec<u8>> {
    folders(format).into_iter().map(move |folder| within(&folder, name))
}

/// Whether a name says its folder itself, so that it isn't looked for in others.
fn says_folder(name: &[u8]) -> bool {
    [&b"/"[..], b"./", b"../"].iter().any(|begin| name.starts_with(begin))
}

/// The path of a file in a folder.
pub fn within(folder: &[u8], name: &[u8]) -> Vec<u8> {
    match folder {
        _ if says_folder(name) || folder == b"." => name.to_vec(),
        _ if folder.ends_with(b"/") => [folder, name].concat(),
        _ => [folder, b"/", name].concat(),
    }
}

/// A text without the `/` at its beginning.
pub fn without_slashes(text: &[u8]) -> &[u8] {
    &text[text.iter().take_while(|byte| **byte == b'/').count()..]
}

/// What stands at a path.
#[derive(Debug, Clone, Copy, PartialEq, Eq)]
enum Stands {
    /// An ordinary file that can be read.
    File,
    /// Something that may not be read.
    Unreadable,
    /// Nothing, or no ordinary file.
    Other,
    /// Who knows: the machine fails.
    Hidden,
}

fn stands_at(path: &[u8]) -> Stands {
    let opened = fs::metadata(path_of(path)).and_then(|data| match data.is_file() {
        true => fs::File::open(path_of(path)).map(|_| Stands::File),
        false => Ok(Stands::Other),
    });
    opened.unwrap_or_else(|fault| match fault.kind() {
        ErrorKind::PermissionDenied => Stands::Unreadable,
        _ if why_missing(&fault).is_some() => Stands::Other,
        _ => Stands::Hidden,
    })
}

/// Whether an ordinary file stands at a path, and can be read.
pub fn stands_as_file(path: &[u8]) -> bool {
    stands_at(path) == Stands::File
}

/// An element of a search path.
struct Element<'a> {
    /// The folder that it names; a `//` stands for any folders between.
    folder: &'a [u8],
    /// Whether only databases are asked.
    is_database: bool,
    /// Whether a database has folders of the element.
    is_listed: bool,
}

impl<'a> Element<'a> {
    /// What an element of a path says; several `/` at its beginning are one.
    fn read(element: &'a [u8], databases: &Databases) -> Element<'a> {
        let (folder, is_database) = element.strip_prefix(b"!!").map_or((element, false), |folder| (folder, true));
        let folder = &folder[(folder.len() - without_slashes(folder).len()).saturating_sub(1)..];
        Element { folder, is_database, is_listed: databases.list(folder) }
    }

    /// Whether it is one folder, which no database lists.
    fn is_folder(&self) -> bool {
        !self.is_listed && !self.is_database && position(self.folder, b"//").is_none()
    }
}

/// The first file of this name along a path. As TeX's library does, it looks twice: first, in folders that are listed in a database, for the files that
/// are listed; then, on the disk, for those that aren't. `listed` are the files of this name that the databases list.
fn find_along(elements: &[Element<'_>], name: &[u8], listed: &[Vec<u8>], set_up: &dyn SetUp) -> Option<Vec<u8>> {
    let (below, _) = split_name(name);
    let in_databases = |element: &Element<'_>| first_in(listed, &[element.folder, &below].concat()).cloned();
    let first =
        |element: &Element<'_>| if element.is_listed { in_databases(element) } else { on_disk(element, name, set_up) };
    let second = || {
        let listed = elements.iter().filter(|element| element.is_listed);
        listed.map(|element| on_disk(element, name, set_up)).find_map(|found| found)
    };
    elements.iter().find_map(first).or_else(second)
}

/// The folders that a name says, with a `/` before them, and the rest of it.
fn split_name(name: &[u8]) -> (Vec<u8>, &[u8]) {
    match name.iter().rposition(|byte| *byte == b'/') {
        Some(at) => ([b"/", &name[..at]].concat(), &name[at + 1..]),
        None => (Vec::new(), name),
    }
}

/// The file of this name that the disk has in an element of a path.
fn on_disk(element: &Element<'_>, name: &[u8], set_up: &dyn SetUp) -> Option<Vec<u8>> {
    if element.is_database || element.folder.is_empty() {
        return None;
    }
    if element.is_folder() {
        let path = within(element.folder, name);
        match stands_at(&path) {
            Stands::File => return Some(path),
            Stands::Unreadable => return None,
            Stands::Other | Stands::Hidden => {}
        }
    }
    set_up.find_in(element.folder, name)
}

/// TeX's path search by its set-up alone.
pub struct SetUpSearch {
    texmf: Texmf,
    databases: OnceCell<Databases>,
    /// How many names were looked for in the databases.
    looked_for: Cell<usize>,
}

impl SetUpSearch {
    fn new(texmf: Texmf) -> SetUpSearch {
        SetUpSearch { texmf, databases: OnceCell::new(), looked_for: Cell::new(0) }
    }

    fn databases(&self) -> &Databases {
        self.databases.get_or_init(|| Databases::read(&self.texmf.databases()))
    }

    fn find(&self, name: &[u8], format: Format) -> Option<Vec<u8>> {
        let name = self.texmf.written_out(name);
        if says_folder(&name) {
            return Some(name).filter(|path| stands_as_file(path));
        }
        let path = self.texmf.path(format)?;
        let elements: Vec<Element<'_>> =
            path.split(|byte| *byte == b':').map(|element| Element::read(element, self.databases())).collect();
        let (_, last) = split_name(&name);
        let looked_for = self.looked_for.replace(self.looked_for.get() + 1);
        find_along(&elements, &name, &self.databases().files_named(last, looked_for), &self.texmf)
    }
}

/// TeX's path search by its library.
pub struct LibrarySearch {
    library: PathLibrary,
    /// What the environment says of the databases.
    given: Option<OsString>,
    /// The set-up without databases.
    set_up: Kpathsea,
    /// The set-up with them, where it was needed.
    full: OnceCell<Kpathsea>,
    databases: OnceCell<Databases>,
    /// How many names were looked for in the databases.
    looked_for: Cell<usize>,
    /// A file of the set-up that the machine can't read, where it was asked.
    unread_set_up: OnceCell<Option<Unread>>,
}

impl LibrarySearch {
    fn begin(library: PathLibrary) -> LibrarySearch {
        // The system's library doesn't know where a TeX has its set-up that the system didn't install.
        if let Some(folders) = Home::of_user().and_then(|home| home.folders_beside_system()) {
            set_variable("TEXMFCNF", Some(OsStr::from_bytes(&folders)));
        }
        let given = env::var_os(DATABASES);
        set_variable(DATABASES, Some(OsStr::new("/nonexistent")));
        let set_up = Kpathsea::begin(&library);
        // Its set-up is read at the first question.
        set_up.path(Format::Style);
        set_variable(DATABASES, given.as_deref());
        let (full, databases, unread_set_up) = (OnceCell::new(), OnceCell::new(), OnceCell::new());
        LibrarySearch { library, given, set_up, full, databases, looked_for: Cell::new(0), unread_set_up }
    }

    fn find(&self, name: &[u8], format: Format) -> Option<Vec<u8>> {
        self.quickly(name, format).or_else(|| {
            // The library would say that of each of its attempts.
            let is_unreadable = places(name, format).any(|path| stands_at(&path) == Stands::Unreadable);
            if is_unreadable {
                None
            } else {
                self.full.get_or_init(|| Kpathsea::begin(&self.library)).find(name, format)
            }
        })
    }

    fn databases(&self) -> &Databases {
        self.databases.get_or_init(|| {
            let given = self.given.as_ref().map(|given| given.as_bytes().to_vec());
            let all = given.or_else(|| self.set_up.setting(c"TEXMFDBS")).and_then(|all| self.set_up.folders(&all));
            Databases::read(&all.unwrap_or_default())
        })
    }

    /// Where the quick search finds a file; None where it doesn't, or where only the library's own search knows.
    fn quickly(&self, name: &[u8], format: Format) -> Option<Vec<u8>> {
        let is_plain = !name.iter().any(|byte| b"$~{}".contains(byte)) && !name.is_empty() && !name.starts_with(b".");
        if !is_plain || self.looked_for.get() >= MOST_QUICK {
            return None;
        }
        let looked_for = self.looked_for.replace(self.looked_for.get() + 1);
        let path = self.set_up.path(format)?;
        let databases = self.databases();
        let elements: Vec<Element<'_>> =
            path.split(|byte| *byte == b':').map(|element| Element::read(element, databases)).collect();
        if databases.have_aliases || elements.iter().any(|element| element.folder.is_empty()) {
            return None;
        }
        if name.contains(&b'/') {
            // As long as the elements are folders of their own, such a name says where below them the file is.
            let folders = elements.iter().take_while(|element| element.is_folder());
            return folders.map(|element| within(element.folder, name)).find(|path| stands_as_file(path));
        }
        find_along(&elements, name, &databases.files_named(name, looked_for), &self.set_up)
    }
}

#[cfg(test)]
mod tests {
    use super::*;
    use std::sync::{Mutex, MutexGuard};

    /// Held while TeX's library is called, which is made for programs with one thread.
    static ALONE: Mutex<()> = Mutex::new(());

    fn alone() -> MutexGuard<'static, ()> {
        ALONE.lock().unwrap_or_else(|poisoned| poisoned.into_inner())
    }

    /// The name of a file with what it is.
    type Named = (Vec<u8>, Format);

    /// TeX's own search, and the names of the styles and databases that TeX's file databases list; None where TeX's library isn't installed.
    fn tex() -> Option<(LibrarySearch, Kpathsea, Vec<Named>)> {
        let Search::ByLibrary(search) = Search::begin() else {
            eprintln!("TeX isn't installed: not tried");
            return None;
        };
        let format = |name: &[u8]| match name {
            _ if name.ends_with(b".bst") => Some(Format::Style),
            _ if name.ends_with(b".bib") => Some(Format::Database),
            _ => None,
        };
        let names = search.databases().names().filter_map(|name| Some((name.to_vec(), format(name)?))).collect();
        let full = Kpathsea::begin(&search.library);
        Some((search, full, names))
    }

    #[test]
    fn what_is_found_quickly_is_what_tex_finds() {
        let _alone = alone();
        let Some((search, full, names)) = tex() else { return };
        let mut quick = 0;
        for (name, format) in &names {
            search.looked_for.set(0);
            let (found, wanted) = (search.quickly(name, *format), full.find(name, *format));
            quick += usize::from(found.is_some());
            assert!(found.is_none() || found == wanted, "{found:?} {wanted:?}");
        }
        eprintln!("{quick} of {} files of TeX's were found quickly, where TeX finds them", names.len());
    }

    #[test]
    fn what_is_found_by_the_set_up_alone_is_what_tex_finds() {
        let _alone = alone();
        let Some((_, full, names)) = tex() else { return };
        let search = SetUpSearch::new(Texmf::find().unwrap());
        for (name, format) in &names {
            assert_eq!(search.find(name, *format), full.find(name, *format), "{}", String::from_utf8_lossy(name));
        }
        let folders = [
            (&b"base/plain.bst"[..], Format::Style),
            (b"bst/base/alpha.bst", Format::Style),
            (b"none.bst", Format::Style),
        ];
        for (name, format) in folders {
            assert_eq!(search.find(name, format), full.find(name, format), "{}", String::from_utf8_lossy(name));
        }
        eprintln!("{} files of TeX's were found by its set-up, where TeX finds them", names.len());
    }

    #[test]
    fn the_set_up_says_what_tex_says() {
        let _alone = alone();
        let Some((search, ..)) = tex() else { return };
        let texmf = Texmf::find().unwrap();
        for name in [
            c"openin_any",
            c"openout_any",
            c"ent_str_size",
            c"glob_str_size",
            c"TEXMFOUTPUT",
            c"TEXMFHOME",
            c"TEXMFDIST",
            c"nothing",
        ] {
            assert_eq!(texmf.value(name), search.set_up.value(name), "{name:?}");
        }
        assert_eq!(texmf.path(Format::Style), search.set_up.path(Format::Style));
        assert_eq!(texmf.path(Format::Database), search.set_up.path(Format::Database));
        for name in [
            "a", ".a", "./a", "../a", "/a", "a/../b", "a/..", "..", "...", ".tex", "a/.tex", ".tex/a", "a//b", "",
            "..a", "a/..b",
        ] {
            assert_eq!(texmf.may_write(name.as_bytes()), search.set_up.may_write(name.as_bytes()), "{name}");
            assert_eq!(texmf.may_read(name.as_bytes()), search.set_up.may_read(name.as_bytes()), "{name}");
        }
    }
}
