//! TeX's set-up, read from its own files: the search paths, the rules for names, and limits. It serves where TeX's library of path search isn't
//! installed, as with TeX Live's own installer.
//!
//! | module | what |
//! |---|---|
//! | [`home`] | in which folders the files `texmf.cnf` stand |
//! | [`settings`] | what these files say |
//! | [`variables`] | the values of variables: of the environment, or else of the set-up |
//! | [`paths`] | a search path, with all its parts written out |
//! | [`folders`] | the folders that an element of a path stands for |
//! | [`names`] | which names may be read and written |

pub mod folders;
pub mod home;
pub mod names;
pub mod paths;
pub mod settings;
pub mod variables;

use crate::job::{Unread, unread_at};
use crate::kpathsea::Format;
use crate::search::{SetUp, path_of, stands_as_file, within};
use home::Home;
use names::Openness;
use settings::Settings;
use std::cell::RefCell;
use std::collections::HashMap;
use std::ffi::CStr;
use std::fs;
use std::rc::Rc;
use variables::Variables;

/// The paths of folders.
type Folders = Rc<[Vec<u8>]>;

/// TeX's set-up.
pub struct Texmf {
    variables: Variables,
    /// The folders of the elements that were looked through, so that each is read once.
    folders: RefCell<HashMap<Vec<u8>, Folders>>,
    /// What the machine couldn't read first: a file of the set-up, or a folder.
    unread: RefCell<Option<Unread>>,
}

/// The path of files of any kind, where TeX's set-up says nothing of them.
const PRESENT_FOLDER: &[u8] = b".";

impl Texmf {
    /// The set-up of the TeX on the user's search path; None where it has no `texmf.cnf`. Where the machine can't read one, it has no settings.
    pub fn find() -> Option<Texmf> {
        let home = Home::of_user()?;
        let (mut texts, mut unread) = (Vec::new(), None);
        for file in home.set_up_files() {
            match fs::read(path_of(&file)) {
                Ok(text) => texts.push(text),
                Err(fault) => unread = unread.or_else(|| unread_at(&file, &fault)),
            }
        }
        if texts.is_empty() && unread.is_none() {
            return None;
        }
        let variables = Variables::new(&home, Settings::read(texts.iter().map(Vec::as_slice)));
        Some(Texmf { variables, folders: RefCell::default(), unread: RefCell::new(unread) })
    }

    /// What the machine couldn't read so far.
    pub fn unread(&self) -> Option<Unread> {
        self.unread.borrow().clone()
    }

    /// The folders that an element of a path stands for.
    fn folders_of(&self, element: &[u8]) -> Folders {
        let (mut known, mut unread) = (self.folders.borrow_mut(), self.unread.borrow_mut());
        known.entry(element.to_vec()).or_insert_with(|| folders::folders_of(element, &mut unread).into()).clone()
    }

    /// A name with its variables, and a `~` at its beginning, written out.
    pub fn written_out(&self, name: &[u8]) -> Vec<u8> {
        self.variables.written_out(name)
    }

    /// The folders that may have a file database, with `:` between them.
    pub fn databases(&self) -> Vec<u8> {
        let given = self.variables.given(b"TEXMFDBS").or_else(|| self.variables.setting(b"TEXMFDBS"));
        given.and_then(|given| self.folders(given)).unwrap_or_default()
    }

    /// Whether a variable of the set-up, or where it isn't set `default`, allows this name.
    fn allows(&self, variable: &CStr, default: Openness, name: &[u8]) -> bool {
        let openness = self.value(variable).map_or(default, |value| Openness::of(&value));
        names::is_allowed(name, openness, self.value(c"TEXMFOUTPUT").as_deref())
    }
}

impl SetUp for Texmf {
    fn path(&self, format: Format) -> Option<Vec<u8>> {
        let set = self.variables.setting(format.variable().as_bytes());
        let path = paths::with_default(set, PRESENT_FOLDER);
        let given = format.variables().iter().find_map(|variable| self.variables.given(variable.as_bytes()));
        let given = given.map(paths::with_colons);
        Some(paths::written_out(&paths::with_default(given.as_deref(), &path), &self.variables))
    }

    fn folders(&self, path: &[u8]) -> Option<Vec<u8>> {
        let path = paths::written_out(path, &self.variables);
        let elements = path.split(|byte| *byte == b':').map(|element| element.strip_prefix(b"!!").unwrap_or(element));
        let folders: Vec<&[u8]> = elements.filter(|folder| path_of(folder).is_dir()).collect();
        Some(folders.join(&b':'))
    }

    fn setting(&self, name: &CStr) -> Option<Vec<u8>> {
        self.variables.setting(name.to_bytes()).map(<[u8]>::to_vec)
    }

    fn value(&self, name: &CStr) -> Option<Vec<u8>> {
        self.variables.value(name.to_bytes())
    }

    fn find_in(&self, element: &[u8], name: &[u8]) -> Option<Vec<u8>> {
        let folders = self.folders_of(element);
        folders.iter().map(|folder| within(folder, name)).find(|path| stands_as_file(path))
    }

    fn may_read(&self, name: &[u8]) -> bool {
        self.allows(c"openin_any", Openness::Any, name)
    }

    fn may_write(&self, name: &[u8]) -> bool {
        self.allows(c"openout_any", Openness::Paranoid, name)
    }
}
