//! Where TeX's set-up stands: the folders that may have a file `texmf.cnf`, as seen from where TeX's programs are.

use super::paths;
use super::settings::Settings;
use super::variables::Variables;
use crate::job::{Unread, unread_at};
use crate::search::path_of;
use crate::system::program_named;
use std::env;
use std::ffi::OsStr;
use std::fs;
use std::os::unix::ffi::{OsStrExt, OsStringExt};
use std::path::{Path, PathBuf};

/// The program beside which TeX's folders are looked for: `kpsewhich` on the user's search path, or this one.
pub fn tex_program() -> Option<PathBuf> {
    program_named(OsStr::new("kpsewhich")).or_else(|| env::current_exe().ok())
}

/// The folder of the programs that the system itself installs.
const SYSTEM_FOLDER: &str = "/usr/bin";

/// Where TeX's set-up stands if the system itself installed TeX.
const OF_SYSTEM: &[u8] = b"/etc/texmf/web2c:/etc/texlive/web2c:/usr/local/share/texmf/web2c:/usr/share/texmf-dist/web2c:/usr/share/texlive/texmf-dist/web2c";

/// Where it stands from the folder of TeX's programs, and from the one above: in it, or in one of its trees.
const IN_A_FOLDER: [&str; 7] = [
    "",
    "/share/texmf-local/web2c",
    "/share/texmf-dist/web2c",
    "/share/texmf/web2c",
    "/texmf-local/web2c",
    "/texmf-dist/web2c",
    "/texmf/web2c",
];

/// Where TeX's set-up stands.
#[derive(Debug, Clone, PartialEq, Eq)]
pub struct Home {
    /// The folder of TeX's programs.
    programs: PathBuf,
}

impl Home {
    /// The set-up of the TeX on the user's search path, or of the folder that this program is in.
    pub fn of_user() -> Option<Home> {
        let program = fs::canonicalize(tex_program()?).ok()?;
        Some(Home { programs: program.parent()?.to_path_buf() })
    }

    /// Whether the system itself installed TeX.
    fn is_of_system(&self) -> bool {
        self.programs == Path::new(SYSTEM_FOLDER)
    }

    /// The folder of TeX's programs, the one above, the one above that, and one more.
    fn above(&self) -> [Vec<u8>; 4] {
        let mut folders = self.programs.ancestors().map(|folder| folder.as_os_str().as_bytes().to_vec());
        std::array::from_fn(|_| folders.next().unwrap_or_else(|| b"/".to_vec()))
    }

    /// The variables that say where TeX is.
    pub fn variables(&self) -> impl Iterator<Item = (Vec<u8>, Vec<u8>)> {
        let names = ["SELFAUTOLOC", "SELFAUTODIR", "SELFAUTOPARENT", "SELFAUTOGRANDPARENT"];
        names.into_iter().map(|name| name.as_bytes().to_vec()).zip(self.above())
    }

    /// The folders that TeX Live's own programs look through for their set-up, with `:` between them.
    fn usual_folders(&self) -> Vec<u8> {
        let [programs, above, parent, grandparent] = self.above();
        let in_folder = |folder: &[u8]| IN_A_FOLDER.map(|below| [folder, below.as_bytes()].concat());
        let last = [grandparent.as_slice(), b"/texmf-local/web2c"].concat();
        let mut folders = [in_folder(&programs), in_folder(&above)].concat();
        folders.push(last);
        folders.extend(in_folder(&parent));
        let folders = folders.join(&b':');
        if self.is_of_system() { [OF_SYSTEM, b":", &folders].concat() } else { folders }
    }

    /// The files `texmf.cnf` in the folders that `TEXMFCNF` lists, or else in the usual ones.
    pub fn set_up_files(&self) -> Vec<Vec<u8>> {
        self.files_in(&self.usual_folders())
    }

    /// The files of a set-up that TeX's library may read.
    fn files_for_library(&self) -> Vec<Vec<u8>> {
        self.files_in(&[&self.usual_folders(), &b":"[..], OF_SYSTEM].concat())
    }

    /// Whether TeX's library finds a set-up: without one it looks for files nowhere.
    pub fn has_set_up_for_library(&self) -> bool {
        !self.files_for_library().is_empty()
    }

    /// A file of these that the machine can't read: the library passes it over.
    pub fn unread_set_up(&self) -> Option<Unread> {
        self.files_for_library().iter().find_map(|file| unread_at(file, &fs::File::open(path_of(file)).err()?))
    }

    /// The files `texmf.cnf` in the folders that `TEXMFCNF` lists, or else in these.
    fn files_in(&self, usual: &[u8]) -> Vec<Vec<u8>> {
        let given = env::var_os("TEXMFCNF").map(|given| paths::with_colons(&given.into_vec()));
        let listed = paths::with_default(given.as_deref(), usual);
        let folders = paths::written_out(&listed, &Variables::new(self, Settings::default()));
        let file = |folder: &[u8]| [folder.strip_prefix(b"!!").unwrap_or(folder), b"/texmf.cnf"].concat();
        let files = folders.split(|byte| *byte == b':').filter(|folder| !folder.is_empty()).map(file);
        files.filter(|file| path_of(file).is_file()).collect()
    }

    /// The folders of the set-up of a TeX that the system didn't install, as `TEXMFCNF` lists them: the system's own library doesn't know these.
    pub fn folders_beside_system(&self) -> Option<Vec<u8>> {
        if self.is_of_system() || env::var_os("TEXMFCNF").is_some() {
            return None;
        }
        let files = self.set_up_files();
        let folders: Vec<&[u8]> = files.iter().filter_map(|file| file.strip_suffix(b"/texmf.cnf")).collect();
        (!folders.is_empty()).then(|| folders.join(&b':'))
    }
}

#[cfg(test)]
mod tests {
    use super::*;

    #[test]
    fn the_set_up_stands_in_trees_beside_the_programs() {
        let home = Home { programs: PathBuf::from("/opt/tl/2022/bin/x86_64-linux") };
        let folders = home.usual_folders();
        let folders: Vec<_> = folders.split(|byte| *byte == b':').map(String::from_utf8_lossy).collect();
        for wanted in ["/opt/tl/2022", "/opt/tl/2022/texmf-dist/web2c", "/opt/tl/texmf-local/web2c", "/opt/tl/2022/bin"]
        {
            assert!(folders.iter().any(|folder| folder == wanted), "{wanted}");
        }
        let parent = home.variables().find(|(name, _)| name == b"SELFAUTOPARENT").unwrap().1;
        assert_eq!(parent, b"/opt/tl/2022");
        assert!(!home.is_of_system() && Home { programs: PathBuf::from("/usr/bin") }.is_of_system());
    }
}
