//! TeX's own path search, where it is installed: the library by which the original finds its files, and obeys TeX's set-up.

use crate::search::SetUp;
use crate::system::{PathLibrary, PathSearch, c_text};
use crate::texmf::home::tex_program;
use std::ffi::CStr;
use std::os::unix::ffi::OsStrExt;

/// What kind of file is looked for; the numbers are those of kpathsea's header.
#[derive(Debug, Clone, Copy, PartialEq, Eq)]
pub enum Format {
    Database = 6,
    Style = 7,
}

impl Format {
    /// The variable of the environment that lists the folders of such files.
    pub fn variable(self) -> &'static str {
        match self {
            Format::Database => "BIBINPUTS",
            Format::Style => "BSTINPUTS",
        }
    }

    /// All such variables, the one that counts first.
    pub fn variables(self) -> &'static [&'static str] {
        match self {
            Format::Database => &["BIBINPUTS", "TEXBIB"],
            Format::Style => &["BSTINPUTS"],
        }
    }
}

/// TeX's set-up, as the original has it.
pub struct Kpathsea(PathSearch);

impl Kpathsea {
    /// Begins a search. TeX's folders are those of the `kpsewhich` on the user's search path, if there is one.
    pub fn begin(library: &PathLibrary) -> Kpathsea {
        let beside = tex_program().and_then(|path| c_text(path.as_os_str().as_bytes()));
        Kpathsea(library.begin(beside.as_deref().unwrap_or(c"/bin/sh"), c"bibtex"))
    }

    /// Where a file of this name is found. None also where no file can have such a name.
    pub fn find(&self, name: &[u8], format: Format) -> Option<Vec<u8>> {
        self.0.find_file(&c_text(name)?, format as i32)
    }
}

impl SetUp for Kpathsea {
    fn path(&self, format: Format) -> Option<Vec<u8>> {
        self.0.path(format as i32)
    }

    fn folders(&self, path: &[u8]) -> Option<Vec<u8>> {
        self.0.path_expand(&c_text(path)?)
    }

    fn setting(&self, name: &CStr) -> Option<Vec<u8>> {
        self.0.setting(name)
    }

    fn value(&self, name: &CStr) -> Option<Vec<u8>> {
        self.0.value(name)
    }

    fn find_in(&self, element: &[u8], name: &[u8]) -> Option<Vec<u8>> {
        self.0.path_search(&c_text(element)?, &c_text(name)?)
    }

    fn may_read(&self, name: &[u8]) -> bool {
        // No file has a name with a byte 0, so there is nothing to be read.
        c_text(name).is_none_or(|name| self.0.may_read(&name))
    }

    fn may_write(&self, name: &[u8]) -> bool {
        c_text(name).is_some_and(|name| self.0.may_write(&name))
    }
}
