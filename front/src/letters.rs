//! Letters of UTF-8 in lists of references. The original reads text byte by byte, and so a style may cut a letter into halves, which LaTeX refuses.

use crate::job::Files;

/// How text is read.
#[derive(Debug, Clone, Copy, PartialEq, Eq)]
pub enum TextMode {
    /// By bytes, as the original does; and by letters where that would leave half a letter in a list whose files are UTF-8.
    Auto,
    Bytes,
    Utf8,
}

/// Whether the style of a job is UTF-8.
pub fn style_is_whole(files: &Files) -> bool {
    files.with_ending(".bst").filter_map(|file| file.bytes.as_deref()).all(|bytes| std::str::from_utf8(bytes).is_ok())
}

#[cfg(test)]
mod tests {
    use super::*;
    use crate::job::File;

    #[test]
    fn a_style_is_whole_where_it_is_utf8() {
        let is_whole = |style: &[u8]| {
            let file =
                |name: &str, bytes: &[u8]| File { name: name.into(), bytes: Some(bytes.to_vec()), path: Vec::new() };
            style_is_whole(&Files { top: b"a.aux".to_vec(), all: vec![file("s.bst", style), file("d.bib", b"\xE9")] })
        };
        assert!(is_whole("é".as_bytes()) && !is_whole(b"\xE9"));
    }
}
