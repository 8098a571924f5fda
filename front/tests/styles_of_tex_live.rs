//! What is seen of TeX Live's styles by their text, where they are installed.

use bibtex_front::letter_values::FIXED;
use bibtex_front::style_keys::may_print_keys;
use std::fs;
use std::path::{Path, PathBuf};

/// The styles below a folder.
fn styles_below(folder: &Path, into: &mut Vec<PathBuf>) {
    for entry in fs::read_dir(folder).into_iter().flatten().flatten() {
        let path = entry.path();
        if path.is_dir() {
            styles_below(&path, into);
        } else if path.extension().is_some_and(|ending| ending == "bst") {
            into.push(path);
        }
    }
}

/// Styles of which a run shows that they print what they made for sorting.
const PRINTING: [&str; 6] = ["apacannx", "apacitex", "biblatex-ms", "biblatex", "xagsm", "xplain"];

#[test]
fn most_styles_are_seen_to_print_no_keys_and_none_wrongly() {
    let mut paths = Vec::new();
    styles_below(Path::new("/usr/share/texlive/texmf-dist/bibtex/bst"), &mut paths);
    let types: [&[u8]; 6] = [b"article", b"book", b"inproceedings", b"phdthesis", b"incollection", b"misc"];
    let may_print = |path: &PathBuf| may_print_keys(&fs::read(path).unwrap(), &types, &FIXED);
    let (run_twice, run_once): (Vec<PathBuf>, Vec<PathBuf>) = paths.into_iter().partition(may_print);
    let name = |path: &PathBuf| path.file_stem().unwrap().to_string_lossy().into_owned();
    println!("once: {}; twice: {:?}", run_once.len(), run_twice.iter().map(name).collect::<Vec<_>>());
    assert!(run_once.iter().all(|path| !PRINTING.contains(&name(path).as_str())));
    let has_tex_live = run_once.len() + run_twice.len() > 300;
    assert!(!has_tex_live || run_once.len() >= 150, "{} of {}", run_once.len(), run_twice.len());
}
