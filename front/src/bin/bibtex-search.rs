//! `bibtex-search`: see `bibtex_front::search_program`.

use bibtex_front::system::Memory;
use std::process::ExitCode;

#[global_allocator]
static MEMORY: Memory = Memory { name: "bibtex-search", has_names: true };

fn main() -> ExitCode {
    bibtex_front::search_program::main()
}
