//! `bibtex-confined`: see `bibtex_front::confined_program`.

use bibtex_front::system::Memory;
use std::process::ExitCode;

#[global_allocator]
static MEMORY: Memory = Memory { name: "bibtex-confined", has_names: false };

fn main() -> ExitCode {
    bibtex_front::confined_program::main()
}
