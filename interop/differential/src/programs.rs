//! The built programs.

use std::path::{Path, PathBuf};

const FOLDER_VARIABLE: &str = "LIROPUVA_BIN_DIR";

/// The program of this name, where rt builds it, or in the folder that the variable
/// names.
pub fn program(name: &str) -> PathBuf {
    let folder = match std::env::var_os(FOLDER_VARIABLE) {
        Some(folder) => PathBuf::from(folder),
        None => {
            let crates = Path::new(env!("CARGO_MANIFEST_DIR")).join("../../crates");
            crates.join(name).join("out")
        }
    };
    let program = folder.join(name);
    let program = program.canonicalize().unwrap_or_else(|error| {
        panic!(
            "{}: {error}: run `rt run` in the repository's folder crates/{name}, or set \
             {FOLDER_VARIABLE} to the folder that holds {name}",
            program.display()
        )
    });
    assert!(program.is_file(), "{} is no file", program.display());
    program
}
