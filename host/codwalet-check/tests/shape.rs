//! What ships, the library and the command line, uses nothing of this package.

use std::path::{Path, PathBuf};

/// The manifest and the sources of a package of the workspace.
fn files_of(package: &str) -> Vec<PathBuf> {
    let mut files = Vec::new();
    let mut folders = vec![Path::new(env!("CARGO_MANIFEST_DIR")).join("..").join(package)];
    while let Some(folder) = folders.pop() {
        for entry in std::fs::read_dir(folder).expect("the folder is read") {
            let path = entry.expect("an entry is read").path();
            if path.is_dir() { folders.push(path) } else { files.push(path) }
        }
    }
    files
}

#[test]
fn nothing_of_this_package_is_named() {
    let (package, library) = ("codwalet-check", "codwalet_check::");
    for file in ["codwalet", "codwalet-cli"].iter().flat_map(|package| files_of(package)) {
        let text = std::fs::read_to_string(&file).expect("the file is text");
        assert!(!text.contains(package) && !text.contains(library), "{}", file.display());
    }
}
