//! The files of sheets/.

use std::fs;
use std::path::{Path, PathBuf};

/// Every file of sheets/ with this ending, however deep.
pub fn sheets(ending: &str) -> Vec<PathBuf> {
    below(
        &Path::new(env!("CARGO_MANIFEST_DIR")).join("../../sheets"),
        ending,
    )
}

fn below(folder: &Path, ending: &str) -> Vec<PathBuf> {
    let entries = fs::read_dir(folder).expect("a folder of sheets");
    let paths = entries.map(|entry| entry.expect("an entry").path());
    paths
        .flat_map(|path| match path.is_dir() {
            true => below(&path, ending),
            false => vec![path],
        })
        .filter(|path| path.extension().is_some_and(|name| name == ending))
        .collect()
}
