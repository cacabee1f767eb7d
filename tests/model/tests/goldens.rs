//! The model gives what the goldens in `tests/designs` and `tests/refuse` hold, so that they can't
//! be renewed to something that the rules don't say.

use model::program::respond;
use std::path::PathBuf;

/// Compares every golden of a folder and gives the names of those that the model contradicts.
fn contradicted(folder: &str, expect: &str) -> Vec<PathBuf> {
    let folder = format!("{}/../{folder}", env!("CARGO_MANIFEST_DIR"));
    let entries = std::fs::read_dir(folder).expect("the folder is there");
    let mut names: Vec<PathBuf> = entries.map(|e| e.expect("it is readable").path()).collect();
    assert!(!names.is_empty());
    let read = |path: PathBuf| std::fs::read(path).expect("the file is there");
    names.retain(|name| respond(&read(name.join("input"))) != read(name.join(expect)));
    names
}

#[test]
fn goldens_are_what_the_model_says() {
    assert_eq!(contradicted("designs", "expect.v"), [] as [PathBuf; 0]);
    assert_eq!(contradicted("refuse", "expect.txt"), [] as [PathBuf; 0]);
}
