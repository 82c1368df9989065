//! What is public has an example. A method of a look-alike that says `As that of` has the one of `std` or loom.
use std::fs;
use std::path::{Path, PathBuf};

fn sources(folder: &Path) -> Vec<PathBuf> {
    let inside = fs::read_dir(folder).unwrap().map(|entry| entry.unwrap().path());
    inside.flat_map(|path| if path.is_dir() { sources(&path) } else { vec![path] }).collect()
}

fn is_public(line: &str) -> bool {
    ["pub fn ", "pub struct ", "pub enum ", "pub trait "].iter().any(|begin| line.starts_with(begin))
}

#[test]
fn each_public_item_has_an_example() {
    let mut without = Vec::new();
    for file in sources(&Path::new(env!("CARGO_MANIFEST_DIR")).join("src")) {
        let text = fs::read_to_string(file).unwrap();
        let mut has_example = false;
        for (line, is_method) in text.lines().map(|line| (line.trim_start(), line.starts_with("    "))) {
            if is_public(line) && !has_example {
                without.push(line.to_string());
            }
            let is_before_item = line.starts_with("//") || line.starts_with("#[");
            let is_example = line == "/// ```" || is_method && line.starts_with("/// As that of ");
            has_example = is_before_item && (has_example || is_example);
        }
    }
    assert!(without.is_empty(), "{without:#?}");
}
