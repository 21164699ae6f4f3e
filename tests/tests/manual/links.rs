//! The links of all documents.
use crate::{need, sources, Checked};
use glow_tests::markdown::{anchors, links};
use glow_tests::process::root;
use std::path::{Path, PathBuf};

/// The documents, by their paths in the repository.
fn documents() -> Vec<PathBuf> {
    let mut all = sources(&["docs"], "md");
    all.extend(["README.md", "tests/README.md"].map(|path| root().join(path)));
    all
}

/// Each link to a file of the repository leads to one, and each to a heading leads to one.
pub fn links_lead(path: &Path, text: &str) -> Checked {
    let all = links(text);
    for link in all.iter().filter(|link| !link.target.contains("://")) {
        let (file, place) = link.target.split_once('#').unwrap_or((&link.target, ""));
        let file = if file.is_empty() { path.to_path_buf() } else { path.parent().unwrap().join(file) };
        need(file.exists(), || format!("{}, line {}: there is no {}", path.display(), link.line, link.target))?;
        let there = || anchors(&if file == path { text.to_string() } else { std::fs::read_to_string(&file).unwrap() });
        need(place.is_empty() || there().iter().any(|name| name == place), || format!("{}, line {}: no heading #{place}", path.display(), link.line))?;
    }
    Ok(all.len())
}

#[test]
fn each_link() {
    let found: usize = documents().iter().map(|path| links_lead(path, &std::fs::read_to_string(path).unwrap()).unwrap()).sum();
    assert!(documents().len() >= 6 && found >= 150, "{found} links");
}
