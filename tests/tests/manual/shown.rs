//! What the manual and README show: commands with what they print, and code.
use crate::{manual, need, read, same, sources, Checked};
use glow_tests::markdown::{blocks, Block};
use glow_tests::process::{program, root};
use std::path::{Path, PathBuf};
use std::process::Command;

/// What a command of a `bash` block may begin with. Such a block is not run: it installs, proves or is the gate.
const NOT_RUN: [&str; 3] = [".ci/run", "tools/build", "tools/setup"];

/// A directory for what the commands make, with a stand-in for tools/glow that builds nothing.
pub struct Place(PathBuf);
impl Place {
    pub fn new(name: &str) -> Place {
        let dir = std::env::temp_dir().join(format!("glow-manual-{name}-{}", std::process::id()));
        std::fs::create_dir_all(&dir).unwrap();
        std::fs::write(dir.join("glow"), format!("[ \"${{1:--}}\" = - ] || exec < \"$1\"\nexec '{}'\n", program().display())).unwrap();
        Place(dir)
    }
    /// The command with the program, the library and the directory of this test in the places of the user's.
    fn placed(&self, command: &str) -> String {
        let dir = self.0.display();
        command.replace("/tmp/", &format!("'{dir}'/")).replace("target/lib/libglow.a", &format!("'{}'", archive().display())).replace("tools/glow", &format!("sh '{dir}/glow'"))
    }
    fn prints(&self, command: &str) -> Result<String, String> {
        let cargo = Path::new(env!("CARGO")).parent().unwrap().display();
        let path = format!("{cargo}:{}", std::env::var("PATH").unwrap_or_default());
        let done = Command::new("sh").args(["-e", "-c", &self.placed(command)]).current_dir(root()).env("PATH", path).output().map_err(|why| why.to_string())?;
        need(done.status.success(), || format!("{command}: {}, {}", done.status, String::from_utf8_lossy(&done.stderr)))?;
        String::from_utf8(done.stdout).map_err(|why| why.to_string())
    }
}
impl Drop for Place { fn drop(&mut self) { let _ = std::fs::remove_dir_all(&self.0); } }

/// The library that the tests are linked with.
fn archive() -> PathBuf {
    let dir = std::env::var_os("GLOW_LIB_DIR").map_or_else(|| root().join("target/lib"), PathBuf::from);
    let dir = if dir.is_absolute() { dir } else { root().join(dir) };
    dir.join("libglow.a")
}

fn words(text: &str) -> String { text.split_whitespace().collect::<Vec<_>>().join(" ") }

/// A block of code stands in one of the files, but for spaces.
fn stands_in(block: &Block, files: &[PathBuf]) -> Result<(), String> {
    let code = words(&block.text);
    let found = files.iter().any(|path| words(&std::fs::read_to_string(path).unwrap()).contains(&code));
    need(!code.is_empty() && found, || format!("line {}: this code is in no source", block.line))
}

fn code_block(block: &Block) -> Result<(), String> {
    let crates: Vec<String> = std::fs::read_dir(root().join("crates")).unwrap().map(|e| format!("crates/{}/src", e.unwrap().file_name().to_string_lossy())).filter(|dir| root().join(dir).is_dir()).collect();
    let crates: Vec<&str> = crates.iter().map(String::as_str).collect();
    match block.kind.as_str() {
        "rattle" => stands_in(block, &sources(&crates, "rt")),
        "c" => stands_in(block, &[sources(&["embed"], "h"), sources(&["embed"], "c")].concat()),
        "rust" => stands_in(block, &sources(&["embed/rust/src", "embed/rust/examples"], "rs")),
        "bash" => need(block.text.lines().all(|line| NOT_RUN.iter().any(|word| line.split_whitespace().next() == Some(word))), || format!("line {}: a command that is not run", block.line)),
        kind => Err(format!("line {}: a block of the kind {kind:?}", block.line)),
    }
}

/// Each `sh` block is followed by the `text` that it prints, each `text` comes so, and any other block is of a known kind. Tells the pairs.
pub fn pairs(text: &str) -> Result<Vec<(Block, Block)>, String> {
    let mut pairs = Vec::new();
    let mut all = blocks(text)?.into_iter();
    while let Some(block) = all.next() {
        if block.kind != "sh" { code_block(&block)?; continue; }
        match all.next() {
            Some(output) if output.kind == "text" => pairs.push((block, output)),
            _ => return Err(format!("line {}: a command without its output", block.line)),
        }
    }
    Ok(pairs)
}

pub fn outputs(text: &str, place: &Place) -> Checked {
    let pairs = pairs(text)?;
    for (command, output) in &pairs { same(&format!("line {}, {}", command.line, command.text.trim()), output.text.as_str(), &place.prints(&command.text)?)?; }
    Ok(pairs.len())
}

#[test]
fn what_the_manual_shows() { let found = outputs(&manual(), &Place::new("manual")).unwrap(); assert!(found >= 8, "{found} commands with an output"); }

#[test]
fn what_the_readme_shows() { let found = outputs(&read("README.md"), &Place::new("readme")).unwrap(); assert!(found >= 1, "{found} commands with an output"); }
