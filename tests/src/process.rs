//! The program glow as a process: what it is given, what it writes, and how it ends.
use std::fs::{File, OpenOptions};
use std::io::{Seek, Write};
use std::os::fd::OwnedFd;
use std::os::unix::net::UnixDatagram;
use std::os::unix::process::ExitStatusExt;
use std::path::{Path, PathBuf};
use std::process::{Command, Output, Stdio};
use std::sync::atomic::{AtomicUsize, Ordering};

pub fn root() -> PathBuf { Path::new(env!("CARGO_MANIFEST_DIR")).parent().unwrap().to_path_buf() }

/// The term files of a directory.
fn terms_in(dir: &Path) -> Vec<PathBuf> {
    let mut all: Vec<PathBuf> = std::fs::read_dir(dir).unwrap().map(|e| e.unwrap().path()).filter(|p| p.extension().is_some_and(|e| e == "term")).collect();
    all.sort();
    all
}

/// The term files of examples/; beside each is its text and what glow prints for it, and beside some are its bits as text.
pub fn examples() -> Vec<PathBuf> {
    let all = terms_in(&root().join("examples"));
    assert!(all.len() >= 16);
    all
}

/// Examples with named definitions: their directory, and the term files in it; beside each is its text, what glow would print for it and its
/// result as text.
pub fn arithmetic() -> (PathBuf, Vec<PathBuf>) {
    let dir = root().join("examples/arithmetic");
    let all = terms_in(&dir);
    assert!(all.len() >= 6);
    (dir, all)
}

/// The program that GLOW_BIN names, or target/bin/glow.
pub fn program() -> PathBuf {
    let path = std::env::var_os("GLOW_BIN").map_or_else(|| root().join("target/bin/glow"), PathBuf::from);
    assert!(path.is_file(), "there is no program {}: tools/build makes it", path.display());
    path
}

/// A file with these bytes, open at its start and with no name any more.
pub fn file_of(bytes: &[u8]) -> File {
    static MADE: AtomicUsize = AtomicUsize::new(0);
    let path = std::env::temp_dir().join(format!("glow-{}-{}", std::process::id(), MADE.fetch_add(1, Ordering::Relaxed)));
    let mut file = OpenOptions::new().read(true).write(true).create_new(true).open(&path).unwrap();
    std::fs::remove_file(&path).unwrap();
    file.write_all(bytes).unwrap();
    file.rewind().unwrap();
    file
}

/// How a process ended, and what it wrote to standard output, one element for each call of `write`.
#[derive(Clone, Debug, PartialEq, Eq)]
pub struct Ended { pub status: Option<i32>, pub signal: Option<i32>, pub out: Vec<Vec<u8>>, pub err: String }

impl Ended {
    fn new(done: Output, out: Vec<Vec<u8>>) -> Ended {
        Ended { status: done.status.code(), signal: done.status.signal(), out, err: String::from_utf8(done.stderr).unwrap() }
    }
}

/// Runs a command whose standard output is given; what goes there is not seen.
pub fn run_unseen(command: &mut Command) -> Ended { Ended::new(command.stderr(Stdio::piped()).spawn().unwrap().wait_with_output().unwrap(), vec![]) }

/// Runs a command with a datagram socket for standard output, which keeps apart what each call of `write` gives it.
/// A datagram of no bytes, which no `write` of the program's makes, is put behind the last.
pub fn run(command: &mut Command) -> Ended {
    let (ours, theirs) = UnixDatagram::pair().unwrap();
    let end = theirs.try_clone().unwrap();
    let child = command.stdout(OwnedFd::from(theirs)).stderr(Stdio::piped()).spawn().unwrap();
    let reader = std::thread::spawn(move || {
        let mut pieces = Vec::new();
        let mut buffer = vec![0; 1 << 20];
        loop {
            match ours.recv(&mut buffer).unwrap() { 0 => return pieces, n => pieces.push(buffer[..n].to_vec()) }
        }
    });
    let done = child.wait_with_output().unwrap();
    end.send(&[]).unwrap();
    Ended::new(done, reader.join().unwrap())
}
