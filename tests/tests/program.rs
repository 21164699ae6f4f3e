//! The program itself, as .ci/run or tools/build leave it: what it prints, in how many calls of `write`, how it ends and what it says on
//! standard error. What it must print is worked out by the second implementation.
#![cfg(feature = "library")]
use glow_tests::families::*;
use glow_tests::flat::*;
use glow_tests::machine::{evaluate, printed, Lengths, Rules, GLOW_BUDGET};
use glow_tests::file::REFUSED_FILES;
use glow_tests::marked::FF;
use glow_tests::process::{examples, file_of, program, run, run_unseen, Ended};
use std::fs::File;
use std::io::{Read, Seek, Write};
use std::os::fd::OwnedFd;
use std::os::unix::net::{UnixDatagram, UnixStream};
use std::process::{Command, Stdio};

const READ: usize = 49_157;

fn glow(input: impl Into<Stdio>) -> Command { let mut c = Command::new(program()); c.stdin(input); c }
/// A shell that sets descriptors or signals as the script says and then becomes the program.
fn shell(script: &str, input: impl Into<Stdio>) -> Command { let mut c = Command::new("sh"); c.args(["-c", &format!("{script} exec \"$0\"")]).arg(program()).stdin(input); c }

fn expected(file: &[u8]) -> String { printed(&evaluate(Rules::First, &file[..file.len().min(READ)], GLOW_BUDGET, &Lengths::glow())) }

/// The bytes of the text, or else where they part from it: a text may have more than a screen holds.
#[track_caller]
fn same(out: &[u8], text: &str) {
    let at = out.iter().zip(text.as_bytes()).take_while(|(x, y)| x == y).count();
    let shown = |bytes: &[u8]| String::from_utf8_lossy(&bytes[at..bytes.len().min(at + 60)]).into_owned();
    assert!(out == text.as_bytes(), "{} bytes for {}, which part at {at}: {:?} for {:?}", out.len(), text.len(), shown(out), shown(text.as_bytes()));
}
/// The answer in one piece, the status 0 and no word on standard error.
#[track_caller]
fn prints(ended: Ended, text: &str) {
    same(&ended.out.concat(), text);
    assert_eq!((ended.status, ended.signal, ended.err.as_str()), (Some(0), None, ""));
    assert_eq!(ended.out.len(), 1, "calls of write");
}
#[track_caller]
fn answers(file: &[u8]) -> String {
    let text = expected(file);
    prints(run(&mut glow(file_of(file))), &text);
    text
}
/// Nothing written that is seen, the status 1 and one line on standard error.
#[track_caller]
fn fails(ended: Ended, line: &str) { assert_eq!(ended, Ended { status: Some(1), signal: None, out: vec![], err: format!("glow: {line}\n") }); }
/// Ended by a signal, and silent.
#[track_caller]
fn killed(ended: Ended, signal: i32) { assert_eq!(ended, Ended { status: None, signal: Some(signal), out: vec![], err: String::new() }); }

fn term(f: usize, text: &str) -> Vec<u8> { from_text(f, text).file() }
/// Example 1 of source document 000.
fn example() -> Vec<u8> { term(1, FF) }
/// The longest texts: results of 16,384 nodes, or of 16,383 where the nodes are paired off, with small and with large names.
fn largest() -> Vec<Vec<u8>> {
    let file = |f: usize, t: Flat| canonical(f, &t).file();
    vec![
        file(1, left_nested(8191, Y)), file(1, right_nested(8191, Y)), file(16_384, left_nested(8191, 16_383)), file(16_384, right_nested(8191, 16_383)),
        file(1, l(9_000_000, left_nested(8191, Y))), file(0, nested_abstractions(16_383)), file(16_384, nested_abstractions(16_383)), file(1, open_explosion(13)),
    ]
}

#[test]
fn every_example() {
    for path in examples() {
        assert_eq!(answers(&std::fs::read(&path).unwrap()), std::fs::read_to_string(path.with_extension("out")).unwrap(), "{}", path.display());
    }
}

/// Refusals 1 to 7 by paper 01's examples, and what a run can end with. 8, 10, 11, spent and the loading refusals cannot come: 16,384
/// nodes have at most 8,191 applications, and each beta has an enter before it that no other has, so that no run makes 8,192 beta steps or takes
/// more cells or names than there are.
#[test]
fn each_answer() {
    let numbered = REFUSED_FILES;
    for (k, file) in numbered.iter().enumerate() { assert_eq!(answers(file), format!("refused {}\n", k + 1)); }
    assert_eq!(answers(&[]), "refused 1\n");
    assert!(answers(&canonical(0, &omega()).file()).starts_with("refused 9\n"));
    assert!(answers(&canonical(1, &open_explosion(14)).file()).starts_with("refused 12\n"));
    assert_eq!(answers(&example()), "normal\nbeta 2\nsubst 2 of 12\nenter 3\nleave 2 1\nshift 6 of 18\nstore 13 3 5\nterm a1 v0 l1 v1\n");
}

#[test]
fn largest_results() {
    for file in largest() {
        let text = answers(&file);
        assert!(text.starts_with("normal\n"));
        // once more through a pipe, which holds less than the whole
        let done = glow(file_of(&file)).stdout(Stdio::piped()).stderr(Stdio::piped()).spawn().unwrap().wait_with_output().unwrap();
        same(&done.stdout, &text);
        assert!(done.status.success() && done.stderr.is_empty());
    }
}

/// Input beyond 49,157 bytes is left where it is.
#[test]
fn no_further_is_read() {
    let whole = &largest()[0];
    assert_eq!(whole.len(), READ - 4); // 16,383 nodes
    for extra in [0, 3, 4, 5, 6, 3000, 10_000] {
        let mut file = whole.clone();
        file.resize(whole.len() + extra, 7);
        let text = if extra == 0 { expected(&file) } else { "refused 3\n".into() };
        let mut kept = file_of(&file);
        prints(run(&mut glow(kept.try_clone().unwrap())), &text);
        assert_eq!(kept.stream_position().unwrap(), file.len().min(READ) as u64);
        let (mut near, mut far) = UnixStream::pair().unwrap();
        far.write_all(&file).unwrap();
        drop(far);
        prints(run(&mut glow(OwnedFd::from(near.try_clone().unwrap()))), &text);
        let mut rest = Vec::new();
        near.read_to_end(&mut rest).unwrap();
        assert_eq!(rest, file[file.len().min(READ)..]);
    }
}

/// Each datagram is what one call of `read` gets, and one of no bytes is the input's end.
#[test]
fn input_in_pieces() {
    for (file, size) in [(example(), 1), (example(), 30), (largest().remove(1), 1), (largest().remove(6), 997), (largest().remove(7), 65)] {
        let (near, far) = UnixDatagram::pair().unwrap();
        let text = expected(&file);
        let feeder = std::thread::spawn(move || for piece in file.chunks(size).chain([&[][..]]) { far.send(piece).unwrap(); });
        prints(run(&mut glow(OwnedFd::from(near))), &text);
        feeder.join().unwrap();
    }
}

#[test]
fn input_that_cannot_be_read() {
    fails(run(&mut shell("exec <&-;", Stdio::null())), "cannot read the input: Bad file descriptor");
    fails(run(&mut glow(File::open("/").unwrap())), "cannot read the input: Is a directory");
    // a read that fails after one that did not: the bytes that came are no file
    let (near, mut far) = UnixStream::pair().unwrap();
    near.set_nonblocking(true).unwrap();
    far.write_all(&example()).unwrap();
    fails(run(&mut glow(OwnedFd::from(near))), "cannot read the input: Resource temporarily unavailable");
    // and where the line cannot be written either, the status tells
    let silent = run(&mut shell("exec <&- 2>&-;", Stdio::null()));
    assert_eq!(silent, Ended { status: Some(1), signal: None, out: vec![], err: String::new() });
}

#[test]
fn output_that_cannot_be_written() {
    for file in [example(), vec![], largest().remove(1)] {
        let file = || file_of(&file);
        fails(run_unseen(&mut shell("exec >&-;", file())), "cannot write the output: Bad file descriptor");
        fails(run_unseen(glow(file()).stdout(File::options().write(true).open("/dev/full").unwrap())), "cannot write the output: No space left on device");
        fails(run_unseen(glow(file()).stdout(File::open("/dev/null").unwrap())), "cannot write the output: Bad file descriptor");
        // a pipe that nobody reads ends the program, as the system has it, before it can say anything; unless the signal is ignored
        let unread = || OwnedFd::from(UnixStream::pair().unwrap().0);
        killed(run_unseen(glow(file()).stdout(unread())), 13);
        fails(run_unseen(shell("trap '' PIPE;", file()).stdout(unread())), "cannot write the output: Broken pipe");
    }
    // a file that may grow to a few hundred bytes takes a part of the text, and then no more
    let mut part = file_of(&[]);
    fails(run_unseen(shell("trap '' XFSZ; ulimit -f 1;", file_of(&largest()[1])).stdout(part.try_clone().unwrap())), "cannot write the output: File too large");
    part.rewind().unwrap();
    let mut bytes = Vec::new();
    part.read_to_end(&mut bytes).unwrap();
    assert!(!bytes.is_empty());
    same(&bytes, &expected(&largest()[1])[..bytes.len()]);
}
