//! Around the library: the wrapper's own types, the examples in C and Rust, tools/terms, tools/glow and examples/.
use glow_tests::case::Case;
use glow_tests::flat::text;
use glow_tests::machine::*;
use glow_tests::prelude::{put_in, read};
use glow_tests::process::{arithmetic, examples, file_of, root};
use std::path::Path;
use std::process::Command;

#[test]
fn examples_print_as_written() {
    for path in examples() {
        let file = std::fs::read(&path).unwrap();
        let out = std::fs::read_to_string(path.with_extension("out")).unwrap();
        Case::glow(Rules::OnDemand, &file).check();
        assert_eq!(printed(&Case::glow(Rules::First, &file).check()), out, "{}", path.display());
    }
}

/// What tools/terms writes for these words, with this input.
fn terms(words: &[&str], input: &[u8]) -> Vec<u8> {
    let done = Command::new("python3").arg(root().join("tools/terms")).args(words).stdin(file_of(input)).output().unwrap();
    assert!(done.status.success(), "{words:?}: {}", String::from_utf8_lossy(&done.stderr));
    done.stdout
}

#[test]
fn terms_tool() {
    let terms = root().join("tools/terms");
    let done = Command::new("python3").arg(&terms).arg("--self-test").output().unwrap();
    assert!(done.status.success(), "{}", String::from_utf8_lossy(&done.stderr));
    for path in examples() {
        let made = Command::new("python3").arg(&terms).args(["make", &format!("@{}", path.with_extension("txt").display())]).output().unwrap();
        assert!(made.status.success(), "{}", String::from_utf8_lossy(&made.stderr));
        assert_eq!(made.stdout, std::fs::read(&path).unwrap(), "{}", path.display());
    }
    for words in [
        &["make", "(x"][..], &["prelude", "a = \\x. a"], &["make", "--put-in", "x"], &["show", "--plain", "-"], &["show", "--definitions", "--bits", "-"],
        &["make", "--prelude", "-", "-"], &["make", "--prelude", "a = \\x. x", "-f", "1", "v0"], &["show", "--prelude", "", "--nodes", "-"],
    ] {
        let wrong = Command::new("python3").arg(&terms).args(words).stdin(file_of(&[])).output().unwrap();
        assert_eq!((wrong.status.code(), wrong.stdout), (Some(1), vec![]), "{words:?}");
        assert!(String::from_utf8_lossy(&wrong.stderr).starts_with("terms: "), "{words:?}");
    }
}

/// The bits as text that stand beside some examples, and packed bits of all of them, there and back.
#[test]
fn terms_tool_bits() {
    let mut as_text = 0;
    for path in examples() {
        let file = std::fs::read(&path).unwrap();
        let f = u16::from_le_bytes([file[0], file[1]]).to_string();
        let packed = terms(&["export", "-"], &file);
        assert_eq!(terms(&["import", "-f", &f, "-"], &packed), file, "{}", path.display());
        let Ok(text) = std::fs::read(path.with_extension("bits")) else { continue };
        assert_eq!(terms(&["show", "--bits", "-"], &file), text, "{}", path.display());
        assert_eq!(terms(&["make", "--bits", "-f", &f, "-"], &text), file, "{}", path.display());
        as_text += 1;
    }
    assert!(as_text >= 2);
}

/// The examples with named definitions: prelude and terms are those of the texts; the answers, the written results and the results as texts
/// are right; and the tool puts the definitions in as the second implementation does, which changes neither outcome nor betas.
#[test]
fn arithmetic_prints_as_written() {
    let (dir, all) = arithmetic();
    let definitions = format!("@{}", dir.join("church.txt").display());
    let prelude = std::fs::read(dir.join("church.prelude")).unwrap();
    assert_eq!(terms(&["prelude", &definitions], &[]), prelude);
    assert_eq!(terms(&["prelude", "-"], &terms(&["show", "--definitions", "-"], &prelude)), prelude);
    for path in all {
        let file = std::fs::read(&path).unwrap();
        let source = format!("@{}", path.with_extension("txt").display());
        assert_eq!(terms(&["make", "--prelude", &definitions, &source], &[]), file, "{}", path.display());
        let whole = terms(&["make", "--prelude", &definitions, "--put-in", &source], &[]);
        let (term, parsed) = read(&prelude, &file).unwrap();
        let nodes: String = parsed.iter().map(|p| text(&p.tags, &p.args) + "\n").collect();
        assert_eq!(String::from_utf8(terms(&["show", "--definitions", "--nodes", "-"], &prelude)).unwrap(), format!("# d = {}\n{nodes}", parsed.len()));
        assert_eq!(put_in(&term, &parsed).unwrap().file(), whole, "{}", path.display());
        for rules in BOTH {
            let (with, without) = (Case::glow(rules, &file).with(&prelude).check(), Case::glow(rules, &whole).check());
            assert_eq!((&with.run().outcome, with.run().counts.beta), (&without.run().outcome, without.run().counts.beta), "{}", path.display());
            let Outcome::Normal(result) = &with.run().outcome else { panic!("{}", path.display()) };
            assert_eq!(terms(&["show", "--prelude", &definitions, "-"], &result.file()), std::fs::read(path.with_extension("shown")).unwrap(), "{}", path.display());
            if rules == Rules::First { assert_eq!(printed(&with), std::fs::read_to_string(path.with_extension("out")).unwrap(), "{}", path.display()); }
        }
    }
}

/// What is no file is told before anything is built, and nothing is printed. What it prints for a file, the gate compares.
#[test]
fn glow_tool() {
    for wrong in [&["nowhere.term"][..], &["examples"], &["--help"], &[""], &["one", "two"]] {
        let done = Command::new(root().join("tools/glow")).args(wrong).current_dir(root()).output().unwrap();
        assert_eq!((done.status.code(), done.stdout), (Some(2), vec![]), "{wrong:?}");
        assert!(String::from_utf8_lossy(&done.stderr).starts_with("tools/glow: "), "{wrong:?}");
    }
}

#[cfg(feature = "library")]
mod library {
    use super::*;
    use glow_tests::case::told;
    use glow_tests::flat::from_text;
    use glow_tests::marked::FF;

    /// One Stores, never cleared, for all calls: what the stores held before changes nothing.
    #[test]
    fn the_wrapper() {
        let mut stores = glow::Stores::glow();
        for _ in 0..2 {
            for path in examples() {
                let file = std::fs::read(&path).unwrap();
                let f = u16::from_le_bytes([file[0], file[1]]) as usize;
                for rules in BOTH {
                    let want = evaluate(rules, &file, GLOW_BUDGET, &Lengths::glow());
                    assert_eq!(told(f, stores.evaluate(rules.into(), &file, GLOW_BUDGET)), want);
                    assert_eq!(told(f, stores.evaluate_on_this_stack(rules.into(), &file, GLOW_BUDGET)), want);
                    for budget in 0..40 { assert_eq!(told(f, stores.evaluate(rules.into(), &file, budget)), evaluate(rules, &file, budget, &Lengths::glow())); }
                }
            }
            for bytes in [&[1, 0, 1][..], &[0, 0, 0, 0], &[1, 0, 1, 0, 0], &[1, 0, 1, 0, 3, 0, 0]] {
                for rules in BOTH { assert_eq!(told(0, stores.evaluate(rules.into(), bytes, 9)), evaluate(rules, bytes, 9, &Lengths::glow())); }
            }
        }
        for (machine, substs) in [(glow::Machine::First, 2), (glow::Machine::OnDemand, 1)] {
            let glow::Answer::Ran { outcome: glow::Outcome::Normal { term }, report } = stores.evaluate(machine, &from_text(1, FF).file(), 100) else { panic!() };
            assert_eq!((term.to_string().as_str(), report.subst), ("a1 v0 l1 v1", substs));
            assert_eq!(term.to_file(1), from_text(1, "a1 v0 l1 v1").file());
        }
    }

    /// The wrapper's machines have the numbers of the header, which are those of the second implementation.
    #[test]
    fn the_wrappers_machines() {
        for rules in BOTH { assert_eq!(glow::Machine::from(rules).number(), rules.number()); }
        assert_eq!([glow::Machine::First, glow::Machine::OnDemand].map(glow::Machine::number), [0, 1]);
    }

    /// The refusals of a file and of a run have their numbers, and go there and back. 13 is no refusal's.
    #[test]
    fn the_wrappers_refusals() {
        use glow::{FileRefusal, Refusal::{self, *}};
        let numbers = || (0..30).chain([(1 << 8) + 8, (1 << 32) + 8, u64::MAX]);
        let of_a_file: Vec<u64> = numbers().filter(|&n| FileRefusal::of(n).is_some()).collect();
        let of_a_run: Vec<u64> = numbers().filter(|&n| Refusal::of(n).is_some()).collect();
        assert_eq!((&of_a_file[..], &of_a_run[..]), (&[1, 2, 3, 4, 5, 6, 7][..], &[8, 9, 10, 11, 12][..]));
        for n in of_a_file { assert_eq!(u64::from(FileRefusal::of(n).unwrap().number()), n); }
        for n in of_a_run { assert_eq!(u64::from(Refusal::of(n).unwrap().number()), n); }
        assert_eq!([Cells, Nodes, Names, Renumber, Output].map(Refusal::number), [8, 9, 10, 11, 12]);
    }

    /// Builds and runs each example of embed/rust/examples.
    #[test]
    fn the_rust_examples() {
        for (name, printed) in [("first", "a1 v0 v0, beta 1\n"), ("exchange", "file [0, 0, 2, 0, 1, 0, 0, 0, 0, 0], bits [32]\n")] {
            let ran = Command::new(env!("CARGO")).args(["run", "--quiet", "--release", "--offline", "-p", "glow", "--example", name]).current_dir(root()).output().unwrap();
            assert!(ran.status.success(), "{}", String::from_utf8_lossy(&ran.stderr));
            assert_eq!(String::from_utf8_lossy(&ran.stdout), printed);
        }
    }

    /// The example that takes a prelude and a term file, on each of examples/arithmetic: it writes the normal form as a file.
    #[test]
    fn the_rust_example_with_definitions() {
        let (dir, all) = arithmetic();
        let prelude = dir.join("church.prelude");
        let ran = |paths: &[&Path]| Command::new(env!("CARGO")).args(["run", "--quiet", "--release", "--offline", "-p", "glow", "--example", "prelude"]).args(paths).current_dir(root()).output().unwrap();
        for path in all {
            let done = ran(&[&prelude, &path]);
            assert!(done.status.success(), "{}", String::from_utf8_lossy(&done.stderr));
            let answer = evaluate_with(Rules::First, &std::fs::read(&prelude).unwrap(), &std::fs::read(&path).unwrap(), GLOW_BUDGET, &Lengths::glow());
            let Outcome::Normal(result) = &answer.run().outcome else { panic!("{}", path.display()) };
            assert_eq!(done.stdout, result.file(), "{}", path.display());
            assert!(String::from_utf8_lossy(&done.stderr).starts_with(&format!("normal, beta {},", answer.run().counts.beta)));
        }
        for wrong in [&[&*prelude][..], &[&prelude, &prelude], &[&dir.join("01-two-plus-three.term"), &dir.join("01-two-plus-three.term")]] {
            let done = ran(wrong);
            assert!(!done.status.success() && done.stdout.is_empty() && !done.stderr.is_empty());
        }
    }

    /// What a C program prints that is compiled with the header and the library.
    fn printed_by(source: &Path, name: &str) -> String {
        let lib = std::env::var("GLOW_LIB_DIR").unwrap_or_else(|_| root().join("target/lib").display().to_string());
        let out = std::env::temp_dir().join(format!("glow-{name}-{}", std::process::id()));
        let cc = Command::new("cc").args(["-std=c99", "-Wall", "-Wextra", "-Werror", "-pedantic", "-I"]).arg(root().join("embed")).arg(source)
            .arg(Path::new(&lib).join("libglow.a")).args(["-o"]).arg(&out).args(["-lpthread", "-ldl", "-lm"]).output().unwrap();
        assert!(cc.status.success(), "cc: {}", String::from_utf8_lossy(&cc.stderr));
        let ran = Command::new(&out).output().unwrap();
        let _ = std::fs::remove_file(&out);
        assert!(ran.status.success());
        String::from_utf8(ran.stdout).unwrap()
    }

    #[test]
    fn the_c_examples() {
        assert_eq!(printed_by(&root().join("embed/example.c"), "example"), "status 0 refusal 0 beta 1 term a1 v0 v0\n");
        let both = "import: status 0 refusal 0 bytes 00 00 02 00 01 00 00 00 00 00\nexport: status 0 refusal 0 bytes 20\n";
        assert_eq!(printed_by(&root().join("embed/exchange.c"), "exchange"), both);
        assert_eq!(printed_by(&root().join("embed/prelude.c"), "prelude"), "status 0 refusal 0 beta 2 term v2\n");
    }

    /// The stack and the numbers that the header tells are the wrapper's, and a C program may lend null for what it has not.
    #[test]
    fn the_header() {
        let mut told = String::new();
        let lengths = [0, 1, 3, 4, 7, 8, 63, 64, 1000, 16_384, 32_767, 32_768, 32_772, 100_000];
        for nodes in lengths { for cells in lengths { told += &format!("{nodes} {cells} {}\n", glow::stack_needed(nodes, cells)); } }
        told += &format!("{} {}\n", glow::Stores::glow().stack_needed(), glow::MOST_STACK_NEEDED);
        for nodes in lengths { told += &format!("{}\n", glow::stack_needed_with(nodes)); }
        // the two machines' numbers and the status without one, and that status
        told += &format!("{} {} 5\n5\n", glow::Machine::First.number(), glow::Machine::OnDemand.number());
        // on each machine: a report that is too short, no file, no nodes, and a file that needs no cell
        told += &"4\n3 1\n2 9\n0 1\n".repeat(2);
        // with a prelude: the refusals' numbers and a number without a machine; on each machine a report that is too short, no file, no prelude,
        // a definition and no nodes, and a file with no definition
        told += &format!("{} {} {}\n5\n", glow::PreludeRefusal::Bytes.number(), glow::PreludeRefusal::NotAnAbstraction.number(), glow::PreludeRefusal::Place.number());
        told += &"4\n3 1\n3 17\n2 9\n0 1\n".repeat(2);
        told += &format!("{} {} {} {} {}\n", glow::EXCHANGE_REPORT_LEN, glow::STACK_FOR_AN_EXCHANGE, glow::MOST_IMPORTED, glow::MOST_EXPORTED, glow::MOST_NODES_IN_A_FILE);
        told += &format!("{} {} {}\n", glow::ExchangeRefusal::BitsTooShort.number(), glow::ExchangeRefusal::Padding.number(), glow::ExchangeRefusal::BitsLimits.number());
        // of import and export the statuses; a report that is too short; no bits, no room, no file, no room
        told += "0 3 4\n4 4\n3 14\n3 12\n3 1\n3 12\n";
        assert_eq!(printed_by(&root().join("tests/header.c"), "header"), told);
    }
}
