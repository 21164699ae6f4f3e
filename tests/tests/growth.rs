//! The old way of `bench/old`, which copies stuck applications; and that the figures which `bench/` keeps of it and of the
//! library are what both still give, and the picture is drawn from them.
use glow_tests::case::Case;
use glow_tests::families::{open_explosion, small_members};
use glow_tests::flat::{canonical, Flat, F};
use glow_tests::machine::{evaluate, Lengths, Outcome, Rules, Run, GLOW_BUDGET};
use glow_tests::prng::Prng;
use glow_tests::process::root;
use glow_tests::random;
use old::{bytes, Counts, End, Machine, Node};
use std::process::Command;

/// The bytes that a run of the old way may take here.
const MEMORY: u64 = 1 << 20;

fn t(n: usize) -> Vec<u8> { canonical(1, &open_explosion(n)).file() }

fn old_way(file: &[u8], most: u64) -> (End, Machine) {
    let mut machine = Machine::load(file);
    (machine.run(most), machine)
}

fn flat(term: Vec<Node>) -> Flat {
    term.into_iter().map(|node| match node { Node::Variable(x) => F::V(x), Node::Abstraction(x) => F::L(x), Node::Application => F::A }).collect()
}

/// Whether both ways end at a normal form; if so it is the same one, after as many betas.
fn agree(free: usize, term: &Flat) -> bool {
    let file = canonical(free, term).file();
    let run = evaluate(Rules::First, &file, 3000, &Lengths::largest()).run().clone();
    let (end, machine) = old_way(&file, MEMORY);
    let (Outcome::Normal(normal), End::Normal) = (run.outcome, end) else { return false };
    let term = machine.term(normal.tags.len()).expect("no more nodes than the normal form has");
    assert_eq!((canonical(free, &flat(term)), machine.counts.beta), (normal, run.counts.beta));
    true
}

/// The old way's steps at t_n. The two names that a beta k brings are each put in by one subst, as i_(k - 1), whose 2^(k - 1) - 1
/// applications are all entered; each enter is left again.
fn counts_at(n: u64) -> Counts {
    let enter = (2 << n) - 2;
    Counts { beta: n, subst: 2 * n, enter, leave_fun: 0, leave_inert: enter }
}

/// The bytes that it takes there: each copy of i_(k - 1) has 2^k - 1 nodes.
fn bytes_at(n: u64) -> u64 { bytes(5 * n + 1 + (4 << n) - 4 - 2 * n, (2 << n) - 2, n + 1) }

/// Example 2 of source document 000 shows the run at t_2, step by step.
#[test]
fn the_old_way_at_the_exploding_terms() {
    assert_eq!(counts_at(2), Counts { beta: 2, subst: 4, enter: 6, leave_fun: 0, leave_inert: 6 });
    for n in 0..=10 {
        assert!(agree(1, &open_explosion(n)));
        let (_, machine) = old_way(&t(n), MEMORY);
        let n = n as u64;
        assert_eq!((machine.counts, machine.bytes()), (counts_at(n), bytes_at(n)));
    }
}

#[test]
fn the_old_way_is_right() {
    let members = small_members();
    let members_agree = members.iter().filter(|(_, free, term)| agree(*free, term)).count();
    assert!(members_agree >= 100, "{members_agree} members of families");
    let mut r = Prng(11);
    let terms = (0..2000).map(|_| random::term(&mut r)).filter(|(_, term)| term.len() <= 80);
    let terms_agree = terms.filter(|(free, term)| agree(*free, term)).count();
    assert!(terms_agree >= 1000, "{terms_agree} random terms");
    println!("the old way reaches the normal form of {members_agree} members of families and {terms_agree} random terms");
}

#[test]
fn the_old_way_ends_at_its_memory() {
    for n in 1..=10 {
        let most = bytes_at(n);
        assert_eq!(old_way(&t(n as usize), most).0, End::Normal);
        let (end, machine) = old_way(&t(n as usize), most - 1);
        assert_eq!(end, End::Full);
        assert!(machine.bytes() < most && machine.counts.steps() < counts_at(n).steps());
    }
}

/// Where it is full before an enter, its counts are as `full_after` has them.
#[test]
fn the_old_way_where_it_is_full() {
    let mut seen = 0;
    for n in 4..=12 {
        for part in 50..100 {
            let most = bytes_at(n) * part / 100;
            let (end, machine) = old_way(&t(n as usize), most);
            let before_an_enter = machine.bytes() + bytes(0, 1, 0) > most && machine.counts.beta == n;
            assert_eq!(end, End::Full);
            if before_an_enter { assert!(full_after(n, machine.counts.steps(), machine.bytes()), "n = {n}, {most} bytes"); seen += 1; }
        }
    }
    assert!(seen >= 100, "{seen} runs");
}

/// A row of growth.txt: n and the words of the two sides.
type Row = (usize, Vec<String>, Vec<String>);

fn rows(text: &str) -> Vec<Row> {
    let words = |part: &str| part.split_whitespace().map(String::from).collect::<Vec<_>>();
    text.lines().filter_map(|line| {
        let parts: Vec<&str> = line.split(" | ").collect();
        let n = parts[0].trim().parse().ok()?;
        Some((n, words(parts[1]), words(parts[2])))
    }).collect()
}

/// The library's words as they are now.
fn library_words(n: usize) -> Vec<String> {
    let Run { outcome, counts, figures, .. } = Case::new(Rules::First, &t(n), GLOW_BUDGET, Lengths::largest()).check().run().clone();
    let end = match outcome { Outcome::Normal(_) => "normal".into(), Outcome::Refused(number) => format!("refused {number}"), Outcome::Spent => "spent".into() };
    let words = format!("{} {} {} {end}", counts.beta, counts.steps(), bytes(figures.nodes, figures.cells, figures.names));
    words.split(' ').map(String::from).collect()
}

/// The old way's words where it is not full.
fn old_words(n: u64) -> Vec<String> {
    vec![n.to_string(), counts_at(n).steps().to_string(), bytes_at(n).to_string(), "normal".into()]
}

/// Whether t_n can have taken these steps and bytes where the old way is full before an enter. By then it has made none, one or both copies of
/// i_(n - 1), and what is left of its bytes are cells, one for each enter; of the enters no more are not left than the dump can hold.
fn full_after(n: u64, steps: u64, taken: u64) -> bool {
    (0..=2).any(|copies| {
        let nodes = 5 * n + 1 + (4 << (n - 1)) - 4 - 2 * (n - 1) + copies * ((1 << n) - 1);
        let Some(cells) = taken.checked_sub(bytes(nodes, 0, n + 1)) else { return false };
        let enters = cells / bytes(0, 1, 0);
        let Some(leaves) = steps.checked_sub(n + 2 * (n - 1) + copies + enters) else { return false };
        cells % bytes(0, 1, 0) == 0 && (leaves..=leaves + n).contains(&enters)
    })
}

/// What was measured is what is reported now. The old way's largest runs are not made again: they are those worked out above.
#[test]
fn the_figures_kept() {
    let text = std::fs::read_to_string(root().join("bench/growth.txt")).unwrap();
    let rows = rows(&text);
    assert_eq!(rows.iter().map(|row| row.0).collect::<Vec<_>>(), (0..=40).collect::<Vec<_>>());
    let full = rows.iter().position(|row| row.2.last().unwrap() == "full").expect("a row where the old way is full");
    for (n, ours, theirs) in &rows {
        assert_eq!(*ours, library_words(*n), "n = {n}");
        if *n < full { assert_eq!(*theirs, old_words(*n as u64), "n = {n}"); }
        if *n > full { assert_eq!(*theirs, ["-"; 4], "n = {n}"); }
    }
    let memory: u64 = text.split("past ").nth(1).unwrap().split(' ').next().unwrap().parse().unwrap();
    assert!(bytes_at(full as u64 - 1) <= memory && bytes_at(full as u64) > memory);
    let [beta, steps, taken] = [0, 1, 2].map(|k| rows[full].2[k].parse::<u64>().unwrap());
    assert!(beta == full as u64 && full_after(beta, steps, taken), "the counts where it is full");
    assert!(taken <= memory && taken + bytes(0, 1, 0) > memory, "it is full before an enter");
}

#[test]
fn the_picture_kept() {
    let status = Command::new("python3").arg(root().join("bench/picture.py")).arg("--check").status().expect("python3 runs");
    assert!(status.success());
}
