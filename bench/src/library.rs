//! A library of 200 definitions and 200 terms that use it: Church arithmetic, choices, pairs and lists.
//!
//! A definition is written as text, an abstraction that uses names before it. A word of one letter is a bound name; in terms y and i
//! are free.
use glow_tests::flat::*;
use glow_tests::prelude;
use std::iter::Peekable;

pub const DEFINITIONS: usize = 200;
pub const TERMS: usize = 200;

/// Functions, choices, pairs, and numbers as far as they need no numeral but zero.
const FIRST: &str = r"
id = \x. x
const = \x z. x
compose = \f g x. f (g x)
flip = \f x z. f z x
twice = \f x. f (f x)
apply = \f x. f x
thrush = \x f. f x
join = \f x. f x x
share = \f g x. f x (g x)
on = \f g x z. f (g x) (g z)
true = \t e. t
false = \t e. e
not = \b t e. b e t
and = \a b. a b false
or = \a b. a true b
xor = \a b. a (not b) b
implies = \a b. or (not a) b
nand = \a b. not (and a b)
nor = \a b. not (or a b)
iff = \a b. not (xor a b)
if = \b t e. b t e
pair = \a b p. p a b
first = \p. p true
second = \p. p false
swap = \p. pair (second p) (first p)
curry = \f a b. f (pair a b)
uncurry = \f p. f (first p) (second p)
both = \f p. pair (f (first p)) (f (second p))
onfirst = \f p. pair (f (first p)) (second p)
onsecond = \f p. pair (first p) (f (second p))
fork = \f g x. pair (f x) (g x)
n0 = \s z. z
succ = \n s z. s (n s z)
add = \m n s z. m s (n s z)
mul = \m n s. m (n s)
pow = \m n. n m
next = \p. pair (second p) (succ (second p))
pred = \n. first (n next (pair n0 n0))
sub = \m n. n pred m
iszero = \n. n (const false) true
atmost = \m n. iszero (sub m n)
less = \m n. not (atmost n m)
equal = \m n. and (atmost m n) (atmost n m)
min = \m n. atmost m n m n
max = \m n. atmost m n n m
double = \n. add n n
square = \n. mul n n
cube = \n. mul n (square n)
even = \n. n not true
odd = \n. not (even n)
half = \n. first (n (\p. pair (second p) (succ (first p))) (pair n0 n0))
apart = \m n. add (sub m n) (sub n m)
";

/// Numbers that need the numeral one, and lists.
const SECOND: &str = r"
factorial = \n. second (n (\p. pair (succ (first p)) (mul (first p) (second p))) (pair n1 n1))
fibonacci = \n. first (n (\p. pair (second p) (add (first p) (second p))) (pair n0 n1))
triangle = \n. second (n (\p. pair (succ (first p)) (add (first p) (second p))) (pair n1 n0))
nil = \c n. n
cons = \h t c n. c h (t c n)
single = \x. cons x nil
append = \k l c n. k c (l c n)
map = \f l c n. l (\h t. c (f h) t) n
filter = \p l c n. l (\h t. p h (c h t) t) n
length = \l. l (const succ) n0
sum = \l. l add n0
product = \l. l mul n1
head = \l. l const n0
empty = \l. l (\h t. false) true
all = \p l. l (\h t. and (p h) t) true
any = \p l. l (\h t. or (p h) t) false
count = \p l. length (filter p l)
member = \x l. any (equal x) l
reverse = \l. l (\h t. append t (single h)) nil
concat = \l. l append nil
flatmap = \f l. concat (map f l)
repeat = \n x. n (cons x) nil
tail = \l. first (l (\h p. pair (second p) (cons h (second p))) (pair nil nil))
split = \f l. pair (filter f l) (filter (\x. not (f x)) l)
most = \l. l max n0
scale = \n l. map (mul n) l
upto0 = \c n. nil c n
";

/// The definitions' texts, in their order: the two parts, the numerals between them, and behind them for k from 1 on upto(k), the list from k
/// down to 1, and the functions that add k and multiply by k.
fn definitions() -> Vec<(String, String)> {
    let named = |text: &str| text.trim().lines().map(|line| { let (name, is) = line.split_once(" = ").unwrap(); (name.to_string(), is.to_string()) }).collect::<Vec<_>>();
    let mut all = named(FIRST);
    all.extend((1..=40).map(|k| (format!("n{k}"), format!(r"\s z. s (n{} s z)", k - 1))));
    all.extend(named(SECOND));
    all.extend((1..=25).map(|k| (format!("upto{k}"), format!(r"\c n. c n{k} (upto{} c n)", k - 1))));
    all.extend((1..=28).flat_map(|k| [(format!("plus{k}"), format!(r"\n. add n{k} n")), (format!("times{k}"), format!(r"\n. mul n{k} n"))]));
    all
}

/// The terms' texts, by kind; together there are `TERMS`.
fn terms() -> Vec<(&'static str, Vec<String>)> {
    let each = |of: [fn(usize) -> String; 4], count: usize| (0..count).flat_map(|k| of.map(|term| term(k))).collect();
    vec![
        ("arithmetic", each([
            |k| format!("add n{} n{} y i", k + 1, 2 * k + 1),
            |k| format!("mul n{} (plus{} n{}) y i", k % 5 + 2, k % 7 + 1, k + 3),
            |k| format!("times{} (triangle n{}) y i", k % 6 + 1, k % 4 + 3),
            |k| format!("sub n{} n{} y i", k % 10 + 3, k % 4 + 1),
        ], 20)),
        ("choices and pairs", each([
            |k| format!("if (even n{}) (fibonacci n{}) n{} y i", k + 5, k % 3 + 5, 2 * k + 3),
            |k| format!("uncurry add (swap (pair n{} (square n{}))) y i", 3 * k + 1, k % 5 + 2),
            |k| format!("max n{} n{} y i", k % 3 + 2, k % 4 + 1),
            |k| format!("second (both half (fork double plus{} n{})) y i", k + 1, k % 6 + 2),
        ], 10)),
        ("lists", each([
            |k| format!("sum upto{} y i", k % 10 + 4),
            |k| format!("length (append (map square upto{}) (repeat n{} n0)) y i", k % 8 + 3, k + 1),
            |k| format!("map plus{} upto{} y i", k + 1, k % 4 + 3),
            |k| format!("reverse (filter odd upto{}) y i", k % 5 + 4),
        ], 20)),
    ]
}

/// The number of a word: a definition's is its place, and then come y and i.
fn number(definitions: &[(String, String)], word: &str) -> u32 {
    const BOUND: u32 = 1_000_000;
    match word.as_bytes() {
        b"y" => DEFINITIONS as u32,
        b"i" => DEFINITIONS as u32 + 1,
        &[letter] => BOUND + u32::from(letter),
        _ => definitions.iter().position(|(name, _)| name == word).unwrap_or_else(|| panic!("{word} is not defined")) as u32,
    }
}

fn parse(definitions: &[(String, String)], text: &str) -> Flat {
    let spaced = ["\\", ".", "(", ")"].iter().fold(text.to_string(), |text, mark| text.replace(mark, &format!(" {mark} ")));
    term(&mut spaced.split_whitespace().peekable(), &|word| number(definitions, word))
}

fn term<'a>(words: &mut Peekable<impl Iterator<Item = &'a str>>, number: &impl Fn(&str) -> u32) -> Flat {
    if words.next_if_eq(&"\\").is_some() {
        let mut out: Flat = words.take_while(|&word| word != ".").map(|word| F::L(number(word))).collect();
        out.extend(term(words, number));
        return out;
    }
    let mut out = part(words, number);
    while words.peek().is_some_and(|&word| word != ")") { out = a(out, part(words, number)); }
    out
}

fn part<'a>(words: &mut Peekable<impl Iterator<Item = &'a str>>, number: &impl Fn(&str) -> u32) -> Flat {
    match words.next().expect("a part of a term") {
        "(" => { let out = term(words, number); assert_eq!(words.next(), Some(")")); out }
        word => v(number(word)),
    }
}

/// The same term with the definitions as arguments: (\d0. (\d1. .. term .. ) D1) D0, in which y and i are the free names 0 and 1.
fn applied(definitions: &[Flat], term: &Flat) -> Vec<u8> {
    const GIVEN: u32 = 2_000_000;
    let mut out: Flat = (0..DEFINITIONS as u32).flat_map(|k| [F::A, F::L(GIVEN + k)]).collect();
    for part in std::iter::once(term).chain(definitions.iter().rev()) {
        out.extend(part.iter().map(|&node| match node {
            F::V(k) if k < DEFINITIONS as u32 => F::V(GIVEN + k),
            F::V(k) if k < DEFINITIONS as u32 + 2 => F::V(k - DEFINITIONS as u32),
            other => other,
        }));
    }
    canonical(2, &out).file()
}

/// A term as the file that goes with the prelude, in which y and i are the names behind the definitions', and as one with the definitions as
/// arguments.
pub struct Program { pub file: Vec<u8>, pub applied: Vec<u8> }

pub struct Library { pub prelude: Vec<u8>, pub nodes: usize, pub kinds: Vec<(&'static str, Vec<Program>)> }

/// The library with its terms, and before them one that uses nothing of it.
pub fn library() -> Library {
    let texts = definitions();
    let definitions: Vec<Flat> = texts.iter().enumerate().map(|(k, (_, is))| parse(&texts[..k], is)).collect();
    let program = |text: &String| {
        let term = parse(&texts, text);
        Program { file: canonical(DEFINITIONS + 2, &term).file(), applied: applied(&definitions, &term) }
    };
    let terms = terms();
    assert_eq!((definitions.len(), terms.iter().map(|(_, of)| of.len()).sum::<usize>()), (DEFINITIONS, TERMS));
    let none = ("y, which uses none of them", vec!["y".to_string()]);
    Library {
        prelude: prelude::encode(&definitions.iter().enumerate().map(|(k, d)| canonical(k, d).file()).collect::<Vec<_>>()),
        nodes: definitions.iter().map(Vec::len).sum(),
        kinds: std::iter::once(&none).chain(&terms).map(|(kind, texts)| (*kind, texts.iter().map(program).collect())).collect(),
    }
}
