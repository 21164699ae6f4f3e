//! Names and numbers of the manual, held against the header, the Rust crate, the code and the definitions.
use crate::{c_enum, header, manual, need, number, one, read, same, table, tables_with, Checked};
use glow_tests::markdown::{links, quoted, tables, Table};
use glow_tests::process::root;
use std::path::Path;

/// 32768 as 32,768.
fn grouped(n: usize) -> String { if n < 1000 { n.to_string() } else { format!("{},{:03}", grouped(n / 1000), n % 1000) } }

/// A table of numbers and names of the header: the one with names of this enum, which has exactly these, in this order.
pub fn header_table(text: &str, head: &str, name: &str) -> Checked {
    let right: Vec<(String, usize)> = c_enum(&header(), name).into_iter().filter(|(name, _)| name != "GLOW_REPORT_LEN").collect();
    let of_the_enum = |row: &Vec<String>| right.iter().any(|(name, _)| quoted(&row[1]).contains(name));
    let rows = one(tables_with(text, &[head, "name"])?.into_iter().filter(|t| t.rows.iter().any(of_the_enum)).collect(), name)?.rows;
    let shown: Vec<(String, usize)> = rows.iter().map(|row| Ok((quoted(&row[1]).concat(), number(&row[0])?))).collect::<Result<_, String>>()?;
    same(name, shown, right)?;
    Ok(rows.len())
}

pub fn constants(text: &str) -> Checked {
    let rows: Vec<Vec<String>> = tables_with(text, &["what", "in C", "in Rust", "number"])?.into_iter().flat_map(|table| table.rows).collect();
    let header = header();
    for row in &rows {
        let (c, rust, n) = (quoted(&row[1]).concat(), quoted(&row[2]).concat(), number(&row[3])?);
        let right = match rust.as_str() {
            "STACK_FOR_A_CALL" => glow::STACK_FOR_A_CALL,
            "STACK_FOR_A_RESULT" => glow::STACK_FOR_A_RESULT,
            "STACK_FOR_A_LEVEL" => glow::STACK_FOR_A_LEVEL,
            "MOST_STACK_NEEDED" => glow::MOST_STACK_NEEDED,
            "MOST_COUNTED" => glow::MOST_COUNTED,
            "MOST_NODES_IN_A_FILE" => glow::MOST_NODES_IN_A_FILE,
            "STACK_FOR_AN_EXCHANGE" => glow::STACK_FOR_AN_EXCHANGE,
            "EXCHANGE_REPORT_LEN" => glow::EXCHANGE_REPORT_LEN,
            "MOST_IMPORTED" => glow::MOST_IMPORTED,
            "MOST_EXPORTED" => glow::MOST_EXPORTED,
            _ => return Err(format!("{rust} is no constant")),
        };
        same(&rust, n, right)?;
        let defined = header.lines().find_map(|line| line.strip_prefix("#define ")?.strip_prefix(c.as_str())?.strip_prefix(' ')).ok_or(format!("{c} is not defined"))?;
        let defined = defined.split_whitespace().next().unwrap_or_default();
        if c == "GLOW_MOST_STACK_NEEDED" { same(&c, defined, "GLOW_STACK_NEEDED(GLOW_MOST_COUNTED,")?; } else { same(&c, number(defined)?, right)?; }
    }
    Ok(rows.len())
}

/// The numbers that a definition is made of: of `glow = stores 16384 16384 ..` these.
fn defined_as<const N: usize>(path: &str, name: &str) -> [usize; N] {
    let text = read(path);
    let body = text.lines().find_map(|line| line.strip_prefix(name)?.strip_prefix(" = ")).unwrap_or_else(|| panic!("{path} does not define {name}"));
    let all: Vec<usize> = body.split(' ').filter_map(|word| word.parse().ok()).collect();
    all.try_into().unwrap_or_else(|_| panic!("{path}: {name} has other numbers"))
}

/// Numbers in sentences, each from the definition or the code that has it, with the words that it stands among.
pub fn sentences(text: &str) -> Checked {
    let [free] = defined_as("crates/termfile/specs/File.antt", "max_free");
    let [most] = defined_as("crates/termfile/specs/File.antt", "max_nodes");
    let [budget] = defined_as("crates/machine/specs/Glow.antt", "million");
    let [nodes, cells, names, renumber, output] = defined_as("crates/machine/specs/Glow.antt", "glow");
    let [longest] = defined_as("crates/rendering/specs/Promise.antt", "longest_text");
    let right = [
        format!("| budget | {} beta steps |", grouped(budget)),
        format!("| node store | {} |", grouped(nodes)),
        format!("| cell store | {} |", grouped(cells)),
        format!("| name store | {} |", grouped(names)),
        format!("| renumber store | {} |", grouped(renumber)),
        format!("| output | {} |", grouped(output)),
        format!("3 for each node of the output, {} in all", grouped(3 * nodes + 6 * cells + 2 * (names + renumber) + 3 * output)),
        format!("`GLOW_REPORT_LEN` is {}.", glow::REPORT_LEN),
        format!("f, the count of free names | 0 to {} |", grouped(free)),
        format!("n, the count of nodes | 1 to {} |", grouped(most)),
        format!("from {} to {}.", 4 + 3, grouped(4 + 3 * most)),
        format!("at most {} bytes are read, one more than the longest file has", grouped(4 + 3 * most + 1)),
        format!("{} bytes are enough for every answer", grouped(longest)),
        format!("an array of {} bytes is never too short", grouped(longest)),
        format!("fewer than {} elements the status is 4", glow::REPORT_LEN),
        format!("at most {} + {} · min(C, N / 4) bytes, or {} where that is more", grouped(glow::STACK_FOR_A_RESULT), glow::STACK_FOR_A_LEVEL, grouped(glow::STACK_FOR_A_CALL)),
        format!("With the program's stores this is {} bytes.", grouped(glow::Stores::glow().stack_needed())),
        format!("at most {} + {} · (N / 4) bytes or, again, {}, which is `GLOW_STACK_NEEDED(nodes, nodes)` or `stack_needed_with(nodes)`", grouped(glow::STACK_FOR_A_RESULT), glow::STACK_FOR_A_LEVEL, grouped(glow::STACK_FOR_A_CALL)),
        format!("as the bits may be any bytes; above {} it is refused.", grouped(free)),
        format!("| 2, where f is above {}; 14 and 16,", grouped(free)),
        format!("a node beyond the {}th, or a free name that is not below f", grouped(most)),
        format!("a node has {} nodes before it", grouped(most)),
        format!("f is at most {}, and they are the packed bits of a term with free names below f and at most {} nodes", grouped(free), grouped(most)),
        format!("the report array has fewer than {} elements |\n\nAt status 0 and 3", glow::EXCHANGE_REPORT_LEN),
        format!("fewer than {} elements the status is 4, and neither", glow::EXCHANGE_REPORT_LEN),
    ];
    for sentence in &right { need(text.contains(sentence), || format!("the manual does not say: {sentence}"))?; }
    Ok(right.len())
}

/// The arrays that `evaluate` is lent, with the bits of their elements.
fn lent() -> Vec<(String, String)> {
    let code = read("crates/evaluator/src/lib.rt");
    let parameters = code.split("pub fn evaluate(").nth(1).expect("the function").split(") ->").next().unwrap();
    parameters.split(',').filter_map(|one| one.trim().split_once(": &mut [u")).map(|(name, bits)| (name.into(), bits.trim_end_matches(']').into())).collect()
}

/// The stores: their arrays are the ones that `evaluate` is lent, in its order, and the caps are the defined ones.
pub fn arrays(text: &str) -> Checked {
    let rows = table(text, &["store", "arrays", "bits", "cap"])?.rows;
    let shown: Vec<(String, String)> = rows.iter().flat_map(|row| quoted(&row[1]).into_iter().zip(row[2].split(", ").map(String::from))).collect();
    same("the arrays", shown, lent())?;
    let [store] = defined_as("crates/machine/specs/Answer.antt", "store_limit");
    let [output] = defined_as("crates/machine/specs/Answer.antt", "output_limit");
    let caps: Vec<&str> = rows.iter().map(|row| row[3].as_str()).collect();
    let (store, output) = (grouped(store), grouped(output));
    same("the caps", caps, vec![&store, &store, &store, "none", &output])?;
    Ok(rows.len())
}

#[test]
fn names_and_numbers() {
    let text = manual();
    assert_eq!((header_table(&text, "status", "glow_status"), header_table(&text, "status", "glow_exchange_status")), (Ok(6), Ok(3)));
    assert_eq!(header_table(&text, "machine", "glow_machine"), Ok(2));
    assert_eq!(header_table(&text, "element", "glow_report"), Ok(12));
    assert_eq!((constants(&text), sentences(&text), arrays(&text)), (Ok(10), Ok(25), Ok(5)));
    assert_eq!(lent().len(), 9);
    let megabytes = |bytes: usize| format!("{:.1} MB", bytes as f64 / 1e6);
    let stack = [glow::Stores::glow().stack_needed(), glow::MOST_STACK_NEEDED, glow::STACK_FOR_AN_EXCHANGE].map(megabytes);
    let stack = format!("up to {} of stack with the program's stores and {} with the largest, an import or an export up to {}:", stack[0], stack[1], stack[2]);
    assert!(read("README.md").contains(&stack), "{stack}");
}

/// The fields of a record of the definitions, in their order.
fn fields(path: &Path, record: &str) -> Vec<String> {
    let text = std::fs::read_to_string(path).unwrap();
    let body = text.lines().skip_while(|line| !line.starts_with(&format!("pub record {record} "))).skip(1);
    let body = body.take_while(|line| line.is_empty() || line.starts_with(' '));
    body.filter_map(|line| line.strip_prefix("  pub ")?.split_once(" :")).map(|(name, _)| name.to_string()).collect()
}

/// A table with the head `field of` names each field of its record, in the record's order.
pub fn promises(text: &str) -> Checked {
    let all: Vec<Table> = tables(text)?.into_iter().filter(|table| table.head[0].starts_with("field of ")).collect();
    for table in &all {
        let link = links(&table.head[0]).into_iter().next().ok_or("a record without its file")?;
        let record = quoted(&link.text).concat();
        let shown: Vec<String> = table.rows.iter().flat_map(|row| quoted(&row[0])).collect();
        same(&record, shown, fields(&root().join("docs").join(&link.target), &record))?;
    }
    Ok(all.len())
}

#[test]
fn each_promise() {
    assert_eq!(promises(&manual()), Ok(8));
    assert!(fields(&root().join("crates/evaluator/specs/Promise.antt"), "Called").len() >= 15);
}

/// Whether a line of a definition's file declares the name: `abbrev pub name :`, `pub record name ..`, a constructor or a field.
fn declares(line: &str, name: &str) -> bool {
    let mut line = line.trim_start();
    while let Some(rest) = ["abbrev ", "unfoldable ", "pub "].iter().find_map(|word| line.strip_prefix(word)) { line = rest; }
    if let Some(rest) = line.strip_prefix("data ").or_else(|| line.strip_prefix("record ")) { return rest.split_whitespace().next() == Some(name); }
    let Some((names, _)) = line.split_once(" : ") else { return false };
    !line.starts_with("--") && !line.starts_with("let ") && !names.contains(['(', '{', '→', '=', '.']) && names.split(' ').any(|word| word == name)
}

/// Whether a line of code declares the name: a function, a type or a constant.
fn declares_in_code(line: &str, name: &str) -> bool {
    let follows = |word: &str, ends: &[char]| line.split(word).skip(1).any(|rest| rest.strip_prefix(name).is_some_and(|rest| rest.starts_with(ends)));
    !line.trim_start().starts_with("//") && (follows("fn ", &['(', '<']) || follows("enum ", &[' ']) || follows("struct ", &[' ']) || follows("const ", &[':']) || follows("#define ", &[' ', '(']))
}

fn defined(path: &Path, name: &str) -> bool {
    let text = std::fs::read_to_string(path).unwrap_or_default();
    let antt = path.extension().is_some_and(|e| e == "antt");
    text.lines().any(|line| if antt { declares(line, name) } else { declares_in_code(line, name) })
}

/// Each name that a link to a source has in backquotes is declared there.
pub fn definitions(text: &str) -> Checked {
    let mut found = 0;
    for link in links(text).into_iter().filter(|link| link.text.starts_with('`') && [".antt", ".rt", ".h", ".rs"].iter().any(|end| link.target.ends_with(end))) {
        let name = quoted(&link.text).concat();
        need(defined(&root().join("docs").join(&link.target), &name), || format!("line {}: {} does not define {name}", link.line, link.target))?;
        found += 1;
    }
    Ok(found)
}

#[test]
fn each_definition() { let found = definitions(&manual()).unwrap(); assert!(found >= 100, "{found} definitions"); }
