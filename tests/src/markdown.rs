//! As much of Markdown as the documents use: fenced blocks, tables, links and headings.

/// A fenced block, with the word behind its fence and the number of the fence's line.
#[derive(Clone, Debug, PartialEq, Eq)]
pub struct Block { pub kind: String, pub text: String, pub line: usize }

/// A table by its cells. Each row has as many as the head.
#[derive(Clone, Debug, PartialEq, Eq)]
pub struct Table { pub head: Vec<String>, pub rows: Vec<Vec<String>>, pub line: usize }

#[derive(Clone, Debug, PartialEq, Eq)]
pub struct Link { pub text: String, pub target: String, pub line: usize }

/// The lines of a text with their numbers, and for each whether it is a fence or inside of one.
fn lines(text: &str) -> Vec<(usize, &str, bool)> {
    let mut inside = false;
    let mut all = Vec::new();
    for (line, number) in text.lines().zip(1..) {
        let fence = line.trim_start().starts_with("```");
        all.push((number, line, inside || fence));
        inside ^= fence;
    }
    all
}

fn prose(text: &str) -> Vec<(usize, &str)> { lines(text).into_iter().filter(|l| !l.2).map(|(number, line, _)| (number, line)).collect() }

/// The fenced blocks. One that does not end is an error.
pub fn blocks(text: &str) -> Result<Vec<Block>, String> {
    let mut all = Vec::new();
    let mut open: Option<Block> = None;
    for (line, number) in text.lines().zip(1..) {
        match (line.trim_start().strip_prefix("```"), open.take()) {
            (Some(_), Some(block)) => all.push(block),
            (Some(kind), None) => open = Some(Block { kind: kind.trim().into(), text: String::new(), line: number }),
            (None, Some(mut block)) => { block.text += line; block.text += "\n"; open = Some(block); }
            (None, None) => {}
        }
    }
    match open { None => Ok(all), Some(block) => Err(format!("line {}: a block that does not end", block.line)) }
}

fn cells(line: &str) -> Vec<String> { line.trim().trim_matches('|').split('|').map(|cell| cell.trim().to_string()).collect() }

/// The tables. A row with more or fewer cells than the head is an error.
pub fn tables(text: &str) -> Result<Vec<Table>, String> {
    let mut all: Vec<Table> = Vec::new();
    let mut last = 0;
    for (number, line) in prose(text).into_iter().filter(|(_, line)| line.starts_with('|')) {
        let row = cells(line);
        if number != last + 1 { all.push(Table { head: row, rows: vec![], line: number }); last = number; continue; }
        last = number;
        let table = all.last_mut().expect("a table has begun");
        if row.len() != table.head.len() { return Err(format!("line {number}: {} cells under {}", row.len(), table.head.len())); }
        if row.iter().any(|cell| cell.is_empty() || cell.chars().any(|c| c != '-')) { table.rows.push(row); }
    }
    Ok(all)
}

/// The links `[text](target)` outside of fenced blocks.
pub fn links(text: &str) -> Vec<Link> {
    let mut all = Vec::new();
    for (line, shown) in prose(text) {
        for (middle, _) in shown.match_indices("](") {
            let start = shown[..middle].rfind('[').expect("a link begins with [");
            let end = middle + shown[middle..].find(')').expect("a link ends with )");
            all.push(Link { text: shown[start + 1..middle].into(), target: shown[middle + 2..end].into(), line });
        }
    }
    all
}

/// The places that `#name` leads to: the headings, in small letters, without marks, with hyphens for spaces.
pub fn anchors(text: &str) -> Vec<String> {
    let name = |title: &str| title.to_lowercase().chars().filter(|c| c.is_alphanumeric() || " -_".contains(*c)).map(|c| if c == ' ' { '-' } else { c }).collect();
    prose(text).into_iter().filter(|(_, line)| line.starts_with('#')).map(|(_, line)| name(line.trim_start_matches('#').trim())).collect()
}

/// What stands between backquotes.
pub fn quoted(cell: &str) -> Vec<String> { cell.split('`').skip(1).step_by(2).map(String::from).collect() }
