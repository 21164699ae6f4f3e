#!/usr/bin/env bash
# Tries the tests' strength: a plain machine, or the plain import and export, with one thing wrong at a time is put in the library's
# place, and the tests must fail. Works in a copy; the library itself is not touched.
#   tools/mutants.sh [SCRATCH]        ONLY=word tries only the faults with this word in their names
# A fault is caught by an assertion where a test compared two things and found them different, and else by a crash, or by the
# time limit. Exit status 0: with nothing wrong they pass, and each fault was put in, compiled and caught.
set -euo pipefail
cd "$(dirname "$0")/.."
tools/setup cc rust python
. tools/path.sh
here=$PWD
scratch=${1:-$here/target/mutants}
mkdir -p "$scratch/lib"
rm -rf "$scratch/src" && mkdir -p "$scratch/src"
cp -r Cargo.toml Cargo.lock embed tests bench tools examples "$scratch/src/"
cd "$scratch/src"
export CARGO_TARGET_DIR="$scratch/target" GLOW_LIB_DIR="$scratch/lib" GLOW_RANDOM_TERMS=3000 RUST_BACKTRACE=0
seconds=180
machine=bench/plain/src/lib.rs
exchange=bench/plain/src/exchange.rs
calls=tests/mock/src/lib.rs
faults=0 by_assertion=0 by_crash=0 by_time=0 wrong=0

# The file that faults are put in, and the tests that look at the answers: first the machine's.
source=$machine
tests=(--test cases --test machines --test budget --test demand3 --test families --test random)

# Builds the archive with each FROM, which must occur in the source, replaced by its TO. Says why not, if not.
build() {
    local path
    for path in "$machine" "$exchange" "$calls"; do cp "$here/$path" "$path"; done
    python3 - "$source" "$@" <<'P' || { echo "the place was not found"; return 1; }
import sys
path = sys.argv[1]
text = open(path).read()
for old, new in zip(sys.argv[2::2], sys.argv[3::2]):
    if old not in text: sys.exit(1)
    text = text.replace(old, new, 1)
open(path, "w").write(text)
P
    cargo build -q --release --offline -p mock 2> "$scratch/log" || { echo "does not compile"; return 1; }
    cp "$scratch/target/release/libmock.a" "$scratch/lib/libglow.a"
}

# Runs these tests, with 6 GiB of memory at most; their status.
run_tests() (
    ulimit -v 6291456
    timeout "$seconds" cargo test -q --release --offline --no-fail-fast -p glow-tests "$@" > "$scratch/log" 2>&1
)

# How many tests failed because two things were different.
assertions() {
    python3 - "$scratch/log" <<'P'
import re, sys
log = open(sys.argv[1], errors="replace").read()
failed = re.findall(r"^---- (\S+) stdout ----\n(.*?)(?=^---- |^failures:)", log, re.M | re.S)
print(sum("DISAGREEMENT" in said or "assertion" in said for _, said in failed))
P
}

# try NAME FROM TO [FROM TO]..: a fault, which the tests must find.
try() {
    local name=$1 why status=0 different
    shift
    case "$name" in *"${ONLY-}"*) ;; *) return ;; esac
    faults=$((faults + 1))
    why=$(build "$@") || { echo "$name: $why"; wrong=$((wrong + 1)); return; }
    run_tests "${tests[@]}" || status=$?
    different=$(assertions)
    if [ "$status" -eq 0 ]; then echo "$name: SURVIVED"; wrong=$((wrong + 1))
    elif [ "$different" -gt 0 ]; then echo "$name: caught by an assertion, tests that failed: $different"; by_assertion=$((by_assertion + 1))
    elif [ "$status" -eq 124 ]; then echo "$name: caught by the time limit alone"; by_time=$((by_time + 1))
    else echo "$name: caught by a crash alone"; by_crash=$((by_crash + 1)); fi
}

why=$(build) || { echo "the plain machine $why"; exit 1; }
if run_tests "${tests[@]}" --test preludes --test raising --test binary; then echo "nothing wrong: passes"; else echo "nothing wrong: FAILED, see $scratch/log"; exit 1; fi

# Where entries are wrong, a name or a stack may be a part of itself. To unfold it would not end; it is given up as too long.
ends=("sums.push(0);" "if sums.len() > names { return None; } sums.push(0);"
    "                    *sums.last_mut().unwrap() += 1;
                    work.push" "                    if work.len() > 99_999 { return None; }
                    *sums.last_mut().unwrap() += 1;
                    work.push")

# the traps of paper 01, in its order
try "trap 1: an inert entry copied at subst, the answer right and the bounds lost" \
    "/// Status and report as the C function gives them." "/// An item as nodes, its names left as they are; none where an abstraction is in it.
fn item_nodes(s: &Lent, code: usize, stack: u16) -> Option<Vec<(u8, u16)>> {
    if s.tags[code] != 0 { return None; }
    let mut nodes = vec![(0, s.args[code])];
    let mut q = stack as usize;
    while q != 0 {
        let item = item_nodes(s, s.codes[q - 1] as usize, s.owns[q - 1])?;
        nodes.insert(0, (2, nodes.len() as u16));
        nodes.extend(item);
        q = s.nexts[q - 1] as usize;
    }
    Some(nodes)
}

/// Status and report as the C function gives them." \
    "                                subst += 1;
                                continue;
                            }
" "                                subst += 1;
                                continue;
                            }
                            if let Some(copy) = item_nodes(s, from, s.owns[e as usize - 1]) {
                                if nodes + copy.len() > cap { break 'run 9; }
                                for (k, &(tag, x)) in copy.iter().enumerate() { s.tags[nodes + k] = tag; s.args[nodes + k] = x; }
                                code = nodes;
                                nodes += copy.len();
                                subst += 1;
                                continue;
                            }
"
try "trap 2: a copy keeps its old binder names" "x = x - z + names" "x = x + 0 * names" "${ends[@]}"
try "trap 3: a stop where subst is due with dump and stack empty" "if s.tags[from] == 1 {" "if s.tags[from] == 1 && (dump != 0 || stack != 0) {"
try "trap 4: the budget before asking whether a step fits, so that the last allowed beta ends the run" "            match s.tags[code] {
                2 =>" "            if beta == budget as u64 { break 'run 100; }
            match s.tags[code] {
                2 =>"
try "trap 5: the output written as it is unfolded, then found too long" \
    "    if sums[0] > room as u64 { return None; }
" "" \
    "                    s.out_tags[n] = 2;
                    n += 1;" "                    if n == room { return None; }
                    s.out_tags[n] = 2;
                    n += 1;" \
    "2 => { s.out_tags[n]" "2 => { if n == room { return None; } s.out_tags[n]" \
    "1 => { s.out_tags[n]" "1 => { if n == room { return None; } s.out_tags[n]" \
    "_ => { s.out_tags[n]" "_ => { if n == room { return None; } s.out_tags[n]"

# 02, request 3: a run would consult an entry that holds a variable which itself has an abstraction as entry
try "on the first machine an unapplied variable with an abstraction as entry leaves like an inert one" \
    "if s.tags[from] == 1 {" "if s.tags[from] == 1 && (stack != 0 || dump == 0) {"

# the budget, for which a beta alone asks; the other places are where the other steps ask for what they need, or are made
asked="if beta == budget as u64 { break 'run 100; }"
cell="if cells >= cells_cap { break 'run 8; }"
nodes="if nodes + size > cap { break 'run 9; }"
leave="let c = dump as usize - 1;"
every="if beta + subst + enter + fun + inert == budget as u64 { break 'run 100; }"
try "budget: every step counted, and asked for at every step" "$asked" "$every" "$cell" "$every $cell" "let end = end_of(s.tags, from);" "$every let end = end_of(s.tags, from);" "$leave" "$every $leave"
try "budget: every step counted, and asked for at a beta" "$asked" "${every/==/>=}"
try "budget: substs counted too" "$asked" "if beta + subst >= budget as u64 { break 'run 100; }"
try "budget: asked for at an enter too" "$cell" "$asked $cell"
try "budget: asked for at a subst too, before the stores" "let end = end_of(s.tags, from);" "$asked let end = end_of(s.tags, from);"
try "budget: asked for at a subst that a store refuses" "$nodes" "if nodes + size > cap { break 'run if beta == budget as u64 { 100 } else { 9 }; }"
try "budget: asked for at a leave too" "$leave" "$asked $leave"
try "budget: asked for where no step fits and 11 would come" "if s.renumber.len() < names { break 'run 11; }" "if s.renumber.len() < names { break 'run if beta == budget as u64 { 100 } else { 11 }; }"
try "budget: asked for before loading" "if n > cap { nodes = 0; names = 0; break 'run 9; }" "if budget == 0 { break 'run 100; } if n > cap { nodes = 0; names = 0; break 'run 9; }"
try "budget: never asked for" "$asked" ""
try "budget: one beta more" "$asked" "if beta > budget as u64 { break 'run 100; }"
try "budget: one beta fewer" "$asked" "if beta + 1 >= budget as u64 { break 'run 100; }"
try "budget: 0 taken for no limit" "$asked" "if budget != 0 && beta == budget as u64 { break 'run 100; }"
try "budget: the beta that is not made counted" "$asked" "if beta == budget as u64 { beta += 1; break 'run 100; }"
try "budget: read with 16 bits" "$asked" "if beta == budget as u16 as u64 { break 'run 100; }"
try "budget: read with 24 bits" "$asked" "if beta == (budget & 0xFF_FFFF) as u64 { break 'run 100; }"
try "budget: read with a sign" "$asked" "if beta as i64 >= budget as i32 as i64 { break 'run 100; }"
try "budget: betas counted with 8 bits" "$asked" "if beta as u8 as u64 == budget as u64 { break 'run 100; }"

# the machine on demand: what is copied, what is renamed and where, what is counted, and the numbers of the machines
all=("${tests[@]}")
tests=(--test machines --test demand3 --test random)
lookup="if t == 0 && (!ON_DEMAND || stack != 0) {"
bare="if ON_DEMAND && s.owns[top] == 0 && s.tags[s.codes[top] as usize] == 0 {"
renames="rename(s.tags, s.args, code + 1, z, y);"
renamed="if args[k] == x { args[k] = y; }"
inner="            1 => {}
            _ => open += 1,"
allowed="if ON_DEMAND { beta + 1 } else { (1 + beta) * vars }"
try "demand: a copy with an empty stack, as on the first machine" "$lookup" "if t == 0 {"
try "demand: a copy with an empty stack where the run would end" "$lookup" "if t == 0 && (!ON_DEMAND || stack != 0 || dump == 0) {"
try "demand: a copy with an empty stack where the variable would leave" "$lookup" "if t == 0 && (!ON_DEMAND || stack != 0 || dump != 0) {"
try "demand: no copy but where the run would end" "$lookup" "if t == 0 && (!ON_DEMAND || stack != 0 && dump == 0) {"
try "demand: a bare variable given an entry" "$bare" "if ON_DEMAND && s.owns[top] == 0 && s.tags[s.codes[top] as usize] == 9 {"
try "demand: only a variable without an entry renamed" "$bare" "if ON_DEMAND && s.owns[top] == 0 && s.tags[s.codes[top] as usize] == 0 && s.places[s.args[s.codes[top] as usize] as usize] == 0 {"
try "demand: a variable with a stack of its own taken for a bare one" "$bare" "if ON_DEMAND && s.tags[s.codes[top] as usize] == 0 {"
try "demand: an abstraction taken for a bare variable" "$bare" "if ON_DEMAND && s.owns[top] == 0 {" "${ends[@]}"
try "demand: a beta renames only where its argument is the last" "$bare" "if ON_DEMAND && s.nexts[top] == 0 && s.owns[top] == 0 && s.tags[s.codes[top] as usize] == 0 {"
try "demand: an application's size renamed" "$inner" "            1 => {}
            _ => { open += 1; $renamed }"
try "demand: renaming stops at the first inner abstraction" "$inner" "            1 => return,
            _ => open += 1,"
try "demand: renaming leaves out inner abstractions" "$inner" "            1 => { open -= 1; k = end_of(tags, k) - 1; }
            _ => open += 1,"
try "demand: renaming stops at the end of the left part" "$renames" "rename(s.tags, s.args, code + if s.tags[code + 1] == 2 { 2 } else { 1 }, z, y);"
try "demand: renaming in the right part alone" "$renames" "rename(s.tags, s.args, code + if s.tags[code + 1] == 2 { 2 + s.args[code + 1] as usize } else { 1 }, z, y);"
try "demand: the first occurrence renamed alone" "$renamed" "if args[k] == x { args[k] = y; return; }"
try "demand: every name from the bound one on renamed" "$renamed" "if args[k] >= x { args[k] = y; }"
try "demand: nothing renamed" "$renames" "let _ = y;"
try "demand: names renamed with 8 bits compared" "$renamed" "if args[k] as u8 == x as u8 { args[k] = y; }"
try "demand: a beta that renames not counted" "$renames" "$renames beta = beta.wrapping_sub(1);"
try "demand: a beta that renames not asked of the budget" "$asked" "if beta == budget as u64 && !(ON_DEMAND && s.owns[stack as usize - 1] == 0 && s.tags[s.codes[stack as usize - 1] as usize] == 0) { break 'run 100; }"
try "demand: a beta that renames counted as a subst too" "$renames" "$renames subst += 1;"
try "demand: the cell given back at a renaming" "$renames" "$renames cells -= 1;" "${ends[@]}"
try "demand: the name given back at a renaming" "$renames" "$renames names -= 1;" "${ends[@]}"
try "demand: a leave of an unapplied function counted as leave-fun" "if t == 1 { fun += 1 } else { inert += 1 }" \
    "let entry = s.places[s.args[s.codes[c] as usize] as usize] as usize;
                    if t == 1 || s.owns[c] == 0 && entry != 0 && s.tags[s.codes[entry - 1] as usize] == 1 { fun += 1 } else { inert += 1 }"
try "demand: the subst allowance of the first machine" "$allowed" "(1 + beta) * vars"
try "demand: the subst allowance on both machines" "$allowed" "beta + 1"
try "demand: a subst allowance of as many as betas" "$allowed" "if ON_DEMAND { beta } else { (1 + beta) * vars }"
try "demand: an unknown machine taken for the first" "_ => 5," "_ => run::<false>(p, b, budget, s, report),"
try "demand: an unknown machine taken for the one on demand" "_ => 5," "_ => run::<true>(p, b, budget, s, report),"
try "demand: the machine's number read with 8 bits" "match machine {" "match machine as u8 {"
try "demand: the machine's number read with 31 bits" "match machine {" "match machine & 0x7FFF_FFFF {"
try "demand: the two machines the other way about" "0 => run::<false>" "0 => run::<true>" "1 => run::<true>" "1 => run::<false>"
try "demand: the report's length asked for before the machine" "    match machine {" "    if report.len() < 12 { return 4; }
    match machine {"
try "demand: the file looked at before the machine" "    match machine {" "    if report.len() >= 12 && check(b) != 0 { return run::<false>(p, b, budget, s, report); }
    match machine {"
try "demand: an unknown machine told in the report" "_ => 5," "_ => { if let Some(first) = report.first_mut() { *first = 5; } 5 }"

# named definitions: how a prelude is cut and refused, what is loaded, what is counted, and what a name stands for
tests=(--test preludes)
count="if word(p, 0) > f { return Err(17); }"
cutting="        starts.push(at);"
whole="    if p.len() != at { return Err(17); }"
own="if bad != 0 { return Err(bad); }"
abstraction="    if starts.iter().any(|&at| p[at + 4] != 1) { return Err(18); }"
place="    if starts.iter().enumerate().any(|(k, &at)| word(p, at) != k) { return Err(19); }"
refused="Err(bad) => { report[0] = bad; return 3; }"
loaded="let names0 = f + sum(1) as usize;"
try "prelude: 18 before 17" "$whole" "    if starts.iter().any(|&at| p.get(at + 4).is_some_and(|&tag| tag != 1)) { return Err(18); }
$whole"
try "prelude: a definition's 2 while it is cut" "$cutting" "$cutting
        if word(p, at) > 16_384 || word(p, at + 2) == 0 || word(p, at + 2) > 16_384 { return Err(2); }"
try "prelude: a definition's own refusals while it is cut" "$cutting" "$cutting
        let end = at + 4 + 3 * word(p, at + 2);
        if end <= p.len() { let bad = check(&p[at..end]); $own }"
try "prelude: 18 of each definition in turn" "$own" "$own
        if p[at + 4] != 1 { return Err(18); }"
try "prelude: 19 of each definition in turn" "    for &at in &starts {" "    for (k, &at) in starts.iter().enumerate() {" "$own" "$own
        if word(p, at) != k && p[at + 4] == 1 { return Err(19); }"
try "prelude: 18 and 19 of each definition in turn, behind the others" "$abstraction" "    for (k, &at) in starts.iter().enumerate() { if p[at + 4] != 1 { return Err(18); } if word(p, at) != k { return Err(19); } }"
try "prelude: 19 before 18" "$abstraction" "$place
$abstraction"
try "prelude: 19 before a definition's own refusals" "    for &at in &starts {" "$place
    for &at in &starts {"
try "prelude: own refusals by the last definition first" "    for &at in &starts {" "    for &at in starts.iter().rev() {"
try "prelude: each own refusal over all definitions before the next" "    for &at in &starts {" "    let all = starts.iter().map(|&at| check(&p[at..at + 4 + 3 * word(p, at + 2)])).filter(|&bad| bad != 0).min();
    if let Some(bad) = all { return Err(bad); }
    for &at in &starts {"
try "prelude: its refusals before the term's" "    let bad = check(b);
    if bad != 0 { report" "    if b.len() > 1 { if let Err(bad) = check_prelude(p, word(b, 0)) { report[0] = bad; return 3; } }
    let bad = check(b);
    if bad != 0 { report"
try "prelude: fewer than two bytes taken for no definition" "if p.len() < 2 { return Err(17); }" "if p.len() < 2 { return Ok(starts); }"
try "prelude: more definitions than free names" "$count" ""
try "prelude: more definitions than free names refused last" "$count" "" "    Ok(starts)" "    $count
    Ok(starts)"
try "prelude: one definition fewer than free names" "$count" "if word(p, 0) >= f.max(1) { return Err(17); }"
try "prelude: the count read with 8 bits" "$count" "if p[0] as usize > f { return Err(17); }" "for _ in 0..word(p, 0)" "for _ in 0..p[0]"
try "prelude: bytes left over" "$whole" "    if p.len() < at { return Err(17); }"
try "prelude: one byte left over" "$whole" "    if p.len() < at || p.len() > at + 1 { return Err(17); }"
try "prelude: a header cut short taken for none" "if p.len() < at + 4 { return Err(17); }" "if p.len() < at + 4 { break; }"
try "prelude: n cut at its limit" "at += 4 + 3 * word(p, at + 2);" "at += 4 + 3 * word(p, at + 2).min(16_384);"
try "prelude: n of 0 with the bytes of one node" "at += 4 + 3 * word(p, at + 2);" "at += 4 + 3 * word(p, at + 2).max(1);"
try "prelude: a definition's bytes counted with 16 bits" "at += 4 + 3 * word(p, at + 2);" "at += (4 + 3 * word(p, at + 2)) as u16 as usize;"
try "prelude: a definition's names checked by its place" "    for &at in &starts {
        let bad = check(&p[at..at + 4 + 3 * word(p, at + 2)]);" "    for (k, &at) in starts.iter().enumerate() {
        let mut one = p[at..at + 4 + 3 * word(p, at + 2)].to_vec();
        if word(&one, 0) <= 16_384 { one[..2].copy_from_slice(&(k as u16).to_le_bytes()); }
        let bad = check(&one);"
try "prelude: a definition that is no abstraction" "$abstraction" ""
try "prelude: a definition that is an application" "p[at + 4] != 1)" "p[at + 4] == 0)"
try "prelude: a definition may name itself" "word(p, at) != k)" "word(p, at) != k && word(p, at) != k + 1)"
try "prelude: a definition may have fewer free names" "word(p, at) != k)" "word(p, at) > k)"
try "prelude: the place not looked at" "$place" ""
try "prelude: the last definition's place not looked at" "word(p, at) != k)" "word(p, at) != k && k + 1 < starts.len())"
try "prelude: a node changed at a refusal" "$refused" "Err(bad) => { report[0] = bad; if let Some(tag) = s.tags.first_mut() { *tag ^= 1; } return 3; }"
try "prelude: a name changed at a refusal" "$refused" "Err(bad) => { report[0] = bad; if let Some(place) = s.places.last_mut() { *place ^= 1; } return 3; }"
try "prelude: the output changed at a refusal" "$refused" "Err(bad) => { report[0] = bad; if let Some(x) = s.out_args.last_mut() { *x ^= 1; } return 3; }"
try "prelude: all of the report written at a refusal" "$refused" "Err(bad) => { report[..12].fill(0); report[0] = bad; return 3; }"
try "prelude: a name changed at a loading refusal" "        if n > cap {" "        if n > cap && !s.places.is_empty() { s.places[0] = DEFINED; }
        if n > cap {"
try "prelude: binders keep their numbers" "x - f + names }" "x + 0 * names }" "${ends[@]}"
try "prelude: binders named from f on" "(word(b, 2), f + count(b, 1) as usize)" "(word(b, 2), f)" "${ends[@]}"
try "prelude: each definition's binders named from f + L on" "            name += count(d, 1) as usize;
" "            let _ = &mut name;
" "${ends[@]}"
# (in which order the definitions' binders are named could not be seen: they are new names in any order)
try "prelude: f + L names taken" "$loaded" "let names0 = f + count(b, 1) as usize;" "${ends[@]}"
try "prelude: the term's nodes taken alone" "        if n > cap { nodes" "        nodes = word(b, 2);
        if n > cap { nodes" "${ends[@]}"
try "prelude: the term's nodes asked for alone" "        if n > cap {" "        if word(b, 2) > cap {"
try "prelude: a cell for each definition" "(n, 0usize, names0)" "(n, definitions.len(), names0)"
try "prelude: a cell for each definition in the figures" "nodes as u64, cells as u64," "nodes as u64, cells as u64 + definitions.len() as u64,"
try "prelude: a cell for each definition asked for" "if cells >= cells_cap" "if cells + definitions.len() >= cells_cap"
try "prelude: 10 before 9 at loading" "        if n > cap {" "        if names0 > names_cap { nodes = 0; names = 0; break 'run 10; }
        if n > cap {"
try "prelude: V of the term alone" "let (vars, apps) = (sum(0), sum(2));" "let (vars, apps) = (count(b, 0), sum(2));"
try "prelude: A of the term alone" "let (vars, apps) = (sum(0), sum(2));" "let (vars, apps) = (sum(0), count(b, 2));"
try "prelude: V and A counted with 16 bits" "let (vars, apps) = (sum(0), sum(2));" "let (vars, apps) = (sum(0) as u16 as u64, sum(2) as u16 as u64);"
try "prelude: a definition fired where it lies, without a copy" "                                let end = end_of(s.tags, from);" "                                if e == DEFINED { code = from; subst += 1; continue; }
                                let end = end_of(s.tags, from);" "${ends[@]}"
try "prelude: a definition's copy keeps its binders" "x = x - z + names;" "if e != DEFINED { x = x - z + names; }" "${ends[@]}"
try "prelude: a definition copied for a name that is not applied, on demand" "$lookup" "if t == 0 && (!ON_DEMAND || stack != 0 || s.places[s.args[code] as usize] == DEFINED) {"
try "prelude: a definition left alone on the first machine where it is not applied" "$lookup" "if t == 0 && (stack != 0 || !ON_DEMAND && s.places[s.args[code] as usize] != DEFINED) {"
try "prelude: a definition's name made an entry on demand" "$bare" "if ON_DEMAND && s.owns[top] == 0 && s.tags[s.codes[top] as usize] == 0 && s.places[s.args[s.codes[top] as usize] as usize] != DEFINED {"
try "prelude: definitions not put in as the term is written" "if s.tags[k] == 0 && s.places[x] != 0 {" "if s.tags[k] == 0 && s.places[x] != 0 && s.places[x] != DEFINED {" "_ if s.places[x] != 0 =>" "_ if s.places[x] != 0 && s.places[x] != DEFINED =>"
try "prelude: the term written with the free names that are no definitions" "match result(s, &defined, code, stack, names, room, f)" "match result(s, &defined, code, stack, names, room, f - defined.len())"
try "prelude: the first definition alone is an entry" "            s.places[k] = DEFINED;" "            if k == 0 { s.places[k] = DEFINED; }"
try "prelude: the last definition is no entry" "            s.places[k] = DEFINED;" "            if k + 1 < definitions.len() { s.places[k] = DEFINED; }"
source=$calls
try "prelude: left out of the call" "evaluate_with(machine, slice(prelude, prelude_len)," "evaluate_with(machine, if prelude_len == 0 { &[] } else { &[0, 0] },"
try "prelude: a null pointer taken for no definition" "slice(prelude, prelude_len), slice(file" "if prelude.is_null() { &[0, 0] } else { slice(prelude, prelude_len) }, slice(file"
source=$machine

# larger budgets and longer stores: what is lent told for what is taken, and answers that go with the room that is left
tests=(--test raising)
figures="nodes as u64, cells as u64, names as u64,"
renumbering="if s.renumber.len() < names { break 'run 11; }"
fits="Some(k) => { written = k; break 'run 0; }"
too_long="None => break 'run 12,"
try "raising: the nodes lent told where the run is normal" "$figures" "if outcome == 0 { cap } else { nodes } as u64, cells as u64, names as u64,"
try "raising: the cells lent told where the run is normal" "$figures" "nodes as u64, if outcome == 0 { cells_cap } else { cells } as u64, names as u64,"
try "raising: the names lent told where the run is spent" "$figures" "nodes as u64, cells as u64, if outcome == 100 { names_cap } else { names } as u64,"
try "raising: the output's length told for the nodes written" "outcome }, written as u64," "outcome }, if outcome == 0 { s.out_tags.len().min(s.out_args.len()) } else { 0 } as u64,"
try "raising: the subst allowance by the budget" "$allowed" "if ON_DEMAND { beta + 1 } else { (1 + budget as u64) * vars }"
try "raising: the subst allowance on demand by the budget" "$allowed" "if ON_DEMAND { budget as u64 + 1 } else { (1 + beta) * vars }"
try "raising: the shift allowance by the budget" "(1 + beta) * 2 * apps" "(1 + budget as u64) * 2 * apps"
try "raising: a leave more told where some of the budget is left" "$fits" "Some(k) => { written = k; if beta < budget as u64 { inert += 1; } break 'run 0; }"
try "raising: leave-fun told as leave-inert where every cell is taken" "if t == 1 { fun += 1 }" "if t == 1 && cells < cells_cap { fun += 1 }"
try "raising: binders numbered one on where the renumber store is longer than needed" "(0usize, f);" "(0usize, f + usize::from(s.renumber.len() > names));"
try "raising: a node written past the term where there is room" "    Some(n)
}" "    if n < room { s.out_tags[n] = 0; s.out_args[n] = 0; }
    Some(n)
}"
try "raising: refused by 8 for spent where every cell is taken" "$asked" "if beta == budget as u64 { break 'run if cells == cells_cap { 8 } else { 100 }; }"
try "raising: one beta more where half of the nodes are left" "$asked" "if beta >= budget as u64 + u64::from(cap >= 2 * nodes) { break 'run 100; }"
try "raising: spent where the last allowed beta has been made, and no step fits" "if dump == 0 {" "if dump == 0 {
                        if beta > 0 && beta == budget as u64 { break 'run 100; }"
try "raising: spent at loading with no budget where names are short" "names = 0; break 'run 10; }" "names = 0; break 'run if budget == 0 { 100 } else { 10 }; }"
try "raising: the first machine on demand with a large budget" "        0 => run::<false>" "        0 if budget > 99 => run::<true>(p, b, budget, s, report),
        0 => run::<false>"
try "raising: a stop where subst is due with dump and stack empty, and nodes are left" "if s.tags[from] == 1 {" "if s.tags[from] == 1 && (dump != 0 || stack != 0 || nodes + 8 > cap) {"
try "raising: on demand the last allowed beta makes an entry of a bare variable" "$bare" "if ON_DEMAND && beta + 1 < budget as u64 && s.owns[top] == 0 && s.tags[s.codes[top] as usize] == 0 {"
try "raising: as many elements of the renumber store asked for as names are lent" "$renumbering" "if s.renumber.len() < names_cap { break 'run 11; }"
try "raising: 12 for 11 where the output is longer than the names in use" "$renumbering" "if s.renumber.len() < names { break 'run if s.out_tags.len().min(s.out_args.len()) > names { 12 } else { 11 }; }"
try "raising: 11 for 12 where the renumber store is longer than needed" "$too_long" "None => break 'run if s.renumber.len() > names { 11 } else { 12 },"
try "raising: 10 before 9 at subst where a cell is left" "$nodes" "if cells < cells_cap && names + binders > names_cap { break 'run 10; } $nodes"
try "raising: nodes counted with 16 bits" "s.tags.len().min(s.args.len()).min(32_768)" "(s.tags.len().min(s.args.len()) as u16 as usize).min(32_768)"
try "raising: the renumber store counted with 16 bits" "$renumbering" "if (s.renumber.len() as u16 as usize) < names { break 'run 11; }"
try "raising: the output counted with 16 bits" "s.out_tags.len().min(s.out_args.len()).min(16_384)" "(s.out_tags.len().min(s.out_args.len()) as u16 as usize).min(16_384)"
try "raising: 2 for 4 to 7 where the nodes of the file are more than those lent" "    let bad = check(b);" "    let bad = match check(b) { 4.. if word(b, 2) > s.tags.len().min(s.args.len()) => 2, bad => bad };"
try "raising: 17 for each refusal of a prelude with no budget" "$refused" "Err(bad) => { report[0] = if budget == 0 { 17 } else { bad }; return 3; }"
tests=("${all[@]}")

try "10 before 9 at loading" "if n > cap { nodes = 0; names = 0; break 'run 9; }" "if names0 > names_cap { nodes = 0; names = 0; break 'run 10; } if n > cap { nodes = 0; names = 0; break 'run 9; }"
try "10 before 9 at subst" "if nodes + size > cap { break 'run 9; }" "if names + binders > names_cap { break 'run 10; } if nodes + size > cap { break 'run 9; }"
try "12 before 11" "if s.renumber.len() < names { break 'run 11; }" ""
try "names not cleared at loading" "s.places[..names].fill(0);" "" "${ends[@]}"
try "names not cleared at subst" "s.places[names..names + binders].fill(0);" "" "${ends[@]}"
try "off by one in the node store" "if nodes + size > cap" "if nodes + size >= cap"
try "off by one in the output" "if sums[0] > room as u64" "if sums[0] >= room as u64"
# (a limit of 32,767 on cells could not be seen: a node store of 32,768 has at most 16,383 applications)
try "only 32767 nodes counted" "s.tags.len().min(s.args.len()).min(32_768)" "s.tags.len().min(s.args.len()).min(32_767)"
try "only 32767 names counted" "s.places.len().min(32_768)" "s.places.len().min(32_767)"
try "32769 names counted" "s.places.len().min(32_768)" "s.places.len().min(32_769)"
try "only 16383 written" "s.out_args.len()).min(16_384)" "s.out_args.len()).min(16_383)"
try "16385 written" "s.out_args.len()).min(16_384)" "s.out_args.len()).min(16_385)"
try "nodes beyond 32768 counted" "s.tags.len().min(s.args.len()).min(32_768)" "s.tags.len().min(s.args.len()).min(40_000)"
try "shift allowance without the 2" "(1 + beta) * 2 * apps" "(1 + beta) * apps"
try "loading refusal keeps its figures" "if n > cap { nodes = 0; names = 0;" "if n > cap {"
try "a written element past the term" "    Some(n)
}" "    if n < s.out_tags.len() { s.out_tags[n] ^= 1; }
    Some(n)
}"
try "leave kinds swapped" "if t == 1 { fun += 1 } else { inert += 1 }" "if t == 0 { fun += 1 } else { inert += 1 }"
try "the binder check is skipped" "if arg(k) != next { return 6; }" ""
try "scope: any binder before will do" "while around.last().is_some_and(|&(_, e)| e <= k) { around.pop(); }" ""
try "an argument of an application unchecked" "if at != k + 1 { return 5; }" "if at > 99_000 { return 5; }"

# import and export
source=$exchange
tests=(--test binary)

try "import: bits from the lowest" "byte & 0x80 >> (self.at % 8)" "byte & 1 << (self.at % 8)"
try "export: bits from the lowest" "|= 0x80 >> (self.at % 8)" "|= 1 << (self.at % 8)"
try "import and export: bits from the lowest" "byte & 0x80 >> (self.at % 8)" "byte & 1 << (self.at % 8)" "|= 0x80 >> (self.at % 8)" "|= 1 << (self.at % 8)"
try "import: k ones for k + 1" "let mut index = 0;" "let mut index = 1;"
try "import and export: k + 2 ones for k + 1" "{ index += 1; }" "{ index += 1; }
            index = index.max(1) - 1;" "ones.push(index + 1);" "ones.push(index + 2);" "length += index + 2;" "length += index + 3;"
try "import and export: the two kinds of node swapped" "let is_application = reader" "let is_application = !reader" "1 => { writer.bit(false);" "2 => { writer.bit(false);"
try "import: ones counted in 16 bits" "index += 1;" "index = (index + 1) % 65_536;"
try "import: no bits refused as a spare byte would be" "if f > MOST { return Err(2); }" "if f > MOST { return Err(2); }
    if bits.is_empty() { return Err(15); }"
try "import: the padding not looked at" "while let Some(bit) = reader.bit() { if bit { return Err(15); } }" ""
try "import: a spare byte not looked at" "if 8 * bits.len() - reader.at >= 8 { return Err(15); }" "" "while let Some(bit) = reader.bit() { if bit {" "while reader.at % 8 != 0 { if reader.bit() == Some(true) {"
try "import: a spare byte of zeros accepted" "if 8 * bits.len() - reader.at >= 8 { return Err(15); }" ""
try "import: 12 before 15" "    if 8 * bits.len() - reader.at >= 8" "    if out.len() < 4 + 3 * tags.len() { return Err(12); }
    if 8 * bits.len() - reader.at >= 8"
try "import: 15 before 16" "            if tags.len() == MOST || index" "            if index >= around.len() + f && 8 * bits.len() - reader.at >= 8 { return Err(15); }
            if tags.len() == MOST || index"
try "import: 16 at the first bit of the node beyond" "    loop {" "    loop {
        if tags.len() == MOST { reader.bit().ok_or(14u32)?; return Err(16); }"
try "import: 16 at the first one too many" "while reader.bit().ok_or(14u32)?" "while index < around.len() + f && reader.bit().ok_or(14u32)?"
try "import: only 16383 nodes" "tags.len() == MOST ||" "tags.len() == MOST - 1 ||" "tags.len() == MOST {" "tags.len() == MOST - 1 {"
try "import: 16385 nodes" "tags.len() == MOST ||" "tags.len() == MOST + 1 ||" "tags.len() == MOST {" "tags.len() == MOST + 1 {"
try "import: the free name f" "index >= around.len() + f " "index > around.len() + f "
try "import: the last free name refused" "index >= around.len() + f " "index + 1 >= around.len() + f && index >= around.len() "
try "import: f below 16384" "f > MOST" "f >= MOST"
try "import: f to 16385" "f > MOST" "f > MOST + 1"
try "import: f read with 16 bits" "let f = f as usize;" "let f = f as u16 as usize;"
try "import: 2 tested last" "if f > MOST { return Err(2); }" "" "    let n = tags.len();" "    if f > MOST { return Err(2); }
    let n = tags.len();"
try "import: a right part below the left part's abstractions" "around.truncate(depth);" ""
try "import: off by one in the output" "out.len() < 4 + 3 * n" "out.len() <= 4 + 3 * n"
try "import: written before it is known to fit" "    if out.len() < 4 + 3 * n" "    if out.len() > 3 { out[..2].copy_from_slice(&(f as u16).to_le_bytes()); out[2..4].copy_from_slice(&(n as u16).to_le_bytes()); }
    if out.len() < 4 + 3 * n"
try "import: a byte past the file changed" "    Ok(4 + 3 * n)" "    if let Some(next) = out.get_mut(4 + 3 * n) { *next ^= 1; }
    Ok(4 + 3 * n)"
try "export: free names without the abstractions around" "if name < f { around + name }" "if name < f { name }"
try "export: abstractions around a right part not forgotten" "if let Some(depth) = due.pop() { around = depth; }" "due.pop();"
try "export: 12 before 1 to 7" "    if refusal != 0" "    if out.is_empty() { return Err(12); }
    if refusal != 0"
try "export: a whole byte of padding" "(length + 7) / 8" "length / 8 + 1"
try "export: off by one in the output" "out.len() < bytes" "out.len() <= bytes"
try "export: written before it is known to fit" "    if out.len() < bytes" "    if let Some(first) = out.first_mut() { *first = 0; }
    if out.len() < bytes"
try "export: all of the output zeroed" "out[..bytes].fill(0);" "out.fill(0);"
try "export: the output not zeroed" "out[..bytes].fill(0);" ""

source=$calls
try "import and export: a third element of the report written" "    report[1] = written;" "    report[1] = written;
    if let Some(third) = report.get_mut(2) { *third = 0; }"
try "import and export: the bytes written not told as 0 at a refusal" "    report[1] = written;" "    if status == 0 { report[1] = written; }"
try "import and export: a report of one element" "if report.len() < 2 { return 4; }" "if report.is_empty() { return 4; }" "    report[1] = written;" "    if report.len() > 1 { report[1] = written; }"
try "import and export: a report of two elements too short" "if report.len() < 2 { return 4; }" "if report.len() < 3 { return 4; }"

echo "$faults faults: $by_assertion caught by an assertion, $by_crash by a crash alone, $by_time by the time limit alone; $wrong not put in or not caught"
[ "$wrong" -eq 0 ] && [ "$faults" -gt 0 ]
