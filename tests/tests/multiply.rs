//! No 64-bit product in the object code of x86-64: what objdump shows of libglow.a and of libproduct_test.a multiplies no numbers of
//! 64 bits, has no product with a result of 64 bits, and names no function that works one out.
#![cfg(feature = "library")]
use glow_tests::process::root;
use std::collections::{BTreeMap, BTreeSet};
use std::path::{Path, PathBuf};
use std::process::Command;

/// What a line of a disassembly multiplies.
#[derive(Clone, Copy, Debug, PartialEq, Eq)]
enum Product {
    /// A result of so many bits, 16 or 32, from operands of no more.
    Narrow(u32),
    /// Operands of 64 bits.
    Wide,
    /// Operands of 32 bits, and a result of 64.
    Widening,
    /// Packed, carry-less or floating numbers, but for packed ones whose results have no more than 32 bits.
    Other,
    /// It names a symbol with `mul` in it, by a relocation or as the place that it goes to.
    Named,
}
use Product::*;

/// Packed products of 8 to 32 bits whose results have no more than 32.
const NARROW_PACKED: [&str; 7] = ["pmulld", "pmullw", "pmulhw", "pmulhuw", "pmulhrsw", "pmaddwd", "pmaddubsw"];

/// The bits of a register, as `%eax`.
fn of_register(register: &str) -> u32 {
    let name = register.strip_prefix('%').unwrap();
    let numbered = name.as_bytes()[1].is_ascii_digit();
    match name.chars().last().unwrap() {
        'd' if numbered => 32,
        'w' if numbered => 16,
        'b' if numbered => 8,
        _ if name.starts_with('r') => 64,
        _ if name.starts_with('e') => 32,
        'l' | 'h' => 8,
        _ => 16,
    }
}

/// The operands of an instruction. A comma between brackets is a part of one.
fn operands(text: &str) -> Vec<&str> {
    let mut depth = 0;
    text.split(|c: char| { depth += i32::from(c == '(') - i32::from(c == ')'); c == ',' && depth == 0 }).collect()
}

/// What an instruction or a relocation multiplies, if it does. Prefixes may stand before an instruction, and a comment behind it.
fn multiplied(line: &str) -> Option<Product> {
    let words: Vec<&str> = line.split_whitespace().collect();
    let relocation = words.first()?.starts_with("R_");
    if words.iter().any(|word| (relocation || word.starts_with('<')) && is_helper(word)) { return Some(Named); }
    let multiplies = |word: &str| ["mul", "madd", "msub"].iter().any(|part| word.contains(part));
    let at = words.iter().position(|word| word.bytes().all(|b| b.is_ascii_alphanumeric()) && multiplies(word))?;
    let (name, operands) = (words[at], operands(words.get(at + 1).copied().unwrap_or("")));
    let (alone, suffix) = match name.strip_prefix("imul").or_else(|| name.strip_prefix("mul")) {
        Some(suffix @ ("" | "b" | "w" | "l" | "q")) => (operands.len() == 1, suffix),
        Some(suffix @ ("x" | "xl" | "xq")) => (true, &suffix[1..]),
        _ => return Some(if NARROW_PACKED.contains(&name.trim_start_matches('v')) { Narrow(32) } else { Other }),
    };
    // the last operand is where the result goes, or the only one; where it is in memory the suffix tells its bits
    let last = *operands.last().unwrap();
    let bits = match suffix {
        _ if last.starts_with('%') && !last.contains('(') && !last.contains(':') => of_register(last),
        "b" => 8,
        "w" => 16,
        "l" => 32,
        "q" => 64,
        _ => panic!("of how many bits is {line}?"),
    };
    Some(match (alone, bits) { (_, 64) => Wide, (true, 32) => Widening, (true, bits) => Narrow(2 * bits), (false, bits) => Narrow(bits) })
}

/// The library's own functions have a path as their name.
fn is_helper(symbol: &str) -> bool { !symbol.contains("::") && symbol.to_ascii_lowercase().contains("mul") }

/// Object code as objdump shows it: the lines of each function, relocations among them, the names of all symbols, and of those that one of
/// its files names and does not have.
#[derive(Default)]
struct Code { functions: BTreeMap<String, Vec<String>>, symbols: Vec<String>, outside: BTreeSet<String> }

impl Code {
    fn of(path: &Path) -> Code {
        let mut objdump = Command::new("objdump");
        let shown = objdump.args(["-t", "-dr", "--no-show-raw-insn", "-M", "att"]).arg(path).env("LC_ALL", "C").output().unwrap();
        assert!(shown.status.success() && shown.stderr.is_empty(), "{}: {}", path.display(), String::from_utf8_lossy(&shown.stderr));
        let hex = |s: &str| !s.is_empty() && s.bytes().all(|b| b.is_ascii_hexdigit());
        let mut code = Code::default();
        let mut function = String::new();
        for line in String::from_utf8(shown.stdout).unwrap().lines() {
            // `0000000000000010 <name>:` begins a function, `  10:` and a tab an instruction, `10: R_` a relocation
            if let Some((at, name)) = line.strip_suffix(">:").and_then(|line| line.split_once(" <")) {
                assert!(hex(at), "{line}");
                function = name.into();
                code.functions.entry(function.clone()).or_default();
                continue;
            }
            match line.trim_start().split_once(':') {
                Some((at, text)) if hex(at) && (text.starts_with('\t') || text.starts_with(" R_")) => {
                    assert!(!text.contains("(bad)"), "{function}: {line}");
                    code.functions.get_mut(&function).expect("a function before its lines").push(text.trim().into());
                    continue;
                }
                _ => {}
            }
            // a symbol begins with its 16 digits and ends with its name; `df` is the name of a file
            let symbol = line.split_once(' ').is_some_and(|(at, _)| at.len() == 16 && hex(at)) && !line.contains(" df ");
            if symbol {
                let name = line.split_whitespace().last().map(String::from);
                if line.contains(" *UND*") { code.outside.extend(name.clone()); }
                code.symbols.extend(name);
            }
        }
        code
    }

    fn instructions(&self) -> usize { self.functions.values().flatten().filter(|line| !line.starts_with("R_")).count() }

    /// The 32-bit products of a function that is there.
    fn narrow(&self, function: &str) -> usize {
        let lines = self.functions.get(function).unwrap_or_else(|| panic!("there is no function {function}"));
        lines.iter().filter(|line| multiplied(line) == Some(Narrow(32))).count()
    }

    /// What a function has that is not allowed.
    fn wide(&self, function: &str) -> Vec<(Product, &str)> {
        let products = self.functions[function].iter().filter_map(|line| Some((multiplied(line)?, &line[..])));
        products.filter(|(product, _)| !matches!(product, Narrow(_))).collect()
    }

    /// All that is not allowed, in words: of each function, and symbols.
    fn not_allowed(&self) -> Vec<String> {
        let lines = self.functions.keys().flat_map(|f| self.wide(f).into_iter().map(move |(p, line)| format!("{f}: {p:?}: {line}")));
        lines.chain(self.symbols.iter().filter(|s| is_helper(s)).map(|s| format!("symbol {s}"))).collect()
    }
}

/// An archive from the folder of the library that the tests are linked with.
fn archive(name: &str) -> Code {
    let dir = std::env::var_os("GLOW_LIB_DIR").map_or_else(|| root().join("target/lib"), PathBuf::from);
    Code::of(&root().join(dir).join(name))
}

/// Nothing that is not allowed is in an archive, and its functions are there; how many 32-bit products it has.
fn look(name: &str, functions: &[&str]) -> (Code, usize) {
    let code = archive(name);
    for f in functions { assert!(code.symbols.iter().any(|s| s == f) && code.functions.contains_key(*f), "{name}: there is no {f}"); }
    let narrow = code.functions.keys().map(|f| code.narrow(f)).sum();
    println!("{name}: {} functions, {} instructions, {narrow} products of 32 bits", code.functions.len(), code.instructions());
    for f in code.functions.keys().filter(|f| code.narrow(f) > 0) { println!("    {} of them in {f}", code.narrow(f)); }
    let found = code.not_allowed();
    assert!(found.is_empty(), "{name} has\n{}", found.join("\n"));
    (code, narrow)
}

#[test]
fn the_library() {
    let (code, narrow) = look("libglow.a", &["glow_evaluate", "glow_import", "glow_export"]);
    assert!(code.instructions() > 1000 && narrow > 0, "{} instructions, {narrow} products", code.instructions());
}

/// Of functions outside it the library calls `memset` alone, and the products call none.
#[test]
fn outside_the_library() {
    assert_eq!(archive("libglow.a").outside.iter().collect::<Vec<_>>(), ["memset"]);
    assert!(archive("libproduct_test.a").outside.is_empty());
    let code = compiled("outside", "void *memcpy(void *, const void *, __SIZE_TYPE__); void copies(void *a, void *b, u64 n) { memcpy(a, b, n); }");
    assert_eq!(code.outside.iter().collect::<Vec<_>>(), ["memcpy"]);
}

/// Four products at least of 16-bit pieces make one of 32-bit numbers.
#[test]
fn the_product() {
    let functions = ["product_of", "allowance_of"];
    let (code, _) = look("libproduct_test.a", &functions);
    for f in functions { assert!(code.narrow(f) >= 4, "{f} has {} products: {:#?}", code.narrow(f), code.functions[f]); }
}

#[test]
fn lines() {
    for (line, product) in [
        ("imul   %rsi,%rax", Some(Wide)),
        ("imul   %r8,%r15", Some(Wide)),
        ("imul   $0xf4243,%rdi,%rax", Some(Wide)),
        ("imul   0x10(%rax,%rcx,8),%rdx", Some(Wide)),
        ("imul   0x0(%rip),%r9        # 10 <f+0x10>", Some(Wide)),
        ("mul    %rsi", Some(Wide)),
        ("imul   %r10", Some(Wide)),
        ("mulq   (%rdi)", Some(Wide)),
        ("imulq  %fs:0x10(%rax)", Some(Wide)),
        ("mulx   %rsi,%rax,%rdx", Some(Wide)),
        ("mulx   0x8(%rdi),%r8,%r9", Some(Wide)),
        ("mul    %esi", Some(Widening)),
        ("imul   %r8d", Some(Widening)),
        ("mull   0x8(%rdi,%rax,4)", Some(Widening)),
        ("mulx   %esi,%eax,%edx", Some(Widening)),
        ("cs mull (%rdi)", Some(Widening)),
        ("pmuludq %xmm1,%xmm0", Some(Other)),
        ("vpmuludq %ymm1,%ymm0,%ymm2", Some(Other)),
        ("pmuldq (%rdi),%xmm0", Some(Other)),
        ("vpmullq %zmm1,%zmm0,%zmm2", Some(Other)),
        ("vpmadd52luq %zmm1,%zmm0,%zmm2", Some(Other)),
        ("pclmulqdq $0x0,%xmm1,%xmm0", Some(Other)),
        ("mulsd  %xmm1,%xmm0", Some(Other)),
        ("vfmadd213sd %xmm2,%xmm1,%xmm0", Some(Other)),
        ("fmul   %st(1),%st", Some(Other)),
        ("R_X86_64_PLT32\t__muldi3-0x4", Some(Named)),
        ("R_X86_64_GOTPCRELX\t__multi3-0x4", Some(Named)),
        ("call   40 <__mulodi4>", Some(Named)),
        ("jmp    0 <__aeabi_lmul+0x10>", Some(Named)),
        ("lea    0x0(%rip),%rax        # 7 <__MULDI3>", Some(Named)),
        ("imul   %esi,%eax", Some(Narrow(32))),
        ("imul   %r8d,%r15d", Some(Narrow(32))),
        ("imul   $0x3,%edi,%eax", Some(Narrow(32))),
        ("imul   0x10(%rax,%rcx,8),%edx", Some(Narrow(32))),
        ("imul   %si,%ax", Some(Narrow(16))),
        ("imul   %r8w,%r9w", Some(Narrow(16))),
        ("mul    %cx", Some(Narrow(32))),
        ("mul    %r8w", Some(Narrow(32))),
        ("mul    %sil", Some(Narrow(16))),
        ("mulb   (%rdi)", Some(Narrow(16))),
        ("mulw   (%rdi)", Some(Narrow(32))),
        ("pmulld %xmm1,%xmm0", Some(Narrow(32))),
        ("vpmaddwd %xmm1,%xmm0,%xmm2", Some(Narrow(32))),
        ("add    %rsi,%rax", None),
        ("shl    $0x20,%rax", None),
        ("lea    (%rax,%rax,2),%rcx", None),
        ("call   45 <product+0x5>", None),
        ("R_X86_64_PLT32\tproduct-0x4", None),
        ("rep stos %al,%es:(%rdi)", None),
        ("data16 cs nopw 0x0(%rax,%rax,1)", None),
        ("ret", None),
    ] {
        assert_eq!(multiplied(line), product, "{line}");
    }
}

/// Functions in C that have what is not allowed, one each; where it is written as an instruction or a name, as what it is found.
const FOUND: [(&str, &str, Option<Product>); 12] = [
    ("wide", "u64 wide(u64 a, u64 b) { return a * b; }", None),
    ("of_32", "u64 of_32(u32 a, u32 b) { return (u64) a * b; }", None),
    ("high_half", "u64 high_half(u64 a, u64 b) { return (unsigned __int128) a * b >> 64; }", None),
    ("high_of_32", "u32 high_of_32(u32 a, u32 b) { return (u64) a * b >> 32; }", None),
    ("in_memory", "u64 in_memory(const u64 *a, u64 b) { return a[3] * b; }", None),
    ("by_a_number", "u64 by_a_number(u64 a) { return a * 1000003; }", None),
    ("signed_wide", "int64_t signed_wide(int64_t a, int32_t b) { return a * b; }", None),
    ("calls", "u64 __muldi3(u64 a, u64 b); u64 calls(u64 a, u64 b) { return __muldi3(a, b) + 1; }", Some(Named)),
    ("goes_to", "u64 __multi3(u64 a, u64 b); u64 goes_to(u64 a, u64 b) { return __multi3(b, a); }", Some(Named)),
    ("two_results", r#"u32 two_results(u32 a, u32 b) { __asm__("mull %1" : "+a"(a) : "r"(b) : "edx"); return a; }"#, Some(Widening)),
    ("two_named", r#"u32 two_named(u32 a) { __asm__("mulx %0, %%eax, %0" : "+r"(a) : : "eax"); return a; }"#, Some(Widening)),
    ("packed", r#"void packed(void) { __asm__ volatile("pmuludq %%xmm1, %%xmm0" : : : "xmm0"); }"#, Some(Other)),
];

/// Functions in C that have nothing of it, and how many 32-bit products each has.
const NOT_FOUND: [(&str, &str, usize); 8] = [
    ("of_32_to_32", "u32 of_32_to_32(u32 a, u32 b) { return a * b; }", 1),
    ("from_memory", "u32 from_memory(const u32 *a, u64 i, u32 b) { return a[i] * b; }", 1),
    ("by_another", "u32 by_another(u32 a) { return a * 1000003; }", 1),
    ("of_pieces", "u64 of_pieces(u32 a, u32 b) { return (u64) ((a & 65535) * (b & 65535)) + (a >> 16) * (b >> 16); }", 2),
    ("sixteen", r#"u32 sixteen(uint16_t a, uint16_t b) { __asm__("mulw %1" : "+a"(a) : "r"(b) : "edx"); return a; }"#, 1),
    ("sums", "u64 sums(u64 a, u64 b) { return a + b + (a ^ b); }", 0),
    ("shifts", "u64 shifts(u64 a, u32 b) { return (a << 32) + (a >> 16) + ((u64) b << 16); }", 0),
    ("powers", "u64 powers(u64 a) { return a * 4 + 3; }", 0),
];

/// The object code that cc makes of a text, in a folder of its own.
fn compiled(name: &str, text: &str) -> Code {
    let dir = Path::new(env!("CARGO_TARGET_TMPDIR")).join(format!("{name}-{}", std::process::id()));
    std::fs::create_dir_all(&dir).unwrap();
    let (source, object) = (dir.join("shapes.c"), dir.join("shapes.o"));
    std::fs::write(&source, format!("#include <stdint.h>\ntypedef uint64_t u64;\ntypedef uint32_t u32;\n{text}\n")).unwrap();
    let cc = Command::new("cc").args(["-O2", "-c"]).arg(&source).arg("-o").arg(&object).output().unwrap();
    assert!(cc.status.success(), "cc: {}", String::from_utf8_lossy(&cc.stderr));
    let code = Code::of(&object);
    std::fs::remove_dir_all(&dir).unwrap();
    code
}

/// The look can fail: each shape that is not allowed is found in its function, and nothing in functions without.
#[test]
fn each_shape_is_found() {
    let text: Vec<&str> = FOUND.iter().map(|x| x.1).chain(NOT_FOUND.iter().map(|x| x.1)).collect();
    let code = compiled("shapes", &text.join("\n"));
    for (function, _, product) in FOUND {
        let found = code.wide(function);
        println!("{function}: {found:?}");
        assert_eq!(found.len(), 1, "{function}: {:#?}", code.functions[function]);
        if let Some(product) = product { assert_eq!(found[0].0, product, "{function}"); }
    }
    for (function, _, narrow) in NOT_FOUND {
        assert_eq!((code.wide(function), code.narrow(function)), (vec![], narrow), "{function}: {:#?}", code.functions[function]);
    }
    let symbols: Vec<String> = code.not_allowed().into_iter().filter(|x| x.starts_with("symbol ")).collect();
    assert_eq!(symbols, ["symbol __muldi3", "symbol __multi3"]);
    assert_eq!(code.not_allowed().len(), FOUND.len() + symbols.len());
}

/// A helper that no instruction names is found as a symbol, and one in the same file, which needs no relocation, where it is called.
#[test]
fn each_name_is_found() {
    let kept = compiled("kept", "u64 __aeabi_lmul(u64 a, u64 b); u64 (*kept)(u64, u64) = __aeabi_lmul;");
    assert_eq!(kept.not_allowed(), ["symbol __aeabi_lmul"]);
    let near = "static __attribute__((noinline)) u64 near_mul(u64 a) { return a + 1; } u64 goes_near(u64 a) { return near_mul(a) + 1; }";
    let near = compiled("near", near);
    assert_eq!(near.wide("goes_near").iter().map(|x| x.0).collect::<Vec<_>>(), [Named]);
    assert_eq!((near.wide("near_mul"), near.not_allowed().last().map(String::as_str)), (vec![], Some("symbol near_mul")));
    assert!(compiled("none", "u64 none(u64 a) { return a + 1; }").not_allowed().is_empty());
}
