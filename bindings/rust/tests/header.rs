//! src/ffi.rs declares what bindings/c/fbs.h does: the same functions with the same arguments, and the same records with the same fields.

use std::collections::BTreeSet;

const HEADER: &str = include_str!("../../c/fbs.h");
const BINDINGS: &str = include_str!("../src/ffi.rs");

/// Each declaration of the header, in Rust's words.
fn in_header(text: &str) -> BTreeSet<String> {
    let code: String = text.split("/*").map(|part| part.split_once("*/").map_or(part, |(_, code)| code)).collect();
    let mut declared = BTreeSet::new();
    for piece in code.split("typedef struct {").skip(1) {
        let (fields, after) = piece.split_once('}').expect("the end of the fields");
        let (name, functions) = after.split_once(';').expect("the name of the record");
        declared.insert(format!("{} {{ {} }}", name.trim(), list(fields, ';', from_c)));
        for function in functions.split_terminator(");").filter(|function| function.contains('(')) {
            let (head, arguments) = function.split_once('(').expect("the arguments");
            let (answer, name) = head.trim().split_once(' ').expect("an answer and a name");
            declared.insert(format!("{name}({}) -> {}", list(arguments, ',', from_c), rust_type(answer)));
        }
    }
    declared
}

/// Each declaration of the bindings; a record counts where it asks for C's layout.
fn in_bindings(text: &str) -> BTreeSet<String> {
    let code: String = text.lines().filter(|line| !line.trim_start().starts_with("//")).collect();
    let mut declared = BTreeSet::new();
    for piece in code.split("#[repr(C)]").skip(1) {
        let (_, record) = piece.split_once("pub struct ").expect("a record");
        let (name, after) = record.split_once('{').expect("the fields");
        let (fields, _) = after.split_once('}').expect("the end of the fields");
        declared.insert(format!("{} {{ {} }}", name.trim(), list(fields, ',', from_rust)));
    }
    for piece in code.split("pub fn ").skip(1) {
        let (function, _) = piece.split_once(';').expect("the end of the function");
        let (name, after) = function.split_once('(').expect("the arguments");
        let (arguments, answer) = after.split_once(") -> ").expect("an answer");
        declared.insert(format!("{name}({}) -> {answer}", list(arguments, ',', from_rust)));
    }
    declared
}

/// The fields or the arguments.
fn list(parts: &str, between: char, typed: fn(&str) -> String) -> String {
    parts.split(between).map(str::trim).filter(|part| !part.is_empty()).map(typed).collect::<Vec<_>>().join(", ")
}

/// `const uint64_t *words` as `words: *const u64`.
fn from_c(part: &str) -> String {
    let (of, name) = part.rsplit_once(' ').expect("a type and a name");
    match (name.strip_prefix('*'), of.strip_prefix("const ")) {
        (Some(name), Some(of)) => format!("{name}: *const {}", rust_type(of)),
        (Some(name), None) => format!("{name}: *mut {}", rust_type(of)),
        (None, _) => format!("{name}: {}", rust_type(of)),
    }
}

fn from_rust(part: &str) -> String {
    part.trim_start_matches("pub ").to_string()
}

fn rust_type(of: &str) -> &str {
    match of {
        "size_t" => "usize",
        "uint64_t" => "u64",
        of => of,
    }
}

fn differences(header: &str, bindings: &str) -> Vec<String> {
    let (header, bindings) = (in_header(header), in_bindings(bindings));
    let only_there = header.difference(&bindings).map(|line| format!("only in fbs.h: {line}"));
    let only_here = bindings.difference(&header).map(|line| format!("only in ffi.rs: {line}"));
    only_there.chain(only_here).collect()
}

#[test]
fn the_header_and_the_bindings_declare_the_same() {
    assert_eq!(in_header(HEADER).len(), HEADER.matches("typedef").count() + HEADER.matches(" fbs_").count());
    assert_eq!(differences(HEADER, BINDINGS), Vec::<String>::new());
}

#[test]
fn every_kind_of_difference_is_seen() {
    for (header, planted) in [
        ("fbs_grow(", "fbs_lengthen("),
        ("size_t from, size_t to", "size_t to, size_t from"),
        ("fbs_low_mask(size_t r)", "fbs_low_mask(uint64_t r)"),
        ("const uint64_t *blocks", "uint64_t *blocks"),
        ("const FbsPair *pairs", "const uint64_t *pairs"),
        ("FbsTold fbs_eq(", "FbsCounted fbs_eq("),
        ("FbsPart fbs_first_part(FbsSet set);", ""),
        ("bool found; size_t at; } FbsFound", "size_t at; bool found; } FbsFound"),
        ("size_t low; size_t high; } FbsPart", "size_t low; } FbsPart"),
    ] {
        assert!(!differences(&HEADER.replacen(header, planted, 1), BINDINGS).is_empty(), "{header} as {planted}");
    }
    assert!(!differences(HEADER, &BINDINGS.replacen("#[repr(C)]", "", 1)).is_empty(), "a record in Rust's own layout");
}
