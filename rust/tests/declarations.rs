//! The functions are declared three times, in the archive's source, in src/sys.rs and in include/ferigulan.h: here the three are compared,
//! name by name and argument by argument, and the names with the archive's symbols.
use std::collections::BTreeMap;
use std::fs;
use std::path::Path;
use std::process::Command;

/// What a function is lent and returns, each argument as the C type that it is passed as, in Rust's words.
#[derive(Clone, Debug, PartialEq)]
struct Signature {
    arguments: Vec<String>,
    returns: String,
}

type Functions = BTreeMap<String, Signature>;

fn read(path: &str) -> String {
    let path = Path::new(env!("CARGO_MANIFEST_DIR")).join(path);
    fs::read_to_string(&path).unwrap_or_else(|error| panic!("{}: {error}", path.display()))
}

/// The text between `start` and the next `end` behind it, and the text behind that.
fn between<'t>(text: &'t str, start: &str, end: &str) -> Option<(&'t str, &'t str)> {
    let (_, behind) = text.split_once(start)?;
    behind.split_once(end)
}

fn one_space(text: &str) -> String {
    text.split_whitespace().collect::<Vec<_>>().join(" ")
}

// ---- the archive's source: a slice is a pointer and a length there, a lent word a pointer

fn as_passed(argument: &str) -> Vec<String> {
    let (_, lent) = argument.split_once(':').unwrap_or_else(|| panic!("no type in '{argument}'"));
    let types: &[&str] = match one_space(lent).as_str() {
        "&[u64]" => &["*const u64", "usize"],
        "&mut [u64]" => &["*mut u64", "usize"],
        "&[u8]" => &["*const u8", "usize"],
        "&mut [u8]" => &["*mut u8", "usize"],
        "&mut u64" => &["*mut u64"],
        "u64" => &["u64"],
        other => panic!("'{other}' is no type that a function of the archive is lent"),
    };
    types.iter().map(|t| t.to_string()).collect()
}

fn of_the_archive(source: &str) -> Functions {
    let mut functions = Functions::new();
    let mut rest = source;
    while let Some((name, behind)) = between(rest, "#[unsafe(no_mangle)]\npub extern \"C\" fn ", "(") {
        let (arguments, behind) = behind.split_once(')').expect("the arguments end");
        let (returns, behind) = between(behind, "->", "\n").expect("a function returns something");
        let arguments = arguments.split(',').filter(|a| !a.trim().is_empty()).flat_map(as_passed).collect();
        functions.insert(name.to_string(), Signature { arguments, returns: one_space(returns) });
        rest = behind;
    }
    functions
}

// ---- src/sys.rs

fn of_the_crate(source: &str) -> Functions {
    let mut functions = Functions::new();
    let mut rest = source;
    while let Some((block, behind)) = between(rest, "\nextern \"C\" {\n", "\n}\n") {
        for line in block.lines().filter(|line| !line.trim().is_empty()) {
            let (name, behind) = between(line, "fn ", "(").unwrap_or_else(|| panic!("no function in '{line}'"));
            let (arguments, returns) = behind.split_once(')').expect("the arguments end");
            let arguments = arguments.split(',').map(|a| one_space(a.split_once(':').expect("a type").1)).collect();
            let returns = one_space(returns.trim_start_matches(" ->").trim_end_matches(';'));
            functions.insert(name.to_string(), Signature { arguments, returns });
        }
        rest = behind;
    }
    functions
}

// ---- include/ferigulan.h

/// Without comments and without the lines of the preprocessor.
fn code_of(header: &str) -> String {
    let mut code = String::new();
    let mut rest = header;
    while let Some((before, comment)) = rest.split_once("/*") {
        code.push_str(before);
        rest = comment.split_once("*/").expect("a comment ends").1;
    }
    code.push_str(rest);
    code.lines().filter(|line| !line.starts_with('#')).map(|line| format!("{line}\n")).collect()
}

fn in_rust(c: &str) -> String {
    let rust = match c {
        "const uint64_t *" => "*const u64",
        "uint64_t *" => "*mut u64",
        "const uint8_t *" => "*const u8",
        "uint8_t *" => "*mut u8",
        "uint64_t" => "u64",
        "uint32_t" => "u32",
        "size_t" => "usize",
        "bool" => "bool",
        other => panic!("'{other}' is no type that the header should have"),
    };
    rust.to_string()
}

/// A C argument without its name.
fn of_c(argument: &str) -> String {
    let argument = one_space(argument);
    let name = argument.rfind(|c: char| !c.is_alphanumeric() && c != '_').expect("a type and a name") + 1;
    in_rust(argument[..name].trim())
}

fn of_the_header(header: &str) -> Functions {
    let mut functions = Functions::new();
    for statement in code_of(header).split(';') {
        let Some((before, arguments)) = statement.split_once('(') else { continue };
        let declaration = before.lines().last().unwrap_or_default().trim();
        let Some((returns, name)) = declaration.rsplit_once(' ') else { continue };
        let arguments = arguments.trim_end_matches(')').split(',').map(of_c).collect();
        functions.insert(name.to_string(), Signature { arguments, returns: in_rust(returns) });
    }
    functions
}

// ---- comparing

/// One line for each function that is not the same in both.
fn differences(truth: &Functions, other: &Functions) -> Vec<String> {
    let missing = truth.keys().filter(|name| !other.contains_key(*name)).map(|name| format!("{name} is missing"));
    let extra = other.keys().filter(|name| !truth.contains_key(*name)).map(|name| format!("{name} is not in the archive"));
    let changed = truth.iter().filter_map(|(name, signature)| {
        let found = other.get(name).filter(|found| *found != signature)?;
        Some(format!("{name}: {found:?}, and in the archive {signature:?}"))
    });
    missing.chain(extra).chain(changed).collect()
}

const ARCHIVE: &str = "../crates/lattice_c/src/lib.rt";
const CRATE: &str = "src/sys.rs";
const HEADER: &str = "../include/ferigulan.h";

#[test]
fn the_archive_has_100_functions() {
    assert_eq!(of_the_archive(&read(ARCHIVE)).len(), 100);
}

#[test]
fn the_crate_declares_the_archives_functions() {
    assert_eq!(differences(&of_the_archive(&read(ARCHIVE)), &of_the_crate(&read(CRATE))), [""; 0]);
}

#[test]
fn the_header_declares_the_archives_functions() {
    assert_eq!(differences(&of_the_archive(&read(ARCHIVE)), &of_the_header(&read(HEADER))), [""; 0]);
}

#[test]
fn the_archive_defines_them_and_no_others() {
    let output = Command::new("nm").args(["-g", "--defined-only", env!("FERIGULAN_ARCHIVE")]).output().expect("nm, of binutils, runs");
    assert!(output.status.success(), "nm: {}", String::from_utf8_lossy(&output.stderr));
    let listing = String::from_utf8(output.stdout).expect("nm prints text");
    let mut symbols: Vec<&str> = listing.lines().filter_map(|line| line.split_once(" T ")).map(|(_, name)| name).collect();
    symbols.sort_unstable();
    assert_eq!(symbols, of_the_archive(&read(ARCHIVE)).into_keys().collect::<Vec<_>>());
}

// ---- a change in any of them is seen

/// The functions that differ once `from` is `to` in the text.
fn seen(path: &str, functions: fn(&str) -> Functions, from: &str, to: &str) -> usize {
    let text = read(path);
    assert!(text.contains(from), "{path} has no '{from}'");
    differences(&of_the_archive(&read(ARCHIVE)), &functions(&text.replacen(from, to, 1))).len()
}

#[test]
fn a_changed_argument_is_seen() {
    assert_eq!(seen(CRATE, of_the_crate, "fn ferigulan_isa(words: *const u64", "fn ferigulan_isa(words: *mut u64"), 1);
    assert_eq!(seen(CRATE, of_the_crate, "name: *const u8, k: usize", "name: *const u64, k: usize"), 1);
    assert_eq!(seen(CRATE, of_the_crate, "a: u64, which: *mut u64, answer", "a: u64, answer"), 1);
    assert_eq!(seen(HEADER, of_the_header, "ferigulan_isa(const uint64_t *words", "ferigulan_isa(uint64_t *words"), 1);
    assert_eq!(seen(HEADER, of_the_header, "uint64_t len_alias, ", ""), 1);
    assert_eq!(seen(HEADER, of_the_header, "uint8_t *file, size_t m,", "const uint8_t *file, size_t m,"), 1);
    assert_eq!(seen(HEADER, of_the_header, "bool ferigulan_well_formed", "uint32_t ferigulan_well_formed"), 1);
}

#[test]
fn a_missing_function_is_seen() {
    assert_eq!(seen(CRATE, of_the_crate, "fn ferigulan_meet(", "fn ferigulan_merge("), 2);
    assert_eq!(seen(HEADER, of_the_header, "uint32_t ferigulan_opened_meet(", "uint32_t ferigulan_opened_merge("), 2);
    assert_eq!(seen(ARCHIVE, of_the_archive, "#[unsafe(no_mangle)]\npub extern \"C\" fn ferigulan_dual(", "pub fn dual("), 1);
}
