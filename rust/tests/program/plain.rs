//! The plain form, which is that of the program `calls`.
use crate::random::Random;
use crate::running::{answers, ferigulan, read, repository, run};
use std::process::Command;

#[test]
fn plain_gives_the_lines_that_calls_must_give() {
    let ran = ferigulan(&["run", "--plain"], read("crates/calls/stdin"));
    assert!(ran.out == read("crates/calls/stdout"), "other lines than crates/calls/stdout");
    assert_eq!((ran.status, ran.err.as_str()), (0, ""));
}

const LONGEST: usize = 262_144;

/// Lines that are no calls, and what is printed for each.
fn malformed() -> Vec<(Vec<u8>, Vec<u8>)> {
    let long = |n: usize| vec![b'x'; n];
    let echo = |line: &[u8]| [b"? ", line, b"\n"].concat();
    let mut cases = vec![
        (b"".to_vec(), b"".to_vec()),
        (b"list 0\ncheck".to_vec(), b"ok\n0\n".to_vec()),
        (b"che\0ck\n\0\n".to_vec(), b"? che\0ck\n? \0\n".to_vec()),
        (b"check\r\ncheck ;\r\n\r\n".to_vec(), b"? check\r\n0\n? \r\n".to_vec()),
        (b"\xff\xfe\xc3\x28 1\n".to_vec(), b"? \xff\xfe\xc3\x28 1\n".to_vec()),
        (b" \n  ;\n;\ncheck \ncheck  ; c\n".to_vec(), b"?  \n? check \n0\n".to_vec()),
        (b"dump\npeek 0\nfields 18 4097\n".to_vec(), b"\n? peek 0\n? fields 18 4097\n".to_vec()),
    ];
    for n in [LONGEST - 1, LONGEST, LONGEST + 1, 2 * LONGEST, 3 * LONGEST + 5] {
        let printed = echo(&long(n.min(LONGEST)));
        cases.push((long(n), printed.clone()));
        cases.push(([&long(n), &b"\ncheck\n"[..]].concat(), [&printed, &b"0\n"[..]].concat()));
    }
    let comment = [b";".repeat(LONGEST), b"\n".to_vec()].concat();
    cases.push((comment.clone(), echo(&comment[..LONGEST])));
    cases.push((comment[1..].to_vec(), Vec::new()));
    cases
}

#[test]
fn plain_prints_what_is_no_call() {
    for (input, printed) in malformed() {
        let ran = ferigulan(&["run", "--plain"], &input);
        assert!(ran.out == printed, "{:?}", String::from_utf8_lossy(&input[..input.len().min(80)]));
        assert_eq!((ran.status, ran.err.as_str()), (0, ""));
    }
}

const NAMES: &str =
    "list fresh poke peek dump dumpall check open close kind get_bool int float tuple str struct fref ptr mem ary meet isa \
    dual join glb lub is_final make_ro make_init make_zero non_zero is_high is_high_or_constant is_constant is_fref \
    log_size min max value mask sz is_f32 float_value reading name fields find find_alias is_ary offset offsets ary_base \
    ary_scale meet_list meet_rep keep kept find_entry save load reload file fadd fpoke fcut get_int foo";

fn random_number(random: &mut Random) -> String {
    const HANDLES: [u64; 24] = [1, 3, 5, 6, 7, 8, 9, 12, 15, 18, 20, 22, 25, 40, 55, 58, 61, 64, 76, 85, 88, 94, 97, 100];
    const ODD: [&str; 13] =
        ["", "x", "-", "0x", "4096", "4097", "65536", "65537", "131073", "18446744073709551616", "+1", "0xfG", "-9223372036854775809"];
    match random.below(10) {
        0..=4 => random.of(&HANDLES).to_string(),
        5..=6 => random.below(130).to_string(),
        7 => random.word().to_string(),
        8 => format!("-{}", random.word() >> random.below(64)),
        _ => random.of(&ODD).to_string(),
    }
}

/// What stands behind find_entry before numbers by chance: entries of the fresh store, others of the same heads, the empty name and tuple,
/// and nothing.
const ENTRIES: [&str; 14] = [
    " 261 0 0",
    " 261 2 2",
    " 261 3 3",
    " 262 64 0",
    " 264 1",
    " 264 94",
    " 131591 8 7",
    " 131591 8 9",
    " 262144 1414480420",
    " 522 18 1",
    " 523 1 5",
    " 263",
    " 0",
    "",
];

fn random_line(random: &mut Random) -> String {
    let names: Vec<&str> = NAMES.split_whitespace().chain([""]).collect();
    let name = random.of(&names);
    let count = match name {
        "str" => 0,
        "ary" => 4,
        "dual" | "kind" | "glb" => 1,
        "meet" | "isa" | "join" | "ptr" | "meet_rep" => 2,
        "keep" | "kept" | "load" | "reload" | "file" | "fadd" | "save" => 0,
        "struct" => 5,
        "find_entry" => random.of(&[0, 0, 0, 1, 3]),
        _ => random.below(4),
    };
    let mut line = name.to_string();
    if name == "find_entry" {
        line += random.of(&ENTRIES);
    }
    (0..count).for_each(|_| line += &format!(" {}", random_number(random)));
    if name == "save" {
        line += random.of(&["", " 16", " 300", " 61 17", " 6162 700", " 61 0", " 6 20", " 61 62 30", "  16", " 65536", " 65537"]);
    }
    if ["str", "ary", "load", "fadd"].contains(&name) {
        line += random.of(&["", " ", " 61", " 6", " 6G", " 61 62", "  61"]);
    }
    line += random.of(&["", "", "", "", "", "", " ", ";", "  ; c", "\r", "\0"]);
    line
}

pub fn random_script(random: &mut Random) -> String {
    let first = format!("fresh {}\n", random.of(&[94, 110, 200, 400]));
    first + &(0..200).map(|_| random_line(random)).collect::<Vec<_>>().join("\n")
}

#[test]
fn plain_is_calls_on_random_scripts() {
    let calls = repository("target/bin/calls");
    if !calls.exists() {
        eprintln!("skipped: there is no {}, which 'sh run.sh' builds", calls.display());
        return;
    }
    let mut random = Random::new(13);
    let scripts = (0..150).map(|_| random_script(&mut random).into_bytes());
    for script in scripts.chain(malformed().into_iter().map(|(input, _)| input)) {
        let wanted = run(Command::new(&calls), &script);
        let ran = ferigulan(&["run", "--plain"], &script);
        assert!(ran.out == wanted.out, "not the same lines: {:?}", String::from_utf8_lossy(&script[..script.len().min(9000)]));
        assert_eq!((ran.status, ran.err.as_str()), (0, ""));
    }
}

/// Plain and opened, which a search leaves open; and with an entry of as many words as a line has room for.
#[test]
fn plain_looks_for_entries() {
    let lines =
        "find_entry 261 2 2\nfind_entry 261 3 3\nfind_entry 262144 1414480420\nfind_entry 0\nfind_entry\nint 3 3\nfind_entry 261 3 3\n";
    let answers = "28 6\nabsent 12\n3 2\nabsent 0\n? find_entry\n94\n94 13\n";
    let script = format!("find_entry 261 2 2\nfresh 97\n{lines}fresh\nopen\n{lines}poke 94 5\nfind_entry 261 2 2\n");
    let ran = ferigulan(&["run", "--plain"], script);
    assert_eq!(ran.text(), format!("-1\nok\n{answers}ok\nok\n{answers}ok\n-1\n"));
    let long = format!("fresh 94\nfind_entry 261{}\n", " 0".repeat(131_000));
    assert_eq!(ferigulan(&["run", "--plain"], long).text(), "ok\nabsent 12\n");
}

#[test]
fn long_lists_have_1048576_words() {
    let script = "list 1048577\nlist 1048576\nfresh\nopen\nint 3 4\npeek 0\noffsets 18 1048576\noffsets 18 1048577\nfresh 65537\n";
    let ran = ferigulan(&["run", "--plain", "--long"], script);
    let output = format!("1 : 0{}", " 7777".repeat(1_048_575));
    assert_eq!(ran.text(), format!("? list 1048577\nok\nok\nok\n94\n97\n{output}\n? offsets 18 1048577\nok\n"));
    assert_eq!(answers(&ferigulan(&["run"], script).text())[1..6], ["ok", "ok", "ok", "94 3..4", "97"]);
    let short = ferigulan(&["run", "--plain"], "list 65536\noffsets 18 4096\nlist 65537\nfields 18 4097\n");
    assert_eq!(short.text(), "ok\n-1\n? list 65537\n? fields 18 4097\n");
}
