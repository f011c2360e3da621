//! The program `catalogue`, as its user runs it: on good files, on damaged ones, and on what is no file of this kind at all.
use std::fs;
use std::path::PathBuf;
use std::process::{Command, Stdio};
use std::sync::atomic::{AtomicUsize, Ordering};

use ferigulan::{calls, file_length};

#[allow(dead_code)]
#[path = "program/running.rs"]
mod running;
use running::{ferigulan, repository, run, Ran};

mod common;
use common::files::{file, ints, trailed};
use common::play::Play;
use common::random::Random;

const PROGRAM: &str = env!("CARGO_BIN_EXE_catalogue");

fn catalogue(arguments: &[&str], input: &[u8]) -> Ran {
    let mut command = Command::new(PROGRAM);
    command.args(arguments).current_dir(repository(""));
    run(command, input)
}

/// A file on the disk, as long as the test runs.
struct Kept(PathBuf);

/// How many files there were, so that each test has its own.
static FILES: AtomicUsize = AtomicUsize::new(0);

impl Kept {
    fn new(bytes: &[u8]) -> Kept {
        let name = format!("catalogue-{}-{}", std::process::id(), FILES.fetch_add(1, Ordering::Relaxed));
        let path = std::env::temp_dir().join(name);
        fs::write(&path, bytes).expect("a file can be written");
        Kept(path)
    }

    fn name(&self) -> &str {
        self.0.to_str().expect("a plain name")
    }
}

impl Drop for Kept {
    fn drop(&mut self) {
        let _ = fs::remove_file(&self.0);
    }
}

/// An entry of each kind that a file can hold. Handles: 94 Int, 97 name, 99 struct, 104 forward reference, 106 pointer, 109 tuple, 112 Mem,
/// 115 Float.
const WORDS: [u64; 24] = [
    261,
    0,
    7,
    65_536,
    83,
    8 + 512 + 65_536,
    97,
    97,
    94,
    2,
    265,
    97,
    10 + 768,
    99,
    1,
    7 + 1_024 + 131_072,
    94,
    106,
    11 + 512,
    2,
    94,
    262,
    64,
    4_602_678_819_172_646_912,
];

// ---- show

#[test]
fn a_catalogue_is_shown() {
    let ran = catalogue(&["show", "-"], &file(b"lift", &WORDS));
    let lines = [
        "standard input: 212 bytes",
        "label: \"lift\", 4 bytes",
        "24 words, 8 entries: 1 name, 1 Int, 1 Float, 1 Tuple, 1 Struct, 1 Fref, 1 MemPtr, 1 Mem",
        " handle  kind    depth    n  type                              words after the head",
        "     94  Int         1    0  0..7                              0 7",
        "     97  name        0    1  \"S\"                               83",
        "     99  Struct      2    1  S {S: 0..7}                       97 97 94 2",
        "    104  Fref        1    0  fref S                            97",
        "    106  MemPtr      3    0  *S {S: 0..7}?                     99 1",
        "    109  Tuple       4    2  (0..7, *S {S: 0..7}?)             94 106",
        "    112  Mem         2    0  #2: 0..7                          2 94",
        "    115  Float       1    0  0.5                               64 4602678819172646912",
    ];
    assert_eq!(ran.text().lines().collect::<Vec<_>>(), lines);
    assert_eq!((ran.status, ran.err.as_str()), (0, ""));
    let kept = Kept::new(&file(b"lift", &WORDS));
    let named = catalogue(&["show", "--", kept.name()], b"").text();
    assert_eq!(named.replace(kept.name(), "standard input"), ran.text());
}

#[test]
fn labels_are_text_or_hex() {
    for (label, shown) in [
        (&b""[..], "none"),
        (b"a", "\"a\", 1 byte"),
        ("Fähre 3".as_bytes(), "\"Fähre 3\", 8 bytes"),
        (b"say \"a\\b\"", "\"say \\\"a\\\\b\\\"\", 9 bytes"),
        (b"none", "\"none\", 4 bytes"),
        (b"a\nb", "hex 610a62, 3 bytes"),
        (b"\xff\x00", "hex ff00, 2 bytes"),
        // a character that turns the text around
        ("\u{202e}a".as_bytes(), "hex e280ae61, 4 bytes"),
        (b"\x1b[2J", "hex 1b5b324a, 4 bytes"),
    ] {
        let text = catalogue(&["show", "-"], &file(label, &[])).text();
        assert_eq!(text.lines().nth(1), Some(format!("label: {shown}").as_str()));
        assert_eq!(text.lines().nth(2), Some("0 words, 0 entries"));
    }
    let longest = catalogue(&["show", "-"], &file(&[b'a'; 255], &[])).text();
    assert!(longest.contains(&format!("label: \"{}\", 255 bytes\n", "a".repeat(255))));
}

// ---- check

/// From one program to the other.
#[test]
fn what_a_script_saves_is_good() {
    let told = ferigulan(&["run", "--plain"], "fresh 200\nint 0 7\nsave 6c696674 44\n").text();
    let hex = told.lines().last().and_then(|line| line.strip_prefix("44 : ")).expect("a file");
    let bytes: Vec<u8> = (0..44).map(|i| u8::from_str_radix(&hex[2 * i..2 * i + 2], 16).expect("a byte")).collect();
    assert_eq!(check(&bytes), ["good: 44 bytes, label \"lift\", 4 bytes; 3 words, 1 entry: 1 Int"]);
}

#[test]
fn a_good_file() {
    let ran = catalogue(&["check", "-"], &file(b"lift", &WORDS[..5]));
    assert_eq!(ran.text(), "standard input: good: 60 bytes, label \"lift\", 4 bytes; 5 words, 2 entries: 1 name, 1 Int\n");
    assert_eq!((ran.status, ran.err.as_str()), (0, ""));
}

#[test]
fn the_golden_catalogue() {
    let text = catalogue(&["check", "tests/golden.catalogue"], b"").text();
    assert!(text.starts_with("tests/golden.catalogue: good: ") && text.contains(" bytes, label \"golden\", 6 bytes; "), "{text}");
    let shown = catalogue(&["show", "tests/golden.catalogue"], b"").text();
    let entries = |line: &str| line.split(", ").nth(1).and_then(|words| words.split(' ').next()).and_then(|n| n.parse().ok());
    assert_eq!(shown.lines().nth(2).and_then(entries), Some(shown.lines().count() - 4), "{shown}");
}

const CONDITION_14: &str = "bad, 14: trailer missing or not fitting the length";
const CONDITION_15: &str = "bad, 15: words that behind the fresh ones form no store of any allowed length, or one with two equal entries";

/// What `check` says of bytes, in its lines.
fn check(bytes: &[u8]) -> Vec<String> {
    let ran = catalogue(&["check", "-"], bytes);
    let text = ran.text();
    let bad = text.starts_with("standard input: bad");
    assert!(bad || text.starts_with("standard input: good: "), "{text}");
    assert_eq!((ran.status, ran.err.as_str()), (i32::from(bad), ""), "{text}");
    assert!(!text.contains("does not agree"), "{text}");
    text.lines().map(|line| line.trim_start().trim_start_matches("standard input: ").to_string()).collect()
}

#[test]
fn a_trailer_that_does_not_fit() {
    for (bytes, reason) in [
        (vec![], "the trailer is missing: it has 16 bytes, and the file 0"),
        (vec![0; 15], "the trailer is missing: it has 16 bytes, and the file 15"),
        (
            trailed(b"ab", &[0], 3, 1),
            "the trailer, from byte 10 on, says that the words start at byte 3 and are 1: that makes 3 + 8 x 1 + 16 = 27 bytes, and the file has 26",
        ),
        (
            trailed(b"", &[], 0, 1 << 61),
            "the trailer, from byte 0 on, says that the words start at byte 0 and are 2305843009213693952: \
             that makes 0 + 8 x 2305843009213693952 + 16 = 18446744073709551632 bytes, and the file has 16",
        ),
    ] {
        assert_eq!(check(&bytes), [CONDITION_14, reason]);
    }
}

/// Files with a word changed: the word, its value, the entry that is named, and why.
const CHANGED: &[(usize, u64, &str, &str)] = &[
    (94, 12, "handle 94, byte 2 of the file", "its head: kind 12 is none"),
    (94, 261 + 65_536, "handle 94, byte 2 of the file, Int", "its head: n is 1, where 0 is right for Int"),
    (97, 256 * 65_536, "handle 97, byte 26 of the file", "its head: n is 256, over 255"),
    (
        109,
        7 + 1_024 + 200 * 65_536,
        "handle 109, byte 122 of the file",
        "its head: entries do not fill the used words: Tuple goes past the last, 117",
    ),
    (98, 83 + 256, "handle 97, byte 26 of the file, name", "its word 98, byte 34 of the file: no zero fill behind the name's bytes"),
    (
        100,
        94,
        "handle 99, byte 42 of the file, Struct",
        "its word 100, byte 50 of the file: handle 94 starts an entry of kind 5 (Int), not a name",
    ),
    (101, 98, "handle 99, byte 42 of the file, Struct", "its word 101, byte 58 of the file: handle 98 starts no earlier entry"),
    (103, 1 << 33, "handle 99, byte 42 of the file, Struct", "its word 103, byte 74 of the file: alias 4294967296, over 4,294,967,295"),
    (
        107,
        94,
        "handle 106, byte 98 of the file, MemPtr",
        "its word 107, byte 106 of the file: handle 94 starts an entry of kind 5 (Int), not a struct or forward reference",
    ),
    (108, 2, "handle 106, byte 98 of the file, MemPtr", "its word 108, byte 114 of the file: flag 2, not 0 or 1"),
    (110, 109, "handle 109, byte 122 of the file, Tuple", "its word 110, byte 130 of the file: handle 109 starts no earlier entry"),
    (109, 7 + 768 + 131_072, "handle 109, byte 122 of the file, Tuple", "its head: depth 3 where 4 is right"),
    (116, 80, "handle 115, byte 170 of the file, Float", "its word 116, byte 178 of the file: float size 16, not 0, ±32, ±64"),
    (116, 0, "handle 115, byte 170 of the file, Float", "its word 117, byte 186 of the file: size -64, not 0, with bits not 0"),
    (96, 0, "handle 94, byte 2 of the file, Int", "it is equal to the entry at handle 9 of the fresh ones"),
];

#[test]
fn the_first_entry_that_is_wrong_is_named() {
    let named = |entry: &str| format!("the first entry that is wrong is that at {entry}");
    for (at, value, entry, why) in CHANGED {
        let mut words = WORDS;
        words[at - 94] = *value;
        assert_eq!(check(&file(b"ab", &words)), [CONDITION_15.to_string(), named(entry), why.to_string()]);
    }
    let twice = [&WORDS[..], &[65_536, 83]].concat();
    let equal = "it is equal to the entry at handle 97, byte 26 of the file";
    assert_eq!(check(&file(b"ab", &twice)), [CONDITION_15, &named("handle 118, byte 194 of the file, name"), equal]);
    let deep: Vec<u64> = (0..32).flat_map(|level| [7 + (level + 2) * 256 + 65_536, if level == 0 { 5 } else { 92 + 2 * level }]).collect();
    let why = "its head: depth 33 is over 32";
    assert_eq!(check(&file(b"", &deep)), [CONDITION_15, &named("handle 156, byte 496 of the file, Tuple"), why]);
    assert!(check(&file(b"", &deep[..62]))[0].starts_with("good: 512 bytes, label none; 62 words, 31 entries: 31 Tuples"));
}

#[test]
fn a_label_that_is_too_long() {
    let bytes = file(&[b'a'; 256], &WORDS);
    assert_eq!(check(&bytes), ["bad, 5: label over 255 bytes", "the label has 256 bytes, over 255"]);
    assert_eq!(check(&file(&[b'a'; 256], &[257]))[0], CONDITION_15);
}

#[test]
fn files_that_are_too_long() {
    let many = file(b"", &vec![0; 1_048_483]);
    assert_eq!(check(&many), [CONDITION_15, "1,048,483 words and the 94 fresh ones are more than a store has, 1,048,576"]);
    let far = vec![0; 20_000_000];
    assert_eq!(check(&far), ["bad: more than 16,776,254 bytes, and no catalogue has more than 8,388,127"]);
    let ran = catalogue(&["show", "-"], &far);
    let message = "standard input: no catalogue: more than 16,776,254 bytes, and no catalogue has more than 8,388,127";
    assert_eq!((ran.status, ran.text().as_str(), ran.err), (2, "", format!("catalogue: {message}\n")));
}

// ---- diff

fn diff(a: &[u8], b: &[u8]) -> (i32, Vec<String>) {
    let kept = Kept::new(a);
    let ran = catalogue(&["diff", kept.name(), "-"], b);
    assert_eq!(ran.err, "");
    (ran.status, ran.text().replace(kept.name(), "A").replace("standard input", "B").lines().map(str::to_string).collect())
}

#[test]
fn types_are_compared_and_not_handles() {
    let (status, same) = diff(&file(b"lift", &WORDS), &file(b"lift", &WORDS));
    assert_eq!((status, same.as_slice()), (0, &["label of both: \"lift\", 4 bytes".to_string(), "in both: 8 entries".to_string()][..]));
    // the name first, and then the Int and what is made of both
    let moved = [65_536, 83, 261, 0, 7, 8 + 512 + 65_536, 94, 94, 96, 2];
    let (status, lines) = diff(&file(b"x", &WORDS[..10]), &file(b"x", &moved));
    assert_eq!((status, lines[1].as_str()), (0, "in both: 3 entries, some of them at other handles"));
}

#[test]
fn what_one_holds_alone_is_listed() {
    let other = [65_536, 83, 261, 0, 7, 261, 5, 5, 8 + 512 + 65_536, 94, 94, 96, 2];
    let lines = [
        "label of A: \"lift\", 4 bytes",
        "label of B: none",
        "only in A: 5 entries",
        "    104  Fref    fref S",
        "    106  MemPtr  *S {S: 0..7}?",
        "    109  Tuple   (0..7, *S {S: 0..7}?)",
        "    112  Mem     #2: 0..7",
        "    115  Float   0.5",
        "only in B: 1 entry",
        "     99  Int     5",
        "in both: 3 entries, some of them at other handles",
    ];
    assert_eq!(diff(&file(b"lift", &WORDS), &file(b"", &other)), (1, lines.map(str::to_string).to_vec()));
    let (status, lines) = diff(&file(b"a", &WORDS), &file(b"b", &WORDS));
    assert_eq!((status, lines.len()), (1, 3));
    let (status, lines) = diff(&file(b"a", &[]), &file(b"a", &WORDS[..3]));
    assert_eq!((status, lines[1..3].join("; ")), (1, "only in B: 1 entry;      94  Int     0..7".to_string()));
}

/// A type that differs in a part far down is another type, and so is all that holds it.
#[test]
fn a_part_makes_the_difference() {
    let mut words = WORDS;
    words[2] = 8;
    let (status, lines) = diff(&file(b"", &WORDS), &file(b"", &words));
    assert_eq!((status, lines.last().map(String::as_str)), (1, Some("in both: 3 entries")));
    assert_eq!(lines.iter().filter(|line| line.contains("0..8")).count(), 5);
}

// ---- what is no catalogue, and no command

#[test]
fn trouble_gives_one_line_and_2() {
    let bad = Kept::new(&file(b"", &[257]));
    let reason = "the first entry that is wrong is that at handle 94, byte 0 of the file, Bot; it is equal to the entry at handle 5 of the fresh ones";
    let no_catalogue = format!("{}: no catalogue, 15: {reason}", bad.name());
    for (arguments, message) in [
        (&["foo"][..], "there is no command 'foo': see 'catalogue --help'"),
        (&["show"], "show takes one file, not 0: see 'catalogue --help'"),
        (&["check", "a", "b"], "check takes one file, not 2: see 'catalogue --help'"),
        (&["diff", "a"], "diff takes two files, not 1: see 'catalogue --help'"),
        (&["diff", "-", "-"], "diff takes standard input for one of the two alone"),
        (&["show", "--raw"], "show has no option '--raw': see 'catalogue --help'"),
        (&["--version", "x"], "nothing can follow here: 'x'"),
        (&["show", "no/such"], "no/such: cannot be read: No such file or directory (os error 2)"),
        (&["check", "no/such"], "no/such: cannot be read: No such file or directory (os error 2)"),
        (&["check", "examples"], "examples: cannot be read: Is a directory (os error 21)"),
        (&["diff", "examples", "-"], "examples: cannot be read: Is a directory (os error 21)"),
        (&["show", bad.name()], &no_catalogue),
        (&["diff", bad.name(), "-"], &no_catalogue),
        (&["show", "-"], "standard input: no catalogue, 14: the trailer is missing: it has 16 bytes, and the file 0"),
    ] {
        let ran = catalogue(arguments, b"");
        assert_eq!((ran.status, ran.text().as_str(), ran.err), (2, "", format!("catalogue: {message}\n")));
    }
}

#[test]
fn help_is_printed() {
    for arguments in [&[][..], &["--help"], &["-h"], &["help"], &["show", "--help"], &["diff", "--help"]] {
        let ran = catalogue(arguments, b"");
        assert_eq!((ran.status, ran.err.as_str()), (0, ""));
        assert!(ran.text().lines().count() > 10 && ran.text().lines().all(|line| line.chars().count() <= 80));
    }
    assert_eq!(catalogue(&["--version"], b"").text(), format!("catalogue {}\n", env!("CARGO_PKG_VERSION")));
}

/// As many words as there can be, and a reader that wants one line of them.
#[test]
fn a_reader_that_goes_away_ends_it_quietly() {
    let kept = Kept::new(&file(&[b'a'; 255], &ints(1_048_576)));
    for (command, file, status) in [("show", "", 0), ("check", "", 0), ("diff", "-", 2)] {
        let mut shell = Command::new("sh");
        shell.arg("-c").arg(format!("{{ '{PROGRAM}' {command} '{}' {file}; echo \"status $?\" >&2; }} | head -n 1", kept.name()));
        let ran = run(shell, b"");
        assert!(ran.err.ends_with(&format!("status {status}\n")), "{command}: {}", ran.err);
        assert_eq!(ran.text().lines().count(), usize::from(status == 0));
    }
    let (status, lines) = diff(&file(b"", &ints(400_000)), &file(b"", &[]));
    assert_eq!((status, lines.len()), (1, 3 + (400_000 - 94) / 3));
}

#[test]
fn an_output_that_cannot_be_written_is_told() {
    let kept = Kept::new(&file(b"lift", &WORDS));
    for arguments in [&["show", kept.name()][..], &["check", kept.name()], &["diff", kept.name(), kept.name()], &["--help"]] {
        let full = fs::OpenOptions::new().write(true).open("/dev/full").expect("Linux has /dev/full");
        let output = Command::new(PROGRAM).args(arguments).stdin(Stdio::null()).stdout(full).output().expect("it starts");
        assert_eq!(output.status.code(), Some(2));
        assert_eq!(output.stderr, b"catalogue: standard output: cannot be written: No space left on device (os error 28)\n");
    }
}

// ---- damage

/// Each byte of a file changed: the program and the library agree, and neither is upset.
#[test]
fn each_byte_changed() {
    let bytes = file(b"ab", &WORDS);
    for at in 0..bytes.len() {
        for change in [0xff, 1 << (at % 8)] {
            let mut damaged = bytes.clone();
            damaged[at] ^= change;
            let lines = check(&damaged);
            assert!(at >= 2 || lines[0].starts_with("good"), "a label may be anything: {lines:?}");
            assert!(at < bytes.len() - 16 || lines[0] == CONDITION_14, "{lines:?}");
        }
    }
}

/// A word as it may stand in a file, by accident or not.
fn random_word(random: &mut Random) -> u64 {
    match random.below(6) {
        0 => random.word(),
        1 => random.below(130) as u64,
        2 => (random.below(14) + 256 * random.below(40) + 65_536 * random.below(5)) as u64,
        3 => random.of(&[0, 1, 2, 64, 80, 1 << 32, 1 << 33, u64::MAX]),
        _ => random.below(12) as u64 + 256,
    }
}

#[test]
fn random_files() {
    let mut random = Random::new(7);
    for round in 0..300 {
        let mut words = if round % 3 == 0 { Vec::new() } else { WORDS.to_vec() };
        words.extend((0..random.below(6)).map(|_| random_word(&mut random)));
        if let Some(at) = random.below(40).checked_sub(10).filter(|at| *at < words.len()) {
            words[at] = random_word(&mut random);
        }
        check(&file(b"random", &words));
    }
}

/// What random calls have made is good, and shown whole.
#[test]
fn random_stores() {
    for seed in 0..20 {
        let (mut words, mut play) = (vec![0; 3_000], Play::new(seed));
        calls::fresh(&mut words).expect("a length that is allowed");
        for _ in 0..200 {
            let call = play.call();
            let told = call.on_words(&mut words, &mut call.output());
            play.learn(&call, told);
        }
        let mut bytes = vec![0; file_length(4, words[0] as usize)];
        calls::save(&words, b"play", &mut bytes).expect("room for it");
        assert!(check(&bytes)[0].starts_with("good"));
        let ran = catalogue(&["show", "-"], &bytes);
        assert_eq!((ran.status, ran.err.as_str()), (0, ""));
        let text = ran.text();
        let shown: usize = text.lines().skip(4).map(|line| line[..7].trim().parse::<usize>().expect("a handle")).max().unwrap_or(94);
        assert!(shown < words[0] as usize && !text.contains(" ? "), "{text}");
        assert_eq!(diff(&bytes, &bytes).0, 0);
    }
}
