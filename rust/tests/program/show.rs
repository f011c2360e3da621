//! `show`, and the entries that `dump` lists: on stores, and on words that are none.
use crate::random::Random;
use crate::running::{ferigulan, Ran};
use std::fs;

/// A store as `dumpall` prints it, with an entry of each kind.
fn store() -> Vec<u64> {
    let script =
        "fresh 140\nint 0 7\nstr 53\nstruct 97 97 94 1 0\nfref 97\nptr 99 1\ntuple 94 106\nmem 2 94\nfloat 0x3fe0000000000000\ndumpall\n";
    let ran = ferigulan(&["run", "--plain"], script);
    let text = ran.text();
    text.lines().last().expect("a line").split(' ').map(|word| word.parse().expect("a word")).collect()
}

fn numbers(words: &[u64]) -> String {
    words.iter().map(|word| format!("{word}\n")).collect()
}

fn bytes(words: &[u64]) -> Vec<u8> {
    words.iter().flat_map(|word| word.to_le_bytes()).collect()
}

fn show(words: &[u64]) -> Ran {
    ferigulan(&["show"], numbers(words))
}

#[test]
fn a_store_is_listed() {
    let text = show(&store()).text();
    let lines: Vec<&str> = text.lines().collect();
    assert_eq!(lines[0], "standard input: 118 words used, well formed as a list of 140 words");
    assert_eq!(lines[1], " handle  kind    depth    n  type                              words after the head");
    assert_eq!(lines[2], "      1  name        0    4  \"$TOP\"                            1347376164");
    assert_eq!(lines[4], "      5  Bot         1    0  Bot");
    let made = [
        "     94  Int         1    0  0..7                              0 7",
        "     97  name        0    1  \"S\"                               83",
        "     99  Struct      2    1  S {S: 0..7}                       97 97 94 2",
        "    104  Fref        1    0  fref S                            97",
        "    106  MemPtr      3    0  *S {S: 0..7}?                     99 1",
        "    109  Tuple       4    2  (0..7, *S {S: 0..7}?)             94 106",
        "    112  Mem         2    0  #2: 0..7                          2 94",
        "    115  Float       1    0  0.5                               64 4602678819172646912",
    ];
    assert_eq!(lines[lines.len() - made.len()..], made);
}

#[test]
fn words_are_read_as_numbers_and_as_bytes() {
    let wanted = show(&store());
    assert_eq!(wanted.status, 0);
    let one_line = numbers(&store()).replace('\n', " ");
    assert_eq!(ferigulan(&["show", "-"], one_line + "\r\n\n").out, wanted.out);
    assert_eq!(ferigulan(&["show", "--raw"], bytes(&store())).out, wanted.out);
    let file = std::env::temp_dir().join(format!("ferigulan-{}.bin", std::process::id()));
    fs::write(&file, bytes(&store())).expect("a file can be written");
    let name = file.to_str().expect("a plain name");
    assert_eq!(ferigulan(&["show", name], "").text().replace(name, "standard input").into_bytes(), wanted.out);
    fs::remove_file(&file).expect("it can be removed");
}

#[test]
fn what_is_no_list_of_words_is_told() {
    for (arguments, input, message) in [
        (&["show"][..], "94\n5 ok 7\n", "standard input:2: 'ok' is no word of a store: give what dump or dumpall prints"),
        (
            &["show"],
            "18446744073709551616",
            "standard input:1: '18446744073709551616' is no word of a store: give what dump or dumpall prints",
        ),
        (&["show", "--raw"], "123456789", "standard input: 9 bytes are no whole words of 8 bytes"),
    ] {
        let ran = ferigulan(arguments, input);
        assert_eq!((ran.status, ran.text().as_str(), ran.err), (2, "", format!("ferigulan: {message}\n")));
    }
}

/// Stores with a word poked, and what is said first. Handles: 94 Int, 97 name, 99 struct, 104 forward reference, 106 pointer, 109 tuple,
/// 112 Mem, 115 Float.
const POKED: &[(usize, u64, &str)] = &[
    (0, 93, "word 0: 93, not from 94 to the list's length, 140"),
    (0, 141, "word 0: 141, not from 94 to the list's length, 140"),
    (7, 260, "word 7: 260, not the fresh store's 259"),
    (0, 117, "word 117: 4602678819172646912, not 0, past the words used"),
    (139, 1, "word 139: 1, not 0, past the words used"),
    (94, 12, "word 94: kind 12 is none"),
    (94, 261 + 65_536, "word 94: n is 1, where 0 is right for Int"),
    (97, 256 * 65_536, "word 97: n is 256, over 255"),
    (109, 7 + 4 * 256 + 200 * 65_536, "word 109: entries do not fill the used words: Tuple goes past the last, 117"),
    (98, 83 + 256, "word 98: no zero fill behind the name's bytes"),
    (100, 94, "word 100: handle 94 starts an entry of kind 5 (Int), not a name"),
    (101, 98, "word 101: handle 98 starts no earlier entry"),
    (102, 97, "word 102: handle 97 starts an entry of kind 0 (name), not a type"),
    (103, 1 << 33, "word 103: alias 4294967296, over 4,294,967,295"),
    (105, 5, "word 105: handle 5 starts an entry of kind 1 (Bot), not a name"),
    (107, 94, "word 107: handle 94 starts an entry of kind 5 (Int), not a struct or forward reference"),
    (108, 2, "word 108: flag 2, not 0 or 1"),
    (110, 112, "word 110: handle 112 starts no earlier entry"),
    (109, 7 + 3 * 256 + 2 * 65_536, "word 109: depth 3 where 4 is right"),
    (113, 1 << 32, "word 113: alias 4294967296, over 4,294,967,295"),
    (114, u64::MAX, "word 114: handle 18446744073709551615 starts no earlier entry"),
    (116, 80, "word 116: float size 16, not 0, ±32, ±64"),
    (116, 0, "word 117: size -64, not 0, with bits not 0"),
];

#[test]
fn what_is_wrong_is_told_in_the_documents_words() {
    for (at, value, first) in POKED {
        let mut words = store();
        words[*at] = *value;
        let ran = show(&words);
        let text = ran.text();
        let verdict = text.lines().next().expect("a line");
        assert!(verdict.ends_with(&format!("not well formed as a list of 140 words: {first}")), "{verdict}");
        assert_eq!(ran.status, 1);
    }
    let deep = (0..32).fold(store(), |mut words, level| {
        let used = words[0] as usize;
        let inner = if level == 0 { 5 } else { used as u64 - 2 };
        words.resize(used, 0);
        words.extend([7 + (level + 2) * 256 + 65_536, inner]);
        words[0] += 2;
        words
    });
    assert!(show(&deep).text().contains("not well formed as a list of 182 words: word 180: depth 33 is over 32\n"));
    let short = show(&[3, 257, 258]).text();
    assert!(short
        .starts_with("standard input: 3 words used, not well formed as a list of 3 words: the list has 3 words, not 94 to 1,048,576\n"));
    assert!(show(&[]).text().starts_with("standard input: 0 words used, not well formed as a list of 0 words: the list has 0 words"));
}

#[test]
fn entries_are_listed_up_to_the_first_that_cannot_be_read() {
    let mut words = store();
    words[100] = 94;
    words[112] = 12;
    let text = show(&words).text();
    let listed = [
        "     99  Struct      2    1  ?                                 94 97 94 2",
        "         ! word 100: handle 94 starts an entry of kind 5 (Int), not a name",
        "    104  Fref        1    0  fref S                            97",
        "    106  MemPtr      3    0  ?                                 99 1",
        "    109  Tuple       4    2  ?                                 94 106",
        "         ! word 112: kind 12 is none; nothing is read from here on",
    ];
    let lines: Vec<&str> = text.lines().collect();
    assert_eq!(lines[lines.len() - listed.len()..], listed);
}

#[test]
fn dump_lists_the_fresh_entries_where_they_are_not_fresh() {
    let rows = |script: &str| ferigulan(&["run"], script).text().lines().filter(|line| line.starts_with("     ")).count();
    assert_eq!(rows("fresh 100\nint 5\ndump\n"), 1);
    assert_eq!(rows("fresh 100\nint 5\npoke 10 1\ndump\n"), 36);
}

/// A word as it may stand in a store, by accident or not.
fn random_word(random: &mut Random) -> u64 {
    match random.below(6) {
        0 => random.word(),
        1 => random.below(140) as u64,
        2 => (random.below(14) + 256 * random.below(40) + 65_536 * random.below(5)) as u64,
        3 => random.of(&[0, 1, 2, 64, 80, 1 << 32, 1 << 33, u64::MAX]),
        _ => random.below(12) as u64 + 256,
    }
}

/// Where something is wrong a reason is given, and only there.
fn reasons_agree(text: &str) {
    let verdict = text.lines().find(|line| line.contains("words used, ")).expect("a verdict");
    let reason = verdict.split_once(" words: ").map(|(_, reason)| reason);
    assert_eq!(verdict.contains("not well formed"), reason.is_some_and(|reason| !reason.is_empty()), "{text}");
    let is_marked = text.lines().any(|line| line.trim_start().starts_with("! "));
    assert!(verdict.contains("not well formed") || !is_marked, "{text}");
}

#[test]
fn random_words_are_shown() {
    let whole = store();
    let mut random = Random::new(5);
    for round in 0..2000 {
        let mut words = if round % 2 == 0 { whole.clone() } else { Vec::new() };
        let n = random.below(200);
        words.extend((words.len()..n).map(|_| random_word(&mut random)));
        for _ in 0..random.below(6) {
            if !words.is_empty() {
                let at = random.below(words.len());
                words[at] = random_word(&mut random);
            }
        }
        let ran = ferigulan(&["show", "--raw"], bytes(&words));
        assert!(ran.status < 2 && ran.err.is_empty(), "{words:?}: {}", ran.err);
        reasons_agree(&ran.text());
    }
}

/// Random pokes, each with a dump, in one run: the library's verdict, and the reasons beside it.
#[test]
fn random_pokes_are_dumped() {
    let mut random = Random::new(7);
    let whole = store();
    let mut script = format!("list {}\n", whole.len());
    whole.iter().enumerate().for_each(|(i, word)| script += &format!("poke {i} {word}\n"));
    for _ in 0..5000 {
        let at = random.of(&[
            0, 1, 50, 93, 94, 97, 98, 99, 100, 101, 102, 103, 104, 105, 106, 107, 108, 109, 110, 111, 112, 113, 114, 115, 116, 117, 118,
            139,
        ]);
        script += &format!("poke {at} {}\ncheck\ndump\npoke {at} {}\n", random_word(&mut random), whole[at]);
    }
    let ran = ferigulan(&["run"], script);
    assert_eq!((ran.status, ran.err.as_str()), (0, ""));
    let text = ran.text();
    let dumps: Vec<&str> = text.split("check ").skip(1).collect();
    for dump in &dumps {
        reasons_agree(dump.split("\npoke ").next().unwrap_or_default());
        assert_eq!(dump.contains("yes"), !dump.contains("not well formed"), "{dump}");
    }
    let right = dumps.iter().filter(|dump| dump.contains("yes")).count();
    assert!(dumps.len() == 5000 && right > 300 && right < 3000, "{right} of {} are well formed", dumps.len());
}
