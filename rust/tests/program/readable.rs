//! The readable form.
use crate::plain::random_script;
use crate::random::Random;
use crate::running::{answers, expect, ferigulan, read, scripts};
use std::time::{Duration, Instant};

#[test]
fn types_without_parts_are_readable() {
    expect(&[
        ("fresh 400", "ok"),
        ("meet 5 5", "5 Bot"),
        ("meet 6 6", "6 Top"),
        ("meet 7 7", "7 Ctrl"),
        ("meet 8 8", "8 XCtrl"),
        ("int 8", "94 8"),
        ("int -5", "97 -5"),
        ("int 0 7", "100 0..7"),
        ("int -4 -1", "103 -4..-1"),
        ("int 8 3", "106 ~8..3"),
        ("int -1 -4", "109 ~-1..-4"),
        ("int 0 1", "15 bool"),
        ("int 1 0", "112 ~bool"),
        ("int -128 127", "31 i8"),
        ("int -32768 32767", "34 i16"),
        ("int -2147483648 2147483647", "37 i32"),
        ("int 0 255", "40 u8"),
        ("int 0 65535", "43 u16"),
        ("int 0 4294967295", "46 u32"),
        ("dual 46", "115 ~u32"),
        ("dual 25", "22 ~int"),
        ("dual 22", "25 int"),
        ("float 0x3fe0000000000000", "118 0.5"),
        ("float 0", "55 0.0"),
        ("float 0x8000000000000000", "121 -0.0"),
        ("float 0x4020000000000000", "124 8.0"),
        ("float 0x7ff8000000000000", "127 NaN"),
        ("float 0x7ff8000000000001", "130 NaN(0x7ff8000000000001)"),
        ("float 0xfff0000000000000", "133 -inf"),
        ("float 0x7fefffffffffffff", "136 1.7976931348623157e308"),
        ("float 64 0", "61 f64"),
        ("float 32 0", "58 f32"),
        ("float -32 0", "52 ~f32"),
        ("float -64 0", "49 ~f64"),
    ]);
}

#[test]
fn types_with_parts_are_readable() {
    expect(&[
        ("fresh 400", "ok"),
        ("tuple", "94 ()"),
        ("tuple 7", "95 (Ctrl)"),
        ("tuple 7 8", "70 (Ctrl, XCtrl)"),
        ("str 53", "97 \"S\""),
        ("str 66", "99 \"f\""),
        ("str 67", "101 \"g\""),
        ("int 0 7", "103 0..7"),
        ("struct 97", "106 S {}"),
        ("struct 97 99 103 1 0 101 61 2 1", "108 S {f: 0..7, g: final f64}"),
        ("ptr 108 1", "116 *S {f: 0..7, g: final f64}?"),
        ("ptr 108 0", "119 *S {f: 0..7, g: final f64}"),
        ("fref 97", "122 fref S"),
        ("ptr 122 1", "124 *fref S?"),
        ("struct 1", "18 $TOP"),
        ("struct 3", "20 $BOT"),
        ("dual 82", "85 *$TOP"),
        ("dual 85", "82 *$BOT?"),
        ("dual 91", "88 null"),
        ("dual 88", "91 *void"),
        ("mem 2 103", "127 #2: 0..7"),
        ("dual 79", "76 #4294967295: Top"),
        ("tuple 127 116", "130 (#2: 0..7, *S {f: 0..7, g: final f64}?)"),
        ("ary 25 5 43 6 753136", "139 [u16] {#: final int, []: u16}"),
        ("name 139", "133 \"[u16]\""),
    ]);
}

#[test]
fn odd_names_are_escaped() {
    expect(&[
        ("fresh 600", "ok"),
        ("str", "94 \"\""),
        ("str ff00", "95 \"\\xff\\x00\""),
        ("str 225c", "97 \"\\\"\\\\\""),
        ("str c3a5", "99 \"å\""),
        ("str e280ae", "101 \"\\u{202e}\""),
        ("str 1b5b", "103 \"\\x1b[\""),
        ("struct 94 95 9 0 0 99 9 0 0", "105 \"\" {\"\\xff\\x00\": 0, å: 0}"),
        ("fref 101", "113 fref \"\\u{202e}\""),
        ("str 612062", "115 \"a b\""),
        ("fref 115", "117 fref \"a b\""),
    ]);
    let long = ferigulan(&["run"], format!("fresh 200\nstr {}\n", "61".repeat(255))).text();
    assert_eq!(answers(&long)[1], format!("94 \"{}..\"", "a".repeat(196)));
}

#[test]
fn answers_that_are_no_handles_are_readable() {
    expect(&[
        ("fresh 107", "ok"),
        ("kind 25", "5 Int"),
        ("kind 88", "10 MemPtr"),
        ("isa 5 6", "0 no"),
        ("isa 6 5", "1 yes"),
        ("int 16 18", "94 16..18"),
        ("mask 94", "=19 0x13"),
        ("min 94", "=16"),
        ("value 94", "absent"),
        ("value 9", "=0"),
        ("log_size 40", "0 1 byte"),
        ("log_size 25", "3 8 bytes"),
        ("sz 49", "=-64"),
        ("reading 58", "size =32 f32"),
        ("float 0x3fe0000000000000", "97 0.5"),
        ("reading 97", "constant 4602678819172646912 0.5"),
        ("float_value 97", "4602678819172646912 0.5"),
        ("offsets 18 2", "1 : 0 7777"),
        ("fields 18 0", "0 :"),
        ("peek 0", "100"),
        ("tuple 2", "-2 handle starts no entry"),
        ("mask 5", "-3 entry of a kind the call does not take"),
        ("log_size 94", "-9 no log size"),
        ("offset 18 1", "-8 offset index above the field count"),
        ("offsets 18 0", "-11 output shorter than the answer"),
        ("tuple 5 5 5 5 5 5 5", "-12 the entries to append do not fit"),
        ("poke 0 93", "ok"),
        ("check", "0 no"),
        ("int 5", "-1 store length out of limits, or not well formed"),
        ("open", "-1 store length out of limits, or not well formed"),
    ]);
}

#[test]
fn lists_are_merged_and_lists_are_remembered() {
    let lines = [
        ("fresh 97", "ok"),
        ("kept", "0 no"),
        ("keep", "ok"),
        ("meet_list", "6 Top"),
        ("meet_rep 0 9", "6 Top"),
        ("meet_list 7 8", "7 Ctrl"),
        ("meet_rep 4096 15", "15 bool"),
        ("meet_rep 4097 2", "-13 list over 4,096 handles"),
        ("meet_rep 4096 2", "-2 handle starts no entry"),
        ("meet_list 9 1", "-3 entry of a kind the call does not take"),
        ("meet_list 28 12 9", "-12 the entries to append do not fit"),
        ("kept", "1 yes"),
        ("meet_list 9 12 28", "94 0..2"),
        ("kept", "0 no"),
    ];
    expect(&lines);
    let opened: Vec<_> = lines[..1].iter().chain(&[("open", "ok")]).chain(&lines[1..]).copied().collect();
    expect(&opened);
    expect(&[
        ("kept", "1 yes"),
        ("list 2", "ok"),
        ("kept", "0 no"),
        ("keep", "ok"),
        ("list 3", "ok"),
        ("kept", "0 no"),
        ("list 2", "ok"),
        ("kept", "1 yes"),
    ]);
}

#[test]
fn entries_are_looked_for() {
    expect(&[
        ("find_entry 261 0 0", "-1 store length out of limits, or not well formed"),
        ("fresh 200", "ok"),
        ("find_entry 261 0 0", "9 1 0, with 1 entry not passed over"),
        ("find_entry 261 2 2", "28 6 2, with 6 entries not passed over"),
        ("find_entry 261 3 3", "absent 12 12 entries not passed over"),
        ("find_entry 264 3", "20 2 $BOT, with 2 entries not passed over"),
        ("find_entry 131591 8 7", "73 4 (XCtrl, Ctrl), with 4 entries not passed over"),
        ("find_entry 262144 1414480420", "3 2 \"$BOT\", with 2 entries not passed over"),
        ("find_entry 522 18 1", "88 3 null, with 3 entries not passed over"),
        ("find_entry 0", "absent 0 0 entries not passed over"),
        ("open", "ok"),
        ("int 3 3", "94 3"),
        ("find_entry 261 3 3", "94 13 3, with 13 entries not passed over"),
        ("int 3 3", "94 3"),
        ("poke 0 2", "ok"),
        ("find_entry 261 3 3", "-1 store length out of limits, or not well formed"),
    ]);
}

#[test]
fn each_line_of_a_script_is_a_line_of_the_output() {
    for script in scripts() {
        let plain = ferigulan(&["run", "--plain", "--long", &script], "").out;
        let plain = String::from_utf8_lossy(&plain).into_owned();
        let mut plain = plain.lines();
        let readable = ferigulan(&["run", &script], "").text();
        // the entries that dump lists are indented
        let mut readable = readable.lines().filter(|line| !line.starts_with("    ") && !line.starts_with(" handle  kind "));
        for line in String::from_utf8_lossy(&read(&script)).lines() {
            let shown = readable.next().unwrap_or_else(|| panic!("{script}: nothing is shown for {line}"));
            let call = line.split(';').next().unwrap_or("").trim_end();
            if call.is_empty() {
                assert_eq!(shown, line);
                continue;
            }
            let answer = plain.next().unwrap_or_else(|| panic!("{script}: no answer to {line}"));
            let answer = if answer.starts_with('?') { "?" } else { answer };
            assert!(call == "dump" || shown.contains(&format!(" => {answer}")), "{script}: {shown} has not the answer {answer}");
            assert!(call.len() > 120 || shown.starts_with(call), "{script}: {shown} is not for {line}");
        }
        assert_eq!((readable.next(), plain.next()), (None, None), "{script}: more lines than the script has");
    }
}

#[test]
fn random_scripts_are_readable() {
    let mut random = Random::new(11);
    for _ in 0..100 {
        let script = random_script(&mut random);
        let ran = ferigulan(&["run"], &script);
        let malformed = answers(&ran.text()).iter().filter(|answer| answer.starts_with('?')).count();
        assert_eq!(ran.status, i32::from(malformed > 0), "{script}");
        assert!(ran.err.lines().all(|line| line.starts_with("standard input:")), "{}", ran.err);
        assert_eq!(ran.err.lines().count(), malformed, "{}", ran.err);
    }
}

#[test]
fn shared_parts_do_not_explode() {
    let begun = Instant::now();
    let towers = ferigulan(&["run", "tests/20-towers.txt"], "").text();
    assert!(begun.elapsed() < Duration::from_secs(20), "{:?} for the towers", begun.elapsed());
    assert!(towers.contains("tuple 184 184                => 187    (((@178, @178), (@178, @178)), ((@178, @178), (@178, @178)))"));
    let longest = towers.lines().map(|line| line.split("; =>").next().unwrap_or("").trim_end().chars().count()).max();
    assert!(longest <= Some(122 + 14 + 202), "a line has {longest:?} characters");
    let wide = format!("fresh 2000\nint 0 7\ntuple{}\nmem 1 97\n", " 94".repeat(255));
    let wide = ferigulan(&["run"], wide).text();
    assert_eq!(answers(&wide)[2], format!("97 ({}..", "0..7, ".repeat(33)));
    assert_eq!(answers(&wide)[3], "353 #1: @97");
}

#[test]
fn an_opened_store_answers_the_same() {
    let script = String::from_utf8(read("examples/told.txt")).expect("plain text");
    let opened = script.replacen("fresh 300\n", "fresh 300\nopen\n", 1);
    assert_ne!(script, opened);
    let rows = |script: &str| {
        ferigulan(&["run"], script).text().lines().filter(|line| !line.starts_with("open")).map(str::to_string).collect::<Vec<_>>()
    };
    assert_eq!(rows(&script), rows(&opened));
    expect(&[
        ("fresh 200", "ok"),
        ("open", "ok"),
        ("int 0 7", "94 0..7"),
        ("open", "ok"),
        ("int 0 7", "94 0..7"),
        ("poke 95 3", "ok"),
        ("meet 94 94", "94 3..7"),
        ("open", "ok"),
        ("close", "ok"),
        ("poke 94 12", "ok"),
        ("open", "-1 store length out of limits, or not well formed"),
        ("int 5", "-1 store length out of limits, or not well formed"),
        ("fresh", "ok"),
        ("int 5", "94 5"),
    ]);
}

/// The output of which the README shows some lines.
const MERGE: &str = "\
; A counter in a ride's program, where two paths come together: on one of them it is 0..7, on the other it has just become 8.
fresh 142                    => ok                                      ; a fresh store in a list of 142 words
int 0 7                      => 94     0..7                             ; the counter on one path
int 8 8                      => 97     8                                ; the counter on the other
meet 94 97                   => 100    0..8                             ; where the paths come together it may be either
meet 97 94                   => 100    0..8                             ; the other order of visits: the same handle
isa 94 100                   => 1      yes                              ; so 0..7 isa 0..8

; The counter as a field of a struct, behind a pointer, which on one of the paths may be nil.
str 52696465                 => 103    \"Ride\"                           ; the name \"Ride\"
str 726f756e64               => 105    \"round\"                          ; the name \"round\"
struct 103 105 94 1 0        => 107    Ride {round: 0..7}               ; one field: its name, type, alias 1, not final
struct 103 105 97 1 0        => 112    Ride {round: 8}
ptr 107 0                    => 117    *Ride {round: 0..7}
ptr 112 1                    => 120    *Ride {round: 8}?
meet 117 120                 => 128    *Ride {round: 0..8}?             ; the structs merge, and so does nil
meet 120 117                 => 128    *Ride {round: 0..8}?

; Calls that cannot be made are turned back with a number, and no word changes.
ptr 94 0                     => -3     entry of a kind the call does not take  ; 94 is an Int, not a struct
tuple 95                     => -2     handle starts no entry           ; 95 is inside the entry at 94
peek 0                       => 131                                     ; how many of the 142 words are used
tuple 5 5 5 5 5 5 5 5 5 5 5  => -12    the entries to append do not fit  ; twelve words do not fit
peek 0                       => 131
check                        => 1      yes                              ; the store is as it was, and well formed
dump                         => 131    words used, well formed as a list of 142 words  ; the entries that were made
 handle  kind    depth    n  type                              words after the head
     94  Int         1    0  0..7                              0 7
     97  Int         1    0  8                                 8 8
    100  Int         1    0  0..8                              0 8
    103  name        0    4  \"Ride\"                            1701079378
    105  name        0    5  \"round\"                           431349919602
    107  Struct      2    1  Ride {round: 0..7}                103 105 94 2
    112  Struct      2    1  Ride {round: 8}                   103 105 97 2
    117  MemPtr      3    0  *Ride {round: 0..7}               107 0
    120  MemPtr      3    0  *Ride {round: 8}?                 112 1
    123  Struct      2    1  Ride {round: 0..8}                103 105 100 2
    128  MemPtr      3    0  *Ride {round: 0..8}?              123 1
";

#[test]
fn the_example_reads_well() {
    let ran = ferigulan(&["run", "examples/merge.txt"], "");
    assert_eq!(ran.text(), MERGE);
    assert_eq!((ran.status, ran.err.as_str()), (0, ""));
}

#[test]
fn files_are_saved_and_loaded() {
    expect(&[
        ("fresh 100", "ok"),
        ("int 3", "94 3"),
        ("save 6162 43", "42 : 61620501000000000000030000000000000003000000000000000200000000000000030000000000000077"),
        ("file", "616205010000000000000300000000000000030000000000000002000000000000000300000000000000"),
        ("save 39", "-11 output shorter than the answer"),
        ("list 200 7", "ok"),
        ("reload", "2 the label \"ab\"; 97 words used"),
        ("int 3", "94 3"),
        ("open", "ok"),
        ("save 16", "-11 output shorter than the answer"),
        ("reload", "2 the label \"ab\"; 97 words used"),
        ("int 4", "97 4"),
        ("fpoke 0 255", "ok"),
        ("reload", "2 the label \"\\xffb\"; 97 words used"),
        ("fcut 41", "ok"),
        ("reload", "-14 trailer missing or not fitting the length"),
        ("fadd 00", "ok"),
        ("reload", "2 the label \"\\xffb\"; 97 words used"),
        ("fpoke 42 0", "?"),
        ("fpoke 0 256", "?"),
        ("fpoke 10 1", "ok"),
        ("reload", "2 the label \"\\xffb\"; 97 words used"),
        ("max 94", "=3"),
        ("min 94", "=1"),
        ("load 00000000000000000000000000000000", "0 the label \"\"; 94 words used"),
        ("load", "-14 trailer missing or not fitting the length"),
        ("list 93", "ok"),
        ("load", "-1 store length out of limits, or not well formed"),
    ]);
}
