//! Commands, messages and exit statuses.
use crate::running::{ferigulan, repository, run};
use std::process::{Command, Stdio};

#[test]
fn what_is_no_command_gives_one_line_and_2() {
    for (arguments, message) in [
        (&["foo"][..], "there is no command 'foo': see 'ferigulan --help'"),
        (&["run", "--foo"], "run has no option '--foo': see 'ferigulan help run'"),
        (&["show", "-x"], "show has no option '-x': see 'ferigulan help show'"),
        (&["show", "a", "b"], "show takes one file, and not 'b' too"),
        (&["help", "foo"], "there is help on run, show and script"),
        (&["--version", "x"], "nothing can follow here: 'x'"),
        (&["run", "no/such"], "no/such: cannot be read: No such file or directory (os error 2)"),
        (&["run", "examples"], "examples: cannot be read: Is a directory (os error 21)"),
        (&["show", "examples"], "examples: cannot be read: Is a directory (os error 21)"),
        (&["run", "--", "--plain"], "--plain: cannot be read: No such file or directory (os error 2)"),
    ] {
        let ran = ferigulan(arguments, "");
        assert_eq!((ran.status, ran.text().as_str(), ran.err), (2, "", format!("ferigulan: {message}\n")));
    }
}

#[test]
fn help_is_printed() {
    for arguments in
        [&[][..], &["--help"], &["-h"], &["help"], &["help", "run"], &["run", "--help"], &["help", "show"], &["help", "script"]]
    {
        let ran = ferigulan(arguments, "");
        assert_eq!((ran.status, ran.err.as_str()), (0, ""));
        assert!(ran.text().lines().count() > 10);
        let widest = ran.text().lines().map(|line| line.chars().count()).max();
        assert!(widest <= Some(80), "{arguments:?}: a line of {widest:?}");
    }
    assert_eq!(ferigulan(&["--version"], "").text(), format!("ferigulan {}\n", env!("CARGO_PKG_VERSION")));
}

/// A word of a usage: a place, another number, or the word itself.
fn argument(word: &str) -> &str {
    match word {
        "I" => "0",
        _ if word.chars().all(|c| c.is_ascii_uppercase()) => "5",
        _ => word,
    }
}

/// The lines of `help script`, with numbers and texts for their arguments.
#[test]
fn each_line_that_help_names_is_a_call() {
    let help = ferigulan(&["help", "script"], "").text();
    let usages: Vec<&str> = help.lines().filter(|line| line.starts_with("  ")).map(|line| line[..33].trim()).collect();
    assert_eq!(usages.len(), 70);
    let lines = usages.iter().map(|usage| usage.replace("HEX", "61").replace("W..", "1 5 0 0").replace("H..", "5 6"));
    let lines = lines.map(|line| line.split(' ').map(argument).collect::<Vec<_>>().join(" "));
    let ran = ferigulan(&["run"], lines.collect::<Vec<_>>().join("\n"));
    assert_eq!((ran.status, ran.err.as_str()), (0, ""));
    assert!(ran.text().lines().all(|line| !line.contains("=> ?")));
}

#[test]
fn what_is_no_call_is_told_with_its_place() {
    let script = "fresh 100\nfoo 1\nget_int 5\nint  5\nint 0x\nmeet 5\npoke 100 1\nlist 1048577\nfields 18 1048577\nstr 616\n".to_string()
        + "meet_rep 131073 5\nmeet_rep 5\nstr \n check\ncheck\r\nx\0\u{1b}y\nfind_entry\n";
    let ran = ferigulan(&["run"], script);
    let messages = [
        "2: there is no call 'foo'",
        "3: in a script get_int is written 'int V'",
        "4: one space separates two words, and none ends the line",
        "5: '0x' is no number of 64 bits",
        "6: it is written 'meet A B'",
        "7: there is no word 100 in a list of 100",
        "8: a list has at most 1,048,576 words",
        "9: an output has at most 1,048,576 words",
        "10: '616' is no text, which is pairs of hex digits",
        "11: a handle is repeated at most 131,072 times",
        "12: it is written 'meet_rep N H'",
        "13: one space separates two words, and none ends the line",
        "14: a line begins with a word, not with a space",
        "15: the line ends in a carriage return",
        "16: there is no call 'x\\x00\\x1by'",
        "17: it is written 'find_entry W..'",
    ];
    assert_eq!(ran.err.lines().collect::<Vec<_>>(), messages.map(|message| format!("standard input:{message}")));
    assert_eq!(ran.text().lines().filter(|line| line.ends_with(" => ?")).count(), messages.len());
    assert_eq!(ran.status, 1);
    let long = ferigulan(&["run", "-"], "x".repeat(300_000));
    assert_eq!((long.status, long.err.as_str()), (1, "standard input:1: the line has 262,144 bytes or more\n"));
    assert_eq!(long.text(), format!("{}.. => ?\n", "x".repeat(120)));
}

#[test]
fn each_script_begins_anew() {
    let ran = ferigulan(&["run", "--plain", "examples/merge.txt", "-"], "check\nint 5\n");
    assert!(ran.text().ends_with("\n0\n-1\n"));
    let missing = ferigulan(&["run", "--plain", "-", "no/such", "examples/merge.txt"], "check\n");
    assert_eq!((missing.status, missing.text().as_str()), (2, "0\n"));
    assert_eq!(missing.err, "ferigulan: no/such: cannot be read: No such file or directory (os error 2)\n");
}

#[test]
fn a_reader_that_goes_away_ends_it_quietly() {
    let mut command = Command::new("sh");
    let program = env!("CARGO_BIN_EXE_ferigulan");
    command
        .current_dir(repository(""))
        .arg("-c")
        .arg(format!("{{ '{program}' run tests/17-rust.txt; echo \"status $?\" >&2; }} | head -n 1"));
    let ran = run(command, b"");
    assert_eq!((ran.text().lines().count(), ran.err.as_str()), (1, "status 0\n"));
}

#[test]
fn an_output_that_cannot_be_written_is_told() {
    let full = || std::fs::OpenOptions::new().write(true).open("/dev/full").expect("Linux has /dev/full");
    for arguments in [&["run", "examples/merge.txt"][..], &["--help"], &["run", "--plain", "tests/17-rust.txt"]] {
        let mut command = Command::new(env!("CARGO_BIN_EXE_ferigulan"));
        let output = command.args(arguments).current_dir(repository("")).stdin(Stdio::null()).stdout(full()).output().expect("it starts");
        assert_eq!(output.status.code(), Some(2));
        assert_eq!(output.stderr, b"ferigulan: standard output: cannot be written: No space left on device (os error 28)\n");
    }
}
