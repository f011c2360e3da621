//! Scripts with the right answers behind `; =>`, from the folder that the environment variable CASES names.

mod common;
mod compared;
mod script;

use compared::compare;
use script::Script;

#[test]
fn scripts_of_the_folder() {
    let Some(folder) = std::env::var_os("CASES") else {
        println!("CASES names no folder of scripts: none is run");
        return;
    };
    for name in ["twelve.txt", "limits.txt", "refusals.txt", "slip-01.txt", "slip-02.txt", "slip-03.txt"] {
        let path = std::path::Path::new(&folder).join(name);
        let text = std::fs::read_to_string(&path).unwrap_or_else(|why| panic!("{}: {why}", path.display()));
        let (answers, wrong) = compare(&mut Script::default(), &text);
        assert!(answers > 0, "{name} has no answers");
        assert!(wrong.is_empty(), "{name}: {} of {answers} answers wrong\n{}", wrong.len(), wrong.join("\n"));
        println!("{name}: {answers} answers, all right");
    }
}

#[test]
fn a_wrong_answer_is_seen() {
    let text = "fresh 97 ; => ok\nint 3 4 ; => 95\n; a comment\nint 3 4 ; => 94\nmin 94 ; => =3\ndump ; => *\nmint 3 ; => 3\n";
    let (answers, wrong) = compare(&mut Script::default(), text);
    assert_eq!(answers, 6);
    assert_eq!(wrong.len(), 2);
    assert!(wrong[0].starts_with("line 2:") && wrong[1].ends_with("got ? mint 3"), "{wrong:?}");
}
