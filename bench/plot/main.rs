// plot FIGURES FOLDER: makes the drawings bench-*.svg of a folder, and the tables of its BENCHMARKS.md, from the figures of the part `growth`.
mod data;
mod drawings;
#[path = "../../oracle/src/linked/grouped.rs"]
mod grouped;
mod panel;
mod sentences;
mod svg;
mod tables;

use data::Data;

// The page with a part between its two marks made anew.
fn replaced(page: &str, name: &str, with: &str) -> Result<String, String> {
    let (begin, end) = (format!("<!-- made by bench/plot.sh: {name} -->\n"), format!("<!-- end: {name} -->\n"));
    let split = page.split_once(&begin).and_then(|(before, rest)| Some((before, rest.split_once(&end)?.1)));
    let (before, after) = split.ok_or_else(|| format!("the lines '{}' and '{}' are not there", begin.trim_end(), end.trim_end()))?;
    Ok(format!("{before}{begin}\n{with}\n{end}{after}"))
}

fn parts(data: &Data) -> [(&'static str, String); 12] {
    [
        ("machine", sentences::machine(data)),
        ("in short", sentences::in_short(data)),
        ("stores", tables::stores(data)),
        ("row 1", tables::row1(data)),
        ("opened", tables::opened(data, "there")),
        ("plain", tables::plain(data, "there")),
        ("opened, new", tables::opened(data, "new")),
        ("plain, new", tables::plain(data, "new")),
        ("growth", sentences::grows(data)),
        ("slower", sentences::slower(data, "there")),
        ("slower, new", sentences::slower(data, "new")),
        ("slower, plain", sentences::plain_slower(data)),
    ]
}

fn run(figures: &str, folder: &str) -> Result<(), String> {
    let data = Data::read(figures)?;
    let write = |name: &str, text: String| {
        let file = format!("{folder}/{name}");
        std::fs::write(&file, text).map_err(|e| format!("{file}: {e}"))
    };
    write("bench-row1.svg", drawings::row1(&data))?;
    write("bench-calls.svg", drawings::calls(&data, "there", "Calls whose answers are there: time by the words of the list"))?;
    write("bench-new.svg", drawings::calls(&data, "new", "Calls the first time: time by the words of the list"))?;
    write("bench-ratio.svg", drawings::ratios(&data))?;
    let file = format!("{folder}/BENCHMARKS.md");
    let mut page = std::fs::read_to_string(&file).map_err(|e| format!("{file}: {e}"))?;
    for (name, text) in parts(&data) {
        page = replaced(&page, name, &text).map_err(|e| format!("{file}: {e}"))?;
    }
    write("BENCHMARKS.md", page)
}

fn main() {
    let args: Vec<String> = std::env::args().skip(1).collect();
    let [figures, folder] = &args[..] else {
        eprintln!("plot FIGURES FOLDER");
        std::process::exit(2);
    };
    if let Err(error) = run(figures, folder) {
        eprintln!("plot: {error}");
        std::process::exit(1);
    }
}
