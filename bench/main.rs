// What the calls cost: see README.md. [--rust ORACLE] [PART..] runs all parts but growth, or the named ones.
#[cfg(all(opened, told, lists))]
mod agree;
#[cfg(all(opened, told, lists))]
mod asked;
mod beside;
#[cfg(opened)]
mod built;
mod calls;
#[cfg(all(catalogue, opened, told, lists))]
mod catalogue;
mod clock;
mod functions;
#[cfg(all(opened, told, lists))]
mod growth;
#[cfg(all(search, opened, told, lists))]
mod heads;
#[cfg(all(any(search, catalogue), opened, told, lists))]
mod kinds;
#[cfg(all(opened, lists))]
mod lists;
#[cfg(opened)]
mod measure;
#[cfg(opened)]
mod open_store;
#[cfg(opened)]
mod opened;
#[cfg(opened)]
mod operands;
mod plain;
#[cfg(all(opened, told, lists))]
mod program;
#[cfg(all(opened, told, lists))]
mod random;
#[cfg(all(opened, told, lists))]
mod row1;
#[cfg(opened)]
mod script;
#[cfg(search)]
mod search;
#[cfg(all(opened, told, lists))]
mod sets;
mod stores;
#[cfg(all(opened, told))]
mod told;
mod towers;

const PARTS: [&str; 11] = ["makers", "operations", "opened", "told", "lists", "beside", "towers", "search", "heads", "catalogue", "growth"];

fn run(part: &str, oracle: Option<&str>) {
    match part {
        "makers" => plain::makers(),
        "operations" => plain::lattice(oracle),
        #[cfg(opened)]
        "opened" => opened::tables(oracle),
        #[cfg(not(opened))]
        "opened" => eprintln!("opened stores: left out, the library has none"),
        #[cfg(all(opened, told))]
        "told" => told::tables(oracle),
        #[cfg(not(all(opened, told)))]
        "told" => eprintln!("what is told of types: left out, the library has no such calls"),
        #[cfg(all(opened, lists))]
        "lists" => lists::table(oracle),
        #[cfg(not(all(opened, lists)))]
        "lists" => eprintln!("lists: left out, the library merges none"),
        "beside" => match calls::OLD {
            Some(old) => beside::table(old),
            None => eprintln!("old beside new: left out, no old library was linked"),
        },
        "towers" => towers::table(),
        #[cfg(search)]
        "search" => search::table(),
        #[cfg(not(search))]
        "search" => eprintln!("the search: left out, its library was not built"),
        #[cfg(all(search, opened, told, lists))]
        "heads" => heads::table(),
        #[cfg(not(all(search, opened, told, lists)))]
        "heads" => eprintln!("the search before and after: left out, its library was not built, or the library has not all calls"),
        #[cfg(all(catalogue, opened, told, lists))]
        "catalogue" => catalogue::table(),
        #[cfg(not(all(catalogue, opened, told, lists)))]
        "catalogue" => eprintln!("saving and loading: left out, the library has no such calls"),
        #[cfg(all(opened, told, lists))]
        "growth" => growth::measure(oracle),
        #[cfg(not(all(opened, told, lists)))]
        "growth" => {
            eprintln!("growth: the library has not all calls");
            std::process::exit(1)
        }
        _ => unreachable!(),
    }
}

fn main() {
    let mut args: Vec<String> = std::env::args().skip(1).collect();
    let mut oracle = None;
    if args.len() >= 2 && args[0] == "--rust" {
        oracle = Some(args.remove(1));
        args.remove(0);
    }
    if let Some(other) = args.iter().find(|a| !PARTS.contains(&a.as_str())) {
        eprintln!("{other}: no part; they are {}", PARTS.join(", "));
        std::process::exit(2);
    }
    for part in PARTS.iter().filter(|p| if args.is_empty() { **p != "growth" } else { args.iter().any(|a| a == *p) }) {
        run(part, oracle.as_deref());
    }
}
