// What the calls are asked about a program: calls whose answers are there, and new ones. Each list goes by families, so that all lengths get the same mix.
use crate::built::{Built, BYTE, INT};
use crate::calls::{make, Call};
use crate::functions::{of, Function};
use crate::program::{Class, Found, Program, I32};
use crate::told::{about, keeps};

// One family of a program: its two classes with what was found of them, and its array.
struct Family<'a> {
    p: &'a Program,
    classes: [(Class, [Found; 2]); 2],
    array: u64,
}

impl Family<'_> {
    fn of(p: &Program, family: usize) -> Family<'_> {
        let class = |c: usize| (p.classes[c], [p.found[0][c], p.found[1][c]]);
        Family { p, classes: [class(2 * family), class(2 * family + 1)], array: p.arrays[family] }
    }

    // What is asked about each class.
    fn each<T>(&self, f: impl Fn(&Class, &Found, &Found) -> Vec<T>) -> Vec<T> {
        self.classes.iter().flat_map(|(class, [a, b])| f(class, a, b)).collect()
    }

    // Types: of each kind the first that was found.
    fn types(&self) -> Vec<u64> {
        self.each(|_, a, _| a.types().to_vec())
    }

    // Couples of each kind, as they were found the first time and the second.
    fn couples(&self) -> Vec<(u64, u64)> {
        self.each(|_, a, b| a.types().into_iter().zip(b.types()).collect())
    }

    // Of one class with what is declared, where the answer of isa is yes; of the other with what was found later.
    fn assigned(&self) -> Vec<(u64, u64)> {
        self.each(|class, a, b| {
            let declared = [I32, class.size(), class.structure, class.pointer, b.memory, b.tuple];
            a.types().into_iter().zip(if class.fref.is_some() { declared } else { b.types() }).collect()
        })
    }

    fn structs(&self) -> Vec<(u64, u64)> {
        self.each(|class, a, b| [class.structure, a.structure, b.structure].map(|s| (s, class.fields())).to_vec())
    }

    // The entries that a maker made.
    fn made(&self, maker: &str) -> Vec<u64> {
        match maker {
            "make_int" => self.each(|_, a, b| vec![a.int, a.constant, b.int, b.constant]),
            "get_int" => self.each(|_, a, b| vec![a.constant, b.constant]),
            "make_float" | "get_float" => self.each(|_, a, b| vec![a.float, b.float]),
            "get_tuple" => self.each(|_, a, b| vec![a.tuple, b.tuple]),
            "get_str" => self.each(|class, _, _| vec![class.name]),
            "get_struct" => self.structs().into_iter().map(|s| s.0).collect(),
            "make_struct_fref" => self.each(|class, _, _| class.fref.into_iter().collect()),
            "get_mem_ptr" => self.each(|class, a, b| vec![class.pointer, a.pointer, b.pointer]),
            "get_mem" => self.each(|_, a, b| vec![a.memory, b.memory]),
            _ => vec![self.array],
        }
    }
}

// The call that made an entry; of a constant also as the maker of constants.
fn maker(of: &'static Function, built: &Built, h: u64) -> Call {
    let at = built.made.binary_search_by_key(&h, |made| made.1).expect("a handle of the program");
    let call = built.made[at].0.clone();
    match of.name {
        "get_int" => Call::new(of, &[call.numbers[0]]),
        "get_float" => Call::new(of, &[call.numbers[1]]),
        _ => call,
    }
}

// Every call of document 01 but fresh, kind, and the merge of a list.
pub static GROUPS: [(&str, &[&Function]); 5] = [
    (
        "makers",
        &[
            &of::get_bool,
            &of::get_int,
            &of::make_int,
            &of::get_float,
            &of::make_float,
            &of::get_tuple,
            &of::get_str,
            &of::get_struct,
            &of::make_ary,
            &of::make_struct_fref,
            &of::get_mem_ptr,
            &of::get_mem,
        ],
    ),
    ("operations", &[&of::meet, &of::meet_list, &of::isa, &of::join, &of::dual, &of::glb, &of::lub, &of::is_final, &of::make_ro]),
    (
        "told of types",
        &[
            &of::kind,
            &of::make_init,
            &of::make_zero,
            &of::non_zero,
            &of::is_high,
            &of::is_high_or_constant,
            &of::is_constant,
            &of::is_fref,
            &of::log_size,
        ],
    ),
    (
        "told of numbers",
        &[
            &of::int_min,
            &of::int_max,
            &of::int_value,
            &of::int_mask,
            &of::float_sz,
            &of::float_is_f32,
            &of::float_value,
            &of::float_reading,
        ],
    ),
    (
        "told of structs",
        &[
            &of::struct_name,
            &of::struct_fields,
            &of::find,
            &of::find_alias,
            &of::is_ary,
            &of::offset,
            &of::offsets,
            &of::ary_base,
            &of::ary_scale,
        ],
    ),
];

fn on_types(of: &'static Function, types: &[u64]) -> Vec<Call> {
    types.iter().map(|t| Call::new(of, &[*t])).collect()
}

fn on_couples(of: &'static Function, couples: &[(u64, u64)]) -> Vec<Call> {
    couples.iter().map(|(a, b)| Call::new(of, &[*a, *b])).collect()
}

// Lists of six, as of a block that is entered from six places, of which three agree.
fn on_lists(of: &'static Function, couples: &[(u64, u64)]) -> Vec<Call> {
    couples.iter().map(|(a, b)| Call::with_list(of, &[], &[*a, *b, *a, *b, *a, *b])).collect()
}

fn on_structs(of: &'static Function, f: &Family, structs: &[(u64, u64)]) -> Vec<Call> {
    structs.iter().map(|(s, n)| about(of, &f.p.built, *s, *n)).collect()
}

// The calls of a family whose answers are there, if what the operations answer is.
fn there(group: &str, of: &'static Function, f: &Family) -> Vec<Call> {
    let numbers = |pick: fn(&Class, &Found) -> Vec<u64>| on_types(of, &f.each(|class, a, b| [pick(class, a), pick(class, b)].concat()));
    match of.name {
        "get_bool" => on_types(of, &[0, 1]),
        "isa" => on_couples(of, &f.assigned()),
        "meet" | "join" => on_couples(of, &f.couples()),
        "meet_list" => on_lists(of, &f.couples()),
        "make_zero" => numbers(|_, x| vec![x.int, x.float, x.pointer]),
        "log_size" => numbers(|_, x| vec![x.constant, x.float, x.pointer]),
        "is_fref" => {
            on_types(of, &f.each(|class, a, b| class.fref.into_iter().chain([a.structure, a.pointer, b.structure, b.pointer]).collect()))
        }
        name if name.starts_with("int_") => numbers(|_, x| vec![x.int, x.constant]),
        name if name.starts_with("float_") => numbers(|class, x| vec![x.float, class.size()]),
        "offset" | "offsets" => on_structs(of, f, &f.each(|class, _, _| vec![(class.structure, class.fields())])),
        "ary_base" | "ary_scale" => on_structs(of, f, &[(f.array, 2)]),
        "is_ary" => on_structs(of, f, &[f.structs(), vec![(f.array, 2)]].concat()),
        _ if group == "told of structs" => on_structs(of, f, &f.structs()),
        name if group == "makers" => f.made(name).into_iter().map(|h| maker(of, &f.p.built, h)).collect(),
        _ => on_types(of, &f.types()),
    }
}

// The calls of a family that are another matter the first time: those that append, that remember their answers, or of which the Rust keeps something. What they make is not
// there. Nothing where there are none.
fn new(group: &str, of: &'static Function, f: &Family) -> Vec<Call> {
    let six =
        |make: fn(&Family, &Class, &Found, &Found, u64) -> Call| f.each(|class, a, b| (0..6).map(|j| make(f, class, a, b, j)).collect());
    match of.name {
        "get_int" => six(|_, class, _, _, j| Call::new(&of::get_int, &[class.from() + [0, 2, 3, 4, 6, 7][j as usize]])),
        "make_int" => six(|_, class, _, _, j| make::int(class.from() + 1, class.from() + 8 + j)),
        "get_float" => six(|_, class, _, _, j| Call::new(&of::get_float, &[new_float(class, j).to_bits()])),
        "make_float" => six(|_, class, _, _, j| make::float(new_float(class, j))),
        "get_tuple" => six(|_, _, a, b, j| make::tuple(&[a.types()[j as usize], b.int])),
        "get_str" => six(|_, class, _, _, j| make::name(format!("n{:06}{j}", class.number).as_bytes())),
        "get_struct" => six(|f, class, a, _, j| {
            make::structure(class.name, &[f.p.field_names[0], a.int, class.alias(4 + j), 0, f.p.field_names[1], a.float, class.alias(1), 1])
        }),
        "make_ary" => six(|_, class, _, _, j| make::array(INT, 1 << 30 | class.alias(j), BYTE, class.alias(j), b"u8")),
        "make_struct_fref" => f.each(|class, _, _| if class.fref.is_none() { vec![make::fref(class.name)] } else { vec![] }),
        "get_mem_ptr" => {
            f.each(|class, a, b| vec![make::pointer(class.structure, 0), make::pointer(a.structure, 1), make::pointer(b.structure, 0)])
        }
        "get_mem" => six(|_, class, a, _, j| make::memory(class.alias(4 + j), a.types()[j as usize])),
        name if keeps(name) || group == "operations" => there(group, of, f),
        _ => vec![],
    }
}

fn new_float(class: &Class, j: u64) -> f64 {
    3_000_000.5 + (6 * class.number + j) as f64
}

// The calls of one function.
pub struct Asked {
    pub group: &'static str,
    pub of: &'static Function,
    pub calls: Vec<Call>,
    // how many of them are of one family
    pub unit: usize,
}

// For each function the calls about families from all over a program, about as many as so many families of twelve calls have.
fn all(p: &Program, families: usize, calls: fn(&str, &'static Function, &Family) -> Vec<Call>) -> Vec<Asked> {
    let mut all = Vec::new();
    for (group, functions) in GROUPS {
        for of in functions {
            let unit = calls(group, of, &Family::of(p, 0)).len();
            let n = (12 * families / unit.max(1)).clamp(1, p.arrays.len());
            let calls: Vec<Call> = (0..n).flat_map(|i| calls(group, of, &Family::of(p, i * p.arrays.len() / n))).collect();
            if unit > 0 {
                all.push(Asked { group, of, calls, unit });
            }
        }
    }
    all
}

pub fn all_there(p: &Program, families: usize) -> Vec<Asked> {
    all(p, families, there)
}

pub fn all_new(p: &Program, families: usize) -> Vec<Asked> {
    all(p, families, new)
}
