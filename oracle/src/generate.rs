//! Lists of calls by chance. The Rust runs each call at once, so that later calls can take what earlier ones made; what is written into a
//! script are then plain numbers.

mod choosing;
mod lists;
mod making;
mod opening;
mod others;

use crate::random::Random;
use crate::script::known_name;
use crate::session::{Answer, Room, Session, ROOM_OF_CALLS};
use crate::steps::{Arg, Asked, Runner, Step};
use crate::values;
use original::datastructures::arena::DroplessArena;
use original::sea_of_nodes::types::Types;

/// The calls that make types. They are always used: without them there is nothing to ask about.
pub const MAKERS: &[(usize, &str)] = &[
    (1, "get_bool"),
    (12, "int"),
    (12, "float"),
    (12, "tuple"),
    (7, "str"),
    (20, "struct"),
    (5, "fref"),
    (12, "ptr"),
    (8, "mem"),
    (6, "ary"),
];

/// The calls of the lattice, and how often each is made where it is switched on.
pub const LATTICE: &[(usize, &str)] =
    &[(3, "kind"), (25, "meet"), (15, "isa"), (8, "dual"), (10, "join"), (5, "glb"), (5, "lub"), (5, "is_final"), (8, "make_ro")];

/// The merges of whole lists, likewise: document 02, Slip 1.
pub const LISTS: &[(usize, &str)] = &[(14, "meet_list"), (2, "meet_rep")];

/// Document 01's other calls, likewise.
pub const OTHERS: &[(usize, &str)] = &[
    (3, "make_init"),
    (3, "make_zero"),
    (6, "non_zero"),
    (3, "is_high"),
    (3, "is_high_or_constant"),
    (3, "is_constant"),
    (3, "is_fref"),
    (4, "log_size"),
    (2, "min"),
    (2, "max"),
    (3, "value"),
    (8, "mask"),
    (2, "sz"),
    (4, "is_f32"),
    (3, "float_value"),
    (3, "reading"),
    (2, "name"),
    (4, "fields"),
    (5, "find"),
    (4, "find_alias"),
    (3, "is_ary"),
    (6, "offset"),
    (6, "offsets"),
    (4, "ary_base"),
    (4, "ary_scale"),
];

/// Which calls lists are made of.
pub struct Menu {
    /// What is asked about the types that the makers make.
    asks: Vec<(usize, &'static str)>,
    /// Whether each list ends with `dump`, so that every used word is compared.
    pub dump: bool,
    /// Whether the lists are opened.
    pub opened: bool,
    pub lists: Lists,
}

/// What lists are like.
#[derive(Clone, Copy)]
pub struct Lists {
    pub room: Room,
    /// The length of a list.
    pub length: fn(&mut Random) -> usize,
    /// Whether makers by chance fill the list before its calls, so that these have late handles.
    pub are_filled: bool,
    pub most_calls: usize,
    /// How many in a hundred merges of lists are of the types of an earlier one, in another order.
    pub merged_again: usize,
}

/// Lists that the program `calls` has room for.
pub const SHORT: Lists = Lists { room: ROOM_OF_CALLS, length: values::length, are_filled: false, most_calls: 400, merged_again: 30 };

impl Menu {
    /// Reads names separated by commas; `makers` stands for all makers, `lattice` for its calls, `others` for document 01's other calls,
    /// `lists` for the merges of lists, `all` for everything.
    pub fn read(names: &str) -> Result<Menu, String> {
        let mut menu = Menu { asks: vec![], dump: false, opened: false, lists: SHORT };
        for name in names.split(',') {
            match name {
                "makers" => {}
                "dump" => menu.dump = true,
                "lattice" => menu.asks.extend(LATTICE),
                "others" => menu.asks.extend(OTHERS),
                "lists" => menu.asks.extend(LISTS),
                "all" => {
                    menu.dump = true;
                    menu.asks.extend(all_asks());
                }
                _ => menu.asks.extend(all_asks().filter(|ask| ask.1 == name)),
            }
            let is_word = ["makers", "lattice", "others", "lists", "all"].contains(&name);
            if !is_word && known_name(name).is_none() {
                return Err(format!("{name}: no call of the oracle"));
            }
        }
        Ok(menu)
    }

    /// Puts so much more weight on a call.
    pub fn weigh(&mut self, name: &'static str, weight: usize) {
        self.asks.push((weight, name));
    }
}

/// What can be asked about types.
pub fn all_asks() -> impl Iterator<Item = &'static (usize, &'static str)> {
    LATTICE.iter().chain(OTHERS).chain(LISTS)
}

/// A list of calls with the Rust's answers.
pub struct List {
    pub steps: Vec<Step>,
    pub asked: Vec<Asked>,
}

/// Walks visit shared parts again and again, so a type of 31 tuples (x, x) would take them 2^31 visits. Such types are made, and nothing
/// that walks is asked about those above this.
pub const MOST_VISITS: u64 = 2000;

/// All types of a list together may take its merges so many visits.
const MOST_VISITS_OF_A_LIST: u64 = 100_000;

/// Whether a call walks through a type.
pub fn walks(name: &str) -> bool {
    name == "non_zero" || LATTICE.iter().chain(LISTS).any(|call| call.1 == name)
}

/// Whether a call with types of so many visits each comes to its end soon, where a walk may take `most`.
pub fn ends_soon(name: &str, most: u64, visits: impl Iterator<Item = u64> + Clone) -> bool {
    !walks(name) || (visits.clone().all(|visits| visits <= most) && visits.sum::<u64>() <= MOST_VISITS_OF_A_LIST)
}

struct Generator<'a, 't, 'm> {
    random: Random,
    menu: &'m Menu,
    runner: Runner<'a, 't>,
    /// For each entry of the store, how a call says that it means it.
    origins: Vec<Arg>,
    list: List,
}

/// The list of this seed.
pub fn list(seed: u64, menu: &Menu) -> List {
    let arena = DroplessArena::new();
    let types = Types::new(&arena);
    let mut generator = Generator {
        random: Random::new(seed),
        menu,
        runner: Runner::new(Session::with_room(&types, menu.lists.room)),
        origins: vec![],
        list: List { steps: vec![], asked: vec![] },
    };
    generator.whole_list();
    match menu.opened {
        true => opening::opened(generator.list, seed),
        false => generator.list,
    }
}

impl Generator<'_, '_, '_> {
    fn whole_list(&mut self) {
        if self.random.percent(4) {
            self.row_one();
        }
        let length = (self.menu.lists.length)(&mut self.random);
        self.run("fresh", vec![Arg::Number(length as u64)], vec![]);
        if self.menu.lists.are_filled {
            self.fill(length);
        }
        // a store that is full soon has little to say for long
        let most = if length < 130 { 60 } else { self.menu.lists.most_calls };
        let size = self.random.between(20, most);
        while self.list.steps.len() < size {
            self.some_call();
        }
        if self.menu.dump {
            self.run("dump", vec![], vec![]);
        }
    }

    /// Makers by chance, mostly until little room is left. They are many, so the store is open for them.
    fn fill(&mut self, length: usize) {
        let left = if self.random.percent(70) { self.random.below(3000) } else { self.random.below(length) };
        let until = length.saturating_sub(left);
        self.run("open", vec![], vec![]);
        let seed = self.random.word() >> 32;
        self.run("fill", vec![Arg::Number(seed), Arg::Number(until as u64)], vec![]);
        if !self.menu.opened {
            self.run("close", vec![], vec![]);
        }
    }

    /// Calls on a list that is no store.
    fn row_one(&mut self) {
        if self.random.percent(50) {
            let numbers = [self.random.of(&[0, 1, 93, 94, 95, 500]), values::int(&mut self.random)];
            self.run("list", numbers.map(Arg::Number).to_vec(), vec![]);
        } else {
            let length = self.random.of(&[0, 1, 92, 93]);
            self.run("fresh", vec![Arg::Number(length)], vec![]);
        }
        let of_one = ["get_bool", "kind", "fref", "int", "float", "tuple", "dual", "non_zero", "log_size", "mask", "sz", "name", "is_ary"];
        let of_two = ["fields", "find", "find_alias", "offset", "offsets"];
        let of_some = [("meet_list", 0), ("meet_list", 3), ("meet_rep", 2)];
        let all = of_one.map(|name| (name, 1)).into_iter().chain(of_two.map(|name| (name, 2))).chain(of_some);
        for (name, count) in all {
            if MAKERS.iter().chain(&self.menu.asks).any(|call| call.1 == name) {
                let numbers = (0..count).map(|_| Arg::Number(values::trouble(&mut self.random))).collect();
                self.run(name, numbers, vec![]);
            }
        }
        self.run("fresh", vec![], vec![]);
    }

    fn some_call(&mut self) {
        if self.random.percent(3) {
            return self.repeat();
        }
        if self.random.below(600) == 0 {
            return self.towers();
        }
        if self.menu.asks.is_empty() || self.random.percent(50) {
            self.make();
        } else {
            self.ask_about();
        }
    }

    /// An earlier call once more: what it made is found again.
    fn repeat(&mut self) {
        let step = self.list.steps[self.random.below(self.list.steps.len())].clone();
        if !["list", "fresh", "open", "fill", "close"].contains(&step.name) && self.ends(step.name, &step.args) {
            self.run(step.name, step.args, step.text);
        }
    }

    fn ask_about(&mut self) {
        match self.random.weighted(&self.menu.asks) {
            name @ ("meet" | "isa" | "join") => self.ask_about_two(name),
            name if LISTS.iter().any(|list| list.1 == name) => self.merge_list(name),
            name if OTHERS.iter().any(|other| other.1 == name) => self.ask_other(name),
            name => {
                let a = self.walked();
                self.call(name, vec![self.origins[a]]);
            }
        }
    }

    /// Two types: mostly alike, since others meet at Bot; or a type and a meet that it went into, where isa says yes.
    fn ask_about_two(&mut self, name: &'static str) {
        if self.random.percent(15) {
            let meets: Vec<&Step> = self.list.steps.iter().filter(|step| step.name == "meet").collect();
            if !meets.is_empty() {
                let meet = meets[self.random.below(meets.len())];
                let args = vec![self.random.of(&meet.args), Arg::Answer(meet.id)];
                return self.call(name, args);
            }
        }
        let a = self.walked();
        let b = if self.random.percent(85) { self.alike(a) } else { self.walked() };
        self.call(name, vec![self.origins[a], self.origins[b]]);
    }

    /// Makes a call, now and then with arguments that it refuses.
    fn call(&mut self, name: &'static str, args: Vec<Arg>) {
        let args = self.spoilt(args);
        if self.ends(name, &args) {
            self.run(name, args, vec![]);
        }
    }

    /// Whether a call comes to its end soon: a number by chance may be the handle of a type that takes a walk too many visits.
    fn ends(&self, name: &str, args: &[Arg]) -> bool {
        let visits = |arg: &Arg| self.store().entry(self.runner.number(*arg)).map_or(0, |entry| entry.visits);
        ends_soon(name, MOST_VISITS, args.iter().map(visits))
    }

    fn spoilt(&mut self, mut args: Vec<Arg>) -> Vec<Arg> {
        if args.is_empty() || !self.random.percent(8) {
            return args;
        }
        for _ in 0..self.random.of(&[1, 1, 2]) {
            let place = self.random.below(args.len());
            args[place] = self.wrong();
        }
        // only a field list may have any length, and a tuple
        if args.len() > 4 && self.random.percent(20) {
            args.truncate(args.len() - self.random.between(1, 3));
        }
        args
    }

    /// An argument that is mostly refused: a troublesome number, a handle of any kind, a place inside or past the entries.
    fn wrong(&mut self) -> Arg {
        let any = self.one(|_| true);
        let handle = self.store().entries[any].handle;
        let used = self.store().words.len() as u64;
        match self.random.below(6) {
            0 | 1 => Arg::Number(values::trouble(&mut self.random)),
            2 => self.name(),
            3 => self.origins[any],
            4 => Arg::Number(handle + 1),
            _ => Arg::Number(self.random.of(&[used, used + 1, self.store().length as u64])),
        }
    }

    /// Runs a step, writes it down and hands back its id.
    fn run(&mut self, name: &'static str, args: Vec<Arg>, text: Vec<u8>) -> usize {
        let id = self.list.steps.len();
        let step = Step { id, name, args, text };
        let asked = self.runner.run(&step);
        self.note_origins(id, &asked);
        self.list.steps.push(step);
        self.list.asked.push(asked);
        id
    }

    fn note_origins(&mut self, id: usize, asked: &Asked) {
        let entries = self.runner.session.store().map_or(&[][..], |store| &store.entries);
        let before = if asked.call.name == "fresh" { 0 } else { self.origins.len() };
        self.origins.truncate(before);
        for (k, entry) in entries[before..].iter().enumerate() {
            self.origins.push(match &asked.answer {
                _ if asked.call.name == "fresh" => Arg::Number(entry.handle),
                Answer::Number(answer) if *answer == entry.handle => Arg::Answer(id),
                _ => Arg::Appended(id, k),
            });
        }
    }
}
