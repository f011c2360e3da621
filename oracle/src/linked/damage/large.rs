//! Structs of 125 to 255 fields, which the original's arena has no room for, and what is asked of them; and lists of arguments that are far too
//! long.

use super::Damaging;
use crate::steps::Arg;
use crate::values;

/// The types of the fresh store that have log sizes: some of each.
const SIZED: &[u64] = &[9, 12, 15, 22, 25, 28, 31, 34, 37, 40, 43, 46, 49, 52, 55, 58, 61, 82, 85, 88, 91];

/// What is asked of a large struct, those calls more often that read or fill all its fields.
#[rustfmt::skip]
const ASKED: &[&str] = &[
    "fields", "fields", "offsets", "offsets", "offset", "offset", "find", "find_alias", "is_ary", "name", "meet", "meet", "meet_list", "isa",
    "join", "dual", "glb", "lub", "make_ro", "is_final", "ptr", "non_zero", "ary_base", "log_size", "kind",
];

impl Damaging {
    pub(super) fn large_struct(&mut self) {
        if self.random.percent(10) {
            return self.far_too_many();
        }
        let count = self.random.of(&[125, 126, 127, 128, 200, 253, 254, 255, 255, 256]);
        if self.model.used() + 3 * count + 60 > self.model.words().len() {
            return;
        }
        let first = self.large_fields(count);
        let mut second = first.clone();
        for field in second[1..].chunks_mut(4) {
            if self.random.percent(10) {
                (field[1], field[3]) = (self.sized(), self.flag());
            }
        }
        let ids = [first.clone(), second].map(|fields| self.run("struct", fields, vec![]));
        let [a, b] = ids.map(Arg::Answer);
        for _ in 0..self.random.between(3, 12) {
            self.ask_about(a, b, &first);
        }
    }

    fn sized(&mut self) -> Arg {
        Arg::Number(self.random.of(SIZED))
    }

    /// A name and so many fields: mostly all with a log size, and with few names and aliases.
    fn large_fields(&mut self, count: usize) -> Vec<Arg> {
        let names = [self.one(&[0]), self.one(&[0]), self.one(&[0])];
        let any = self.random.percent(20);
        let mut args = vec![names[0]];
        for _ in 0..count {
            let ty = if any && self.random.percent(3) { self.one(&[5, 6, 7, 8, 9, 10, 11]) } else { self.sized() };
            let any_alias = values::alias(&mut self.random);
            let alias = Arg::Number(self.random.of(&[0, 1, any_alias]));
            args.extend([self.random.of(&names), ty, alias, self.flag()]);
        }
        args
    }

    fn ask_about(&mut self, a: Arg, b: Arg, fields: &[Arg]) {
        let count = fields.len() / 4;
        let name = self.random.of(ASKED);
        let some_field = &fields[1 + 4 * self.random.below(count)..];
        let args = match name {
            "fields" => vec![a, Arg::Number(self.length_for(4 * count))],
            "offsets" => vec![a, Arg::Number(self.length_for(count + 1))],
            "offset" => vec![a, Arg::Number(self.random.between(0, count + 1) as u64)],
            "find" => vec![a, some_field[0]],
            "find_alias" => vec![a, some_field[2]],
            "meet" | "isa" | "join" => self.random.of(&[[a, b], [b, a]]).to_vec(),
            "meet_list" => self.random.of(&[[a, b, a], [b, a, b]]).to_vec(),
            "ptr" => vec![a, self.flag()],
            _ => vec![a],
        };
        self.run(name, args, vec![]);
    }

    /// Texts and lists of thousands of bytes, elements, handles or fields.
    fn far_too_many(&mut self) {
        let count = self.random.of(&[256, 512, 1000, 65_535, 65_536, 65_537, 65_791, 100_000]);
        match self.random.below(5) {
            0 => drop(self.run("str", vec![], vec![b'a'; count])),
            1 => drop(self.run("tuple", vec![Arg::Number(25); count], vec![])),
            2 => drop(self.run("ary", [9, 0, 25, 0].map(Arg::Number).to_vec(), vec![b'a'; count])),
            3 => drop(self.run("meet_list", vec![Arg::Number(25); count], vec![])),
            _ => {
                let fields = [1, 25, 0, 0].map(Arg::Number).into_iter().cycle().take(4 * count);
                let args = [Arg::Number(1)].into_iter().chain(fields).collect();
                self.run("struct", args, vec![]);
            }
        }
    }
}
