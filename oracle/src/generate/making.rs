//! The makers by chance, and towers of them.

use super::{Generator, MAKERS, MOST_VISITS};
use crate::ask::MOST_FIELDS;
use crate::session::Answer;
use crate::steps::Arg;
use crate::values;

impl Generator<'_, '_, '_> {
    pub(super) fn make(&mut self) {
        match self.random.weighted(MAKERS) {
            "get_bool" => {
                let flag = self.flag();
                self.call("get_bool", vec![flag]);
            }
            "int" => self.make_int(),
            "float" => self.make_float(),
            "tuple" => self.make_tuple(),
            "str" => {
                let text = values::name(&mut self.random);
                self.run("str", vec![], text);
            }
            "struct" => self.make_struct(),
            "fref" => {
                let name = self.name();
                self.call("fref", vec![name]);
            }
            "ptr" => {
                // a struct of the list's own, rather than $TOP or $BOT
                let is_own = self.random.percent(60);
                let own = self.find(|entry| is_own && entry.handle > 93 && (entry.kind == 8 || entry.kind == 9));
                let to = own.unwrap_or_else(|| self.one(|entry| entry.kind == 8 || entry.kind == 9));
                let nil = self.flag();
                self.call("ptr", vec![self.origins[to], nil]);
            }
            "mem" => {
                let t = self.a_type();
                let alias = values::alias(&mut self.random);
                self.call("mem", vec![Arg::Number(alias), self.origins[t]]);
            }
            _ => self.make_ary(),
        }
    }

    fn make_int(&mut self) {
        let ends = if self.random.percent(40) { 1 } else { 2 };
        let args = (0..ends).map(|_| Arg::Number(values::int(&mut self.random))).collect();
        self.run("int", args, vec![]);
    }

    fn make_float(&mut self) {
        let bits = values::float(&mut self.random);
        let numbers = match self.random.below(20) {
            0..=11 => vec![bits],
            12..=15 => vec![0, bits],
            16 | 17 => vec![self.random.of(&[32, 64, -32, -64]) as u64, 0],
            18 => vec![self.random.of(&[32, 64, -32, -64]) as u64, bits],
            _ => vec![self.random.of(values::BAD_FLOAT_SIZES) as u64, self.random.of(&[0, bits])],
        };
        self.run("float", numbers.into_iter().map(Arg::Number).collect(), vec![]);
    }

    /// A tuple like an earlier one, or any.
    fn make_tuple(&mut self) {
        let like = if self.random.percent(50) { self.find(|entry| entry.kind == 7) } else { None };
        let parts = match like {
            Some(tuple) => {
                let parts = self.store().words_at(tuple)[1..].to_vec();
                parts.into_iter().map(|part| self.same_or_alike(part)).collect()
            }
            None => {
                let count = values::count(&mut self.random, &[100, 254, 255, 256, 257]);
                let places: Vec<usize> = (0..count).map(|_| self.a_type()).collect();
                places.into_iter().map(|place| self.origins[place]).collect()
            }
        };
        self.call("tuple", parts);
    }

    /// A struct like an earlier one, or any.
    fn make_struct(&mut self) {
        let like = if self.random.percent(70) { self.find(|entry| entry.kind == 8 && entry.visits > 1) } else { None };
        let args = match like {
            Some(place) => self.struct_like(place),
            None => self.any_struct(),
        };
        self.call("struct", args);
    }

    fn any_struct(&mut self) -> Vec<Arg> {
        let count = values::count(&mut self.random, &[30, 60, MOST_FIELDS - 1, MOST_FIELDS, 256, 257]);
        let mut args = vec![self.name()];
        for _ in 0..count {
            let ty = self.a_type();
            let alias = Arg::Number(values::alias(&mut self.random));
            args.extend([self.name(), self.origins[ty], alias, self.flag()]);
        }
        args
    }

    /// The same name, field names and aliases, so that the meet of both goes into the fields; other types and finals. Seldom a field is
    /// left out, or has another name or alias.
    fn struct_like(&mut self, place: usize) -> Vec<Arg> {
        let words = self.store().words_at(place)[1..].to_vec();
        let mut args = vec![self.origin_of(words[0])];
        for field in words[1..].chunks(3) {
            let (alias, final_field) = (field[2] / 2, field[2] % 2);
            let is_final = if self.random.percent(20) { 1 - final_field } else { final_field };
            args.extend([self.origin_of(field[0]), self.same_or_alike(field[1]), Arg::Number(alias), Arg::Number(is_final)]);
        }
        let fields = (args.len() - 1) / 4;
        if fields > 0 && self.random.percent(10) {
            let field = 4 * self.random.below(fields);
            match self.random.below(3) {
                0 => drop(args.drain(field + 1..field + 5)),
                1 => args[field + 1] = self.name(),
                _ => args[field + 3] = Arg::Number(values::alias(&mut self.random)),
            }
        }
        args
    }

    /// An array; the text is often that of the body, where the Rust's own maker of arrays can be asked.
    fn make_ary(&mut self) {
        let length = self.one(|entry| entry.kind == 5);
        let body = self.a_type();
        let entry = self.store().entries[body];
        let text = match self.random.below(20) {
            0 => vec![b'x'; self.random.between(250, 256)],
            1..=12 if entry.visits <= MOST_VISITS => entry.ty().unwrap().str().as_bytes().to_vec(),
            _ => values::name(&mut self.random),
        };
        let aliases = [(); 2].map(|()| Arg::Number(values::alias(&mut self.random)));
        let args = vec![self.origins[length], aliases[0], self.origins[body], aliases[1]];
        let args = self.spoilt(args);
        self.run("ary", args, text);
    }

    /// Two types of one shape and different cores, wrapped up to the largest depth and past it.
    pub(super) fn towers(&mut self) {
        let core = self.a_type();
        let other = self.alike(core);
        let mut tops = [self.origins[core], self.origins[other]];
        for _ in 0..self.random.between(25, 38) {
            let wrapper = self.wrapper(tops[0]);
            let (name, alias) = (self.name(), Arg::Number(values::alias(&mut self.random)));
            for top in &mut tops {
                let flag = self.flag();
                let args = match wrapper {
                    "ptr" => vec![*top, flag],
                    "mem" => vec![alias, *top],
                    "struct" => vec![name, name, *top, alias, flag],
                    "ary" => vec![Arg::Number(9), alias, *top, alias],
                    _ => vec![*top; self.random.of(&[1, 1, 1, 1, 1, 1, 2])],
                };
                let args = self.spoilt(args);
                let id = self.run(wrapper, args, vec![]);
                if let Answer::Number(_) = self.list.asked[id].answer {
                    *top = Arg::Answer(id);
                }
            }
        }
    }

    /// What is put around a tower's top: at the largest depth often a pointer, which array bodies and pointers refuse for other reasons too.
    fn wrapper(&mut self, top: Arg) -> &'static str {
        let top = *self.store().entry(self.runner.number(top)).expect("a tower's top has a handle");
        match (top.depth, top.kind) {
            (30, _) => "struct",
            (_, 8 | 9) if top.depth == 31 || self.random.percent(40) => "ptr",
            (32, _) => self.random.of(&["mem", "struct", "ary", "ary", "tuple", "ptr"]),
            _ => self.random.weighted(&[(2, "mem"), (2, "struct"), (1, "ary"), (4, "tuple")]),
        }
    }
}
