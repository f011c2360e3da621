//! Document 01's other calls by chance. What they are asked about is often made just before, so that they have something to say.

use super::Generator;
use crate::ask::MOST_FIELDS;
use crate::rows::has_log_size;
use crate::session::{Answer, MOST_OUTPUT};
use crate::steps::Arg;
use crate::store::{Entry, SHORTEST};
use crate::values;
use original::sea_of_nodes::types::{Type, Types};

/// Whether a type has a log size.
fn is_sized<'t>(entry: &Entry<'t>, types: &Types<'t>) -> bool {
    entry.ty().is_some_and(|ty| has_log_size(ty, types))
}

/// Whether an entry is a struct with fields that all have log sizes.
fn has_sized_fields<'t>(entry: &Entry<'t>, types: &Types<'t>) -> bool {
    let fields = match entry.ty().map(|ty| ty.data()) {
        Some(Type::Struct(s)) => s.fields.unwrap_or(&[]),
        _ => &[],
    };
    !fields.is_empty() && fields.iter().all(|field| has_log_size(field.ty, types))
}

fn is_array(entry: &Entry) -> bool {
    entry.kind == 8 && entry.ty().is_some_and(|ty| ty.as_struct().is_ary())
}

impl<'t> Generator<'_, 't, '_> {
    pub(super) fn ask_other(&mut self, name: &'static str) {
        let args = match name {
            "min" | "max" | "value" | "mask" => vec![self.an_int()],
            "sz" | "is_f32" | "float_value" | "reading" => vec![self.a_float()],
            "name" | "is_ary" | "ary_base" | "ary_scale" => vec![self.asked_struct(name)],
            "fields" | "find" | "find_alias" | "offset" | "offsets" => self.struct_and_number(name),
            _ => vec![self.asked_type(name)],
        };
        self.call(name, args);
    }

    fn found(&mut self, wanted: impl Fn(&Entry<'t>) -> bool) -> Option<Arg> {
        self.find(wanted).map(|place| self.origins[place])
    }

    /// Makes something and hands it on, unless that was refused.
    pub(super) fn made(&mut self, name: &'static str, args: Vec<Arg>, text: &str) -> Option<Arg> {
        let id = self.run(name, args, text.into());
        matches!(self.list.asked[id].answer, Answer::Number(_)).then_some(Arg::Answer(id))
    }

    fn made_int(&mut self, ends: [u64; 2]) -> Option<Arg> {
        self.made("int", ends.map(Arg::Number).to_vec(), "")
    }

    fn an_int(&mut self) -> Arg {
        let ends = values::range(&mut self.random);
        let made = if self.random.percent(50) { self.made_int(ends) } else { None };
        made.unwrap_or_else(|| self.of_kind(&[5]))
    }

    fn a_float(&mut self) -> Arg {
        let bits = values::float(&mut self.random);
        let made = if self.random.percent(50) { self.made("float", vec![Arg::Number(bits)], "") } else { None };
        made.unwrap_or_else(|| self.of_kind(&[6]))
    }

    /// A type: mostly of a kind for which the call has more than one answer.
    fn asked_type(&mut self, name: &str) -> Arg {
        let often = self.random.percent(75);
        match name {
            "non_zero" if self.random.percent(45) => {
                let ends = values::range_at_zero(&mut self.random);
                self.made_int(ends).unwrap_or_else(|| self.of_kind(&[5]))
            }
            "log_size" if self.random.percent(20) => self.an_int(),
            "is_fref" if self.random.percent(40) => {
                let yes = self.found(|entry| entry.ty().is_some_and(|ty| ty.is_fref()));
                yes.unwrap_or_else(|| self.of_kind(&[8, 9, 10]))
            }
            "is_fref" if often => self.of_kind(&[8, 9, 10]),
            "make_init" | "make_zero" | "is_high" | "is_high_or_constant" | "is_constant" | "log_size" if often => {
                self.of_kind(&[5, 6, 10])
            }
            _ => {
                let place = self.walked();
                self.origins[place]
            }
        }
    }

    /// A struct: one that was just made; one of which the call has something to tell; any; or a forward reference.
    fn asked_struct(&mut self, name: &str) -> Arg {
        let types = self.store().types;
        let of_arrays = ["is_ary", "ary_base", "ary_scale"].contains(&name);
        let found = match self.random.below(100) {
            0..=9 if of_arrays => self.near_array(),
            0..=29 if of_arrays => self.array_with_sizes(),
            0..=24 => self.struct_with_sizes(),
            30..=49 if of_arrays => self.found(|entry| is_array(entry) && has_sized_fields(entry, types)),
            50..=74 if of_arrays => self.found(is_array),
            30..=69 => self.found(|entry| has_sized_fields(entry, types)),
            70..=89 => self.found(|entry| entry.kind == 8 && entry.visits > 1),
            90..=95 => self.found(|entry| entry.kind == 9),
            _ => None,
        };
        found.unwrap_or_else(|| self.of_kind(&[8, 9]))
    }

    fn any_type(&mut self) -> Arg {
        let place = self.a_type();
        self.origins[place]
    }

    /// A type that has a log size: often of the fresh store, which has some of each.
    fn with_size(&mut self) -> Arg {
        let types = self.store().types;
        let from_fresh = self.random.percent(60);
        let place = self.one(|entry| is_sized(entry, types) && (entry.handle < SHORTEST as u64 || !from_fresh));
        self.origins[place]
    }

    /// A struct whose fields all have log sizes; seldom any type is among them.
    fn struct_with_sizes(&mut self) -> Option<Arg> {
        let count = if self.random.percent(4) { self.random.of(&[30, 60, MOST_FIELDS - 1, MOST_FIELDS]) } else { self.random.below(10) };
        let mut args = vec![self.name()];
        for _ in 0..count {
            let alias = Arg::Number(values::alias(&mut self.random));
            args.extend([self.name(), self.with_size(), alias, self.flag()]);
        }
        if count > 0 && self.random.percent(10) {
            args[2 + 4 * self.random.below(count)] = self.any_type();
        }
        self.made("struct", args, "")
    }

    /// An array whose length and body mostly have log sizes.
    fn array_with_sizes(&mut self) -> Option<Arg> {
        let types = self.store().types;
        let (any_length, any_body) = (self.random.percent(15), self.random.percent(15));
        let length = self.one(|entry| entry.kind == 5 && (any_length || is_sized(entry, types)));
        let body = if any_body { self.any_type() } else { self.with_size() };
        let aliases = [(); 2].map(|()| Arg::Number(values::alias(&mut self.random)));
        let text = self.random.of(&["", "a", "u8"]);
        self.made("ary", vec![self.origins[length], aliases[0], body, aliases[1]], text)
    }

    /// A struct that is an array, or has a field too few, too many or of another name.
    fn near_array(&mut self) -> Option<Arg> {
        let names = [self.made("str", vec![], "#")?, self.made("str", vec![], "[]")?, self.name()];
        let count = self.random.of(&[1, 2, 2, 2, 2, 3]);
        let mut args = vec![self.name()];
        for place in 0..count {
            let name = if self.random.percent(60) { names[place.min(1)] } else { self.random.of(&names) };
            let alias = Arg::Number(values::alias(&mut self.random));
            args.extend([name, self.with_size(), alias, self.flag()]);
        }
        self.made("struct", args, "")
    }

    /// A struct, and the name, alias, index or length of the output that goes with it.
    fn struct_and_number(&mut self, name: &str) -> Vec<Arg> {
        let s = self.asked_struct(name);
        let place = self.store().place_of(self.runner.number(s)).expect("a struct has a handle");
        let is_fref = self.store().entries[place].kind == 9;
        let words = self.store().words_at(place).get(2..).filter(|_| !is_fref).unwrap_or(&[]).to_vec();
        let fields: Vec<&[u64]> = words.chunks(3).collect();
        let field = if fields.is_empty() { None } else { Some(self.random.of(&fields)) };
        let second = match name {
            "fields" => Arg::Number(self.output_length(4 * fields.len())),
            "offsets" => Arg::Number(self.output_length(fields.len() + 1)),
            "offset" => Arg::Number(self.index(fields.len())),
            "find_alias" => Arg::Number(self.asked_alias(field.map(|field| field[2] / 2))),
            _ => match field {
                Some(field) if self.random.percent(65) => self.origin_of(field[0]),
                _ => self.name(),
            },
        };
        vec![s, second]
    }

    /// The length of an output for so many words: just enough, one too few, some more; seldom so many that the line is no call.
    fn output_length(&mut self, wanted: usize) -> u64 {
        let length = match self.random.below(48) {
            0..=21 => wanted,
            22..=29 => wanted.saturating_sub(1),
            30..=41 => wanted + self.random.between(1, 5),
            42..=44 => self.random.between(0, wanted),
            45 | 46 => self.random.of(&[0, 100, 300, 1000]),
            _ => return self.random.of(&[MOST_OUTPUT - 1, MOST_OUTPUT, MOST_OUTPUT + 1, 1 << 32, u64::MAX]),
        };
        length as u64
    }

    /// An index for an offset: of a field, of the end, the first that is refused, or far above.
    fn index(&mut self, count: usize) -> u64 {
        let below = self.random.between(0, count) as u64;
        match self.random.below(20) {
            0..=11 => below,
            12..=15 => count as u64,
            16 | 17 => count as u64 + 1,
            18 => count as u64 + self.random.between(2, 300) as u64,
            _ => self.random.of(&[255, 256, (1 << 32) + below, 1 << 63, u64::MAX]),
        }
    }

    /// An alias that a field has, or any, or one that 32 bits would make a field's.
    fn asked_alias(&mut self, there: Option<u64>) -> u64 {
        let other = values::alias(&mut self.random);
        match self.random.below(20) {
            0..=11 => there.unwrap_or(other),
            12 => there.unwrap_or(other) + (1 << 32),
            _ => other,
        }
    }
}
