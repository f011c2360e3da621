//! The handles. The Rust's types are references without a number; here each gets the handle that document 01's store gives it, and the
//! words of its entry, so that answers and stores can be compared word by word. Nothing here decides what a call answers.

use original::sea_of_nodes::types::{Field, Ty, Type, Types};
use std::collections::HashMap;

/// What an entry stands for: a name, or one of the Rust's types.
#[derive(Clone, Copy)]
pub enum Held<'t> {
    Name(&'t str),
    Type(Ty<'t>),
}

/// An entry of the store.
#[derive(Clone, Copy)]
pub struct Entry<'t> {
    pub handle: u64,
    pub kind: u8,
    pub depth: u64,
    pub held: Held<'t>,
    /// How many types a walk over the whole entry meets if it visits shared parts again and again, as the Rust's walks do.
    pub visits: u64,
    /// Whether it is a memory type or a forward reference, or has one among its parts, or theirs.
    pub reaches_mem_or_fref: bool,
}

impl<'t> Entry<'t> {
    pub fn ty(&self) -> Option<Ty<'t>> {
        match self.held {
            Held::Type(ty) => Some(ty),
            Held::Name(_) => None,
        }
    }

    pub fn name(&self) -> Option<&'t str> {
        match self.held {
            Held::Name(name) => Some(name),
            Held::Type(_) => None,
        }
    }
}

pub const SHORTEST: usize = 94;
pub const LONGEST: usize = 1_048_576;

pub struct Store<'a, 't> {
    pub types: &'a Types<'t>,
    /// How many words the lent list has.
    pub length: usize,
    /// The used words; word 0 is their number.
    pub words: Vec<u64>,
    pub entries: Vec<Entry<'t>>,
    place: HashMap<u64, usize>,
    handle_of_type: HashMap<Ty<'t>, u64>,
    handle_of_name: HashMap<&'t str, u64>,
}

impl<'a, 't> Store<'a, 't> {
    /// The fresh store of document 01 in a list of this length.
    pub fn fresh(types: &'a Types<'t>, length: usize) -> Self {
        let mut store = Store {
            types,
            length,
            words: vec![0],
            entries: Vec::new(),
            place: HashMap::new(),
            handle_of_type: HashMap::new(),
            handle_of_name: HashMap::new(),
        };
        for (handle, held) in fresh_entries(types) {
            assert_eq!(store.register(held), handle, "an entry of the fresh store is not at its place");
        }
        store.words[0] = store.words.len() as u64;
        assert_eq!(store.words.len(), SHORTEST);
        store
    }

    pub fn entry(&self, handle: u64) -> Option<&Entry<'t>> {
        self.place_of(handle).map(|i| &self.entries[i])
    }

    /// Where in `entries` the entry of a handle is, if it starts one.
    pub fn place_of(&self, handle: u64) -> Option<usize> {
        self.place.get(&handle).copied()
    }

    /// The handle of a name or type that has one.
    pub fn handle_of(&self, held: Held<'t>) -> u64 {
        match held {
            Held::Name(name) => self.handle_of_name[name],
            Held::Type(ty) => self.handle_of_type[&ty],
        }
    }

    /// The words of an entry, its head included.
    pub fn words_at(&self, place: usize) -> &[u64] {
        let start = self.entries[place].handle as usize;
        let end = self.entries.get(place + 1).map_or(self.words.len(), |next| next.handle as usize);
        &self.words[start..end]
    }

    /// Gives handles to what a call made, in the order of its making, and hands back the last one's; or takes all of them back and gives
    /// nothing where they do not fit the list: row 12.
    pub fn append(&mut self, made: &[Held<'t>]) -> Option<u64> {
        let before = self.entries.len();
        let mut answer = 0;
        for held in made {
            answer = self.register(*held);
        }
        if self.words.len() > self.length {
            self.take_back(before);
            return None;
        }
        self.words[0] = self.words.len() as u64;
        Some(answer)
    }

    fn take_back(&mut self, before: usize) {
        self.words.truncate(self.entries[before].handle as usize);
        for entry in self.entries.drain(before..) {
            self.place.remove(&entry.handle);
            match entry.held {
                Held::Name(name) => self.handle_of_name.remove(name),
                Held::Type(ty) => self.handle_of_type.remove(&ty),
            };
        }
    }

    /// The handle of a name or type. Where it has none yet its parts get theirs first, left to right, and then it gets the next one.
    fn register(&mut self, held: Held<'t>) -> u64 {
        match held {
            Held::Name(name) => self.register_name(name),
            Held::Type(ty) => self.register_type(ty),
        }
    }

    fn register_name(&mut self, name: &'t str) -> u64 {
        if let Some(handle) = self.handle_of_name.get(name) {
            return *handle;
        }
        let words = name.as_bytes().chunks(8).map(|chunk| {
            let mut bytes = [0; 8];
            bytes[..chunk.len()].copy_from_slice(chunk);
            u64::from_le_bytes(bytes)
        });
        let handle = self.push(0, name.len(), words.collect(), Held::Name(name), &[]);
        self.handle_of_name.insert(name, handle);
        handle
    }

    fn register_type(&mut self, ty: Ty<'t>) -> u64 {
        if let Some(handle) = self.handle_of_type.get(&ty) {
            return *handle;
        }
        let parts = parts_of(ty);
        let handles: Vec<u64> = parts.iter().map(|part| self.register_type(*part)).collect();
        let (kind, n, words) = self.words_of(ty, &handles);
        let handle = self.push(kind, n, words, Held::Type(ty), &handles);
        self.handle_of_type.insert(ty, handle);
        handle
    }

    /// The kind of a type, the n of its head and the words after it: document 01's table.
    fn words_of(&self, ty: Ty<'t>, parts: &[u64]) -> (u8, usize, Vec<u64>) {
        match ty.data() {
            Type::Bot | Type::Top | Type::Ctrl | Type::XCtrl => (kind_of(ty), 0, vec![]),
            Type::Int(i) => (5, 0, vec![i.min as u64, i.max as u64]),
            Type::Float(f) => (6, 0, vec![(i64::from(f.sz) + 64) as u64, f.con().to_bits()]),
            Type::Tuple(_) => (7, parts.len(), parts.to_vec()),
            Type::Struct(s) => match s.fields {
                Some(fields) => (8, fields.len(), self.struct_words(s.name, fields, parts)),
                None => (9, 0, vec![self.handle_of_name[s.name]]),
            },
            Type::MemPtr(p) => (10, 0, vec![parts[0], u64::from(p.nil)]),
            Type::Mem(m) => (11, 0, vec![u64::from(m.alias), parts[0]]),
        }
    }

    /// The names of a struct were made before it: a maker was given their handles, and a met struct has its operands' names.
    fn struct_words(&self, name: &str, fields: &[Field], types: &[u64]) -> Vec<u64> {
        let mut words = vec![self.handle_of_name[name]];
        for (field, ty) in fields.iter().zip(types) {
            let last = 2 * u64::from(field.alias) + u64::from(field.final_field);
            words.extend([self.handle_of_name[field.fname], *ty, last]);
        }
        words
    }

    /// Appends an entry around these types. A name has depth 0 and is visited by no walk.
    fn push(&mut self, kind: u8, n: usize, words: Vec<u64>, held: Held<'t>, types: &[u64]) -> u64 {
        let handle = self.words.len() as u64;
        let own = u64::from(kind > 0);
        let inner = types.iter().map(|part| self.entry(*part).unwrap());
        let depth = own + inner.clone().map(|entry| entry.depth).max().unwrap_or(0);
        let visits = inner.clone().fold(own, |sum, entry| sum.saturating_add(entry.visits));
        let reaches_mem_or_fref = [9, 11].contains(&kind) || inner.clone().any(|entry| entry.reaches_mem_or_fref);
        self.words.push(u64::from(kind) + 256 * depth + 65_536 * n as u64);
        self.words.extend(words);
        self.place.insert(handle, self.entries.len());
        self.entries.push(Entry { handle, kind, depth, held, visits, reaches_mem_or_fref });
        handle
    }
}

/// Document 01's number for the kind of a type.
pub fn kind_of(ty: Ty) -> u8 {
    match ty.data() {
        Type::Bot => 1,
        Type::Top => 2,
        Type::Ctrl => 3,
        Type::XCtrl => 4,
        Type::Int(_) => 5,
        Type::Float(_) => 6,
        Type::Tuple(_) => 7,
        Type::Struct(s) => match s.fields {
            Some(_) => 8,
            None => 9,
        },
        Type::MemPtr(_) => 10,
        Type::Mem(_) => 11,
    }
}

/// The types within a type, left to right.
pub fn parts_of<'t>(ty: Ty<'t>) -> Vec<Ty<'t>> {
    match ty.data() {
        Type::Tuple(types) => types.to_vec(),
        Type::Struct(s) => s.fields.unwrap_or(&[]).iter().map(|field| field.ty).collect(),
        Type::MemPtr(p) => vec![*p.to],
        Type::Mem(m) => vec![m.t],
        _ => vec![],
    }
}

/// The fresh store's entries with their handles, as document 01 lists them.
fn fresh_entries<'t>(types: &Types<'t>) -> Vec<(u64, Held<'t>)> {
    let mut all = vec![(1, Held::Name("$TOP")), (3, Held::Name("$BOT"))];
    let listed = [
        (5, types.bot),
        (6, types.top),
        (7, types.ctrl),
        (8, types.xctrl),
        (9, *types.int_zero),
        (12, *types.int_one),
        (15, *types.int_bool),
        (18, *types.struct_top),
        (20, *types.struct_bot),
        (22, *types.int_top),
        (25, *types.int_bot),
        (28, *types.int_two),
        (31, *types.int_i8),
        (34, *types.int_i16),
        (37, *types.int_i32),
        (40, *types.int_u8),
        (43, *types.int_u16),
        (46, *types.int_u32),
        (49, *types.float_top),
        (52, *types.float_t32),
        (55, *types.float_zero),
        (58, *types.float_b32),
        (61, *types.float_bot),
        (64, *types.if_both),
        (67, *types.if_neither),
        (70, *types.if_true),
        (73, *types.if_false),
        (76, *types.mem_top),
        (79, *types.mem_bot),
        (82, *types.ptr_bot),
        (85, *types.ptr_top),
        (88, *types.ptr_null),
        (91, *types.ptr_void),
    ];
    all.extend(listed.map(|(handle, ty)| (handle, Held::Type(ty))));
    all
}
