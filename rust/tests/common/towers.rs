//! Stores with types as deep as there are, and the calls on them that go deepest.
use super::call::Call;
use ferigulan::{fresh, memory_len, Field, Handle, OpenedStore, Refusal, Store};

const DEEPEST: u64 = 32;

/// How a tower is built: what each level is made of.
#[derive(Clone, Copy, Debug)]
pub enum Tower {
    /// a tuple of so many of the level below
    Tuples(usize),
    /// a struct of so many fields of the level below
    Structs(usize),
    /// a struct of so many fields, then a pointer to it, in turn
    Pointers(usize),
    /// a memory type
    Mems,
    /// a struct, a pointer to it, a tuple of that and a memory type, in turn
    Mixed,
}

/// All towers, from the narrowest to the widest: structs of few fields and of many go different ways in the library (8 are few).
pub const TOWERS: [Tower; 14] = [
    Tower::Tuples(1),
    Tower::Tuples(2),
    Tower::Tuples(17),
    Tower::Tuples(255),
    Tower::Structs(1),
    Tower::Structs(2),
    Tower::Structs(9),
    Tower::Structs(255),
    Tower::Pointers(1),
    Tower::Pointers(2),
    Tower::Pointers(9),
    Tower::Pointers(255),
    Tower::Mems,
    Tower::Mixed,
];

/// A store with two towers of one shape, of which one is above the other in the lattice.
pub struct Deep {
    words: Vec<u64>,
    a: Handle,
    b: Handle,
    name: Handle,
}

fn structure(store: &mut Store<'_>, name: Handle, ty: Handle, width: usize) -> Result<Handle, Refusal> {
    let fields: Vec<Field> = (0..width).map(|alias| Field::new(name, ty, alias as u64, false)).collect();
    store.get_struct(name, Field::words(&fields))
}

fn level(store: &mut Store<'_>, tower: Tower, height: u64, name: Handle, below: Handle) -> Result<Handle, Refusal> {
    match (tower, height % 4) {
        (Tower::Tuples(width), _) => store.get_tuple(&vec![below; width]),
        (Tower::Structs(width), _) => structure(store, name, below, width),
        (Tower::Pointers(width), 1 | 3) => structure(store, name, below, width),
        (Tower::Pointers(_), _) => store.get_mem_ptr(below, false),
        (Tower::Mems, _) => store.get_mem(1_u32, below),
        (Tower::Mixed, 1) => structure(store, name, below, 2),
        (Tower::Mixed, 2) => store.get_mem_ptr(below, false),
        (Tower::Mixed, 3) => store.get_tuple(&[below, below]),
        (Tower::Mixed, _) => store.get_mem(1_u32, below),
    }
}

/// As high as there is room for, and at most 32 levels: the ground is one.
fn tower(store: &mut Store<'_>, tower: Tower, name: Handle, ground: Handle, most: u64) -> (Handle, u64) {
    let (mut top, mut height) = (ground, 1);
    while height < most {
        match level(store, tower, height, name, top) {
            Ok(handle) => top = handle,
            Err(_) => break,
        }
        height += 1;
    }
    (top, height)
}

/// The deep store of this length and shape. Where there is no room for two towers of 32 levels and their meet, they are as high as a third
/// of the room allows each.
pub fn deep(length: usize, shape: Tower) -> Deep {
    let mut words = vec![0; length];
    let (a, b, name) = match grounds(&mut words) {
        Ok((name, low, high)) => {
            let most = room(length, shape);
            let mut store = Store::from_words(&mut words).expect("the grounds' store");
            let (a, height) = tower(&mut store, shape, name, low, most);
            let (b, _) = tower(&mut store, shape, name, high, height);
            (a, b, name)
        }
        // a list without room for more than the fresh types
        Err(_) => (fresh::IF_BOTH, fresh::IF_NEITHER, fresh::NAME_TOP),
    };
    Deep { words, a, b, name }
}

fn grounds(words: &mut [u64]) -> Result<(Handle, Handle, Handle), Refusal> {
    let mut store = Store::fresh(words)?;
    Ok((store.get_str(b"s")?, store.make_int(0, 7)?, store.make_int(4, 9)?))
}

/// How many levels have room in a third of what the list has left.
fn room(length: usize, shape: Tower) -> u64 {
    let mut words = vec![0; 94 + (length - 94) / 3];
    match grounds(&mut words) {
        Ok((name, low, _)) => {
            let mut store = Store::from_words(&mut words).expect("the grounds' store");
            tower(&mut store, shape, name, low, DEEPEST).1
        }
        Err(_) => 1,
    }
}

/// How many words an opened store's memory is lent: as many as the walks over these towers find enough, or none.
pub fn memory_lengths(length: usize) -> [usize; 2] {
    [memory_len(length).min(49_152), 0]
}

impl Deep {
    pub fn words(&self) -> &[u64] {
        &self.words
    }

    /// What `work` makes of the words. What it appends is taken back, so that the next call finds the same store.
    pub fn plain<T>(&mut self, work: impl FnOnce(&mut [u64]) -> T) -> T {
        let used = self.words[0] as usize;
        let told = work(&mut self.words);
        let end = self.words[0] as usize;
        self.words[used..end].fill(0);
        self.words[0] = used as u64;
        told
    }

    /// What `work` makes of the store, opened with these lists.
    pub fn opened<T>(&mut self, index: &mut [u64], memory: &mut [u64], work: impl FnOnce(&mut OpenedStore<'_>) -> T) -> T {
        self.plain(|words| {
            let mut store = Store::from_words(words).expect("a deep store");
            let mut opened = store.open(index, memory).expect("an index that is long enough");
            work(&mut opened)
        })
    }

    /// The calls of every kind that go deep, or that are lent as much as there can be.
    pub fn calls(&self) -> Vec<Call> {
        let (a, b) = (self.a, self.b);
        let mut all = vec![Call::Meet(a, b), Call::Meet(b, a), Call::Isa(a, b), Call::Isa(b, a), Call::Join(a, b), Call::Join(b, a)];
        all.extend([vec![a, b], vec![b, a, b], vec![fresh::INT_U8; 4_096]].map(Call::MeetList));
        for t in [a, b] {
            all.extend([Call::Dual, Call::Glb, Call::Lub, Call::IsFinal, Call::MakeRo, Call::NonZero].map(|call| call(t)));
        }
        all.extend(told_of_a_type(a));
        all.extend(self.told_of_structs());
        all.extend(self.makers());
        all
    }

    fn makers(&self) -> Vec<Call> {
        let fields = [self.name.word(), fresh::INT_U8.word(), 1, 1].repeat(255);
        vec![
            Call::GetBool(1),
            Call::GetInt(1 << 40),
            Call::MakeInt(-7, 1 << 40),
            Call::GetFloat(0.1_f64.to_bits()),
            Call::MakeFloat(0, 0.2_f64.to_bits()),
            Call::GetTuple(vec![fresh::INT_U8; 255]),
            Call::GetTuple(vec![fresh::INT_U8; 3]),
            Call::GetStr(vec![b'x'; 255]),
            Call::GetStruct(self.name, fields.clone()),
            Call::GetStruct(self.name, fields[..16].to_vec()),
            Call::MakeAry(fresh::INT_U32, 1, fresh::INT_U8, 2, vec![b'x'; 253]),
            Call::MakeStructFref(self.name),
            Call::GetMemPtr(fresh::STRUCT_BOT, 1),
            Call::GetMem(3, self.a),
        ]
    }

    fn told_of_structs(&self) -> Vec<Call> {
        [fresh::STRUCT_TOP, self.a, self.b]
            .into_iter()
            .flat_map(|s| {
                [
                    Call::StructName(s),
                    Call::StructFields(s, 4 * 255),
                    Call::Find(s, fresh::NAME_TOP),
                    Call::FindAlias(s, 1 << 20),
                    Call::IsAry(s),
                    Call::Offset(s, 0),
                    Call::Offsets(s, 256),
                    Call::AryBase(s),
                    Call::AryScale(s),
                ]
            })
            .collect()
    }
}

fn told_of_a_type(a: Handle) -> Vec<Call> {
    let mut all = vec![Call::FloatValue(fresh::FLOAT_ZERO), Call::FloatReading(fresh::FLOAT_ZERO), Call::FloatSz(fresh::FLOAT_ZERO)];
    all.extend([Call::FloatIsF32(fresh::FLOAT_ZERO), Call::MakeZero(fresh::PTR_BOT), Call::Kind(a), Call::MakeInit(a)]);
    all.extend([Call::IsHigh(a), Call::IsHighOrConstant(a), Call::IsConstant(a), Call::IsFref(a), Call::LogSize(fresh::INT_U8)]);
    all.extend([Call::IntMin, Call::IntMax, Call::IntValue, Call::IntMask].map(|call| call(fresh::INT_I32)));
    all
}
