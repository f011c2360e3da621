//! Random calls: on handles that earlier ones answered, and now and then on words that no call takes.
use super::call::{Call, Told};
use super::random::Random;
use ferigulan::{fresh, Handle};

pub struct Play {
    random: Random,
    types: Vec<Handle>,
    names: Vec<Handle>,
    /// what is built higher and higher, so that depth 32 is come to
    tower: Handle,
}

const NUMBERS: [i64; 12] = [0, 1, 2, 7, 8, -1, -4, 300, 1 << 40, i64::MAX, i64::MIN, -128];
const FLOATS: [f64; 9] = [0.0, -0.0, 0.5, 0.25, 0.1, f64::INFINITY, f64::NAN, 1e300, 3.0];
const SIZES: [i64; 7] = [0, 32, 64, -32, -64, 16, 200];
const TEXTS: [&[u8]; 6] = [b"", b"S", b"T", b"field", b"\xff no UTF-8", b"[]"];
const CHOICES: usize = 51;

impl Play {
    pub fn new(seed: u64) -> Play {
        let types = [5, 6, 7, 8, 9, 15, 18, 20, 22, 25, 37, 40, 43, 49, 55, 58, 61, 64, 76, 79, 82, 85, 88, 91].map(Handle::new).to_vec();
        Play { random: Random::new(seed), types, names: vec![fresh::NAME_TOP, fresh::NAME_BOT], tower: fresh::INT_U8 }
    }

    /// Takes note of a handle that a call answered.
    pub fn learn(&mut self, call: &Call, told: Told) {
        let Ok([1, word]) = told else { return };
        if self.is_storey(call) {
            self.tower = Handle::new(word);
        }
        match call {
            Call::GetStr(_) => self.names.push(Handle::new(word)),
            _ if call.appends() => self.types.push(Handle::new(word)),
            _ => {}
        }
    }

    /// Whether a call builds one level more around the tower.
    fn is_storey(&self, call: &Call) -> bool {
        match call {
            Call::GetTuple(types) => types[..] == [self.tower],
            Call::GetStruct(_, fields) => fields.len() == 4 && fields[1] == self.tower.word(),
            _ => false,
        }
    }

    fn storey(&mut self) -> Call {
        match self.random.below(2) {
            0 => Call::GetTuple(vec![self.tower]),
            _ => Call::GetStruct(fresh::NAME_TOP, vec![fresh::NAME_TOP.word(), self.tower.word(), 1, 1]),
        }
    }

    /// Now and then any word, or an entry of the wrong kind; else one of the handles, the latest more often.
    fn handle_of(&mut self, handles: &[Handle]) -> Handle {
        match self.random.below(40) {
            0 => Handle::new(self.random.word() % 300),
            1 => Handle::new(self.random.word()),
            2 => fresh::NAME_TOP,
            3 | 4 => self.tower,
            n if n < 20 => handles[handles.len() - 1 - self.random.below(handles.len().min(8))],
            _ => self.random.of(handles),
        }
    }

    fn a_type(&mut self) -> Handle {
        let types = std::mem::take(&mut self.types);
        let chosen = self.handle_of(&types);
        self.types = types;
        chosen
    }

    fn name(&mut self) -> Handle {
        let names = std::mem::take(&mut self.names);
        let chosen = self.handle_of(&names);
        self.names = names;
        chosen
    }

    fn alias(&mut self) -> u64 {
        self.random.of(&[0, 1, 2, 3, 4_294_967_295, 4_294_967_296, 1, 2])
    }

    fn flag(&mut self) -> u64 {
        self.random.of(&[0, 1, 0, 1, 0, 1, 0, 2])
    }

    fn text(&mut self) -> Vec<u8> {
        match self.random.below(30) {
            0 => vec![b'x'; 253 + self.random.below(4)],
            _ => self.random.of(&TEXTS).to_vec(),
        }
    }

    /// Now and then 255 of one, or one more, or one less.
    fn many(&mut self) -> Option<usize> {
        (self.random.below(30) == 0).then(|| 254 + self.random.below(3))
    }

    fn field(&mut self) -> [u64; 4] {
        [self.name().word(), self.a_type().word(), self.alias(), self.flag()]
    }

    fn fields(&mut self) -> Vec<u64> {
        let mut words = match self.many() {
            Some(count) => self.field().repeat(count),
            None => (0..self.random.below(4)).flat_map(|_| self.field()).collect(),
        };
        if self.random.below(20) == 0 {
            words.pop();
        }
        words
    }

    fn tuple(&mut self) -> Vec<Handle> {
        match self.many() {
            Some(count) => vec![self.a_type(); count],
            None => (0..self.random.below(4)).map(|_| self.a_type()).collect(),
        }
    }

    /// Now and then one type as often as is allowed, or once more.
    fn merged(&mut self) -> Vec<Handle> {
        match self.random.below(30) {
            0 => vec![self.a_type(); 4_096 + self.random.below(2)],
            _ => (0..self.random.below(7)).map(|_| self.a_type()).collect(),
        }
    }

    fn number(&mut self) -> i64 {
        self.random.of(&NUMBERS)
    }

    fn bits(&mut self) -> u64 {
        self.random.of(&FLOATS).to_bits()
    }

    fn length(&mut self) -> usize {
        self.random.of(&[0, 1, 3, 4, 8, 9, 12, 1020])
    }

    /// Any call.
    pub fn call(&mut self) -> Call {
        match self.random.below(CHOICES) {
            0 => Call::GetBool(self.flag()),
            1 => Call::GetInt(self.number()),
            2 => Call::MakeInt(self.number(), self.number()),
            3 => Call::GetFloat(self.bits()),
            4 => Call::MakeFloat(self.random.of(&SIZES), self.random.of(&[0, 0, 1])),
            5 => Call::GetTuple(self.tuple()),
            6 => Call::GetStr(self.text()),
            7 => Call::GetStruct(self.name(), self.fields()),
            8 => Call::MakeAry(self.a_type(), self.alias(), self.a_type(), self.alias(), self.text()),
            9 => Call::MakeAry(fresh::INT_U32, 1, fresh::INT_I16, 2, self.text()),
            10 => Call::MakeStructFref(self.name()),
            11 => Call::GetMemPtr(self.a_type(), self.flag()),
            12 => Call::GetMem(self.alias(), self.a_type()),
            13 => Call::Find(self.a_type(), self.name()),
            14 => Call::FindAlias(self.a_type(), self.alias()),
            15 => Call::StructFields(self.a_type(), self.length()),
            16 => Call::Offset(self.a_type(), self.random.word() % 4),
            17 => Call::Offsets(self.a_type(), self.length()),
            18 => Call::Meet(self.a_type(), self.a_type()),
            19 => Call::Isa(self.a_type(), self.a_type()),
            20 => Call::Join(self.a_type(), self.a_type()),
            21 | 22 => self.storey(),
            23 => Call::MakeAry(fresh::INT_U32, 1, self.a_type(), 2, self.text()),
            24 => Call::MeetList(self.merged()),
            _ => {
                let a = self.a_type();
                self.of_one(a)
            }
        }
    }

    fn of_one(&mut self, a: Handle) -> Call {
        let calls = [
            Call::Kind,
            Call::Dual,
            Call::Glb,
            Call::Lub,
            Call::IsFinal,
            Call::MakeRo,
            Call::MakeInit,
            Call::MakeZero,
            Call::NonZero,
            Call::IsHigh,
            Call::IsHighOrConstant,
            Call::IsConstant,
            Call::IsFref,
            Call::LogSize,
            Call::IntMin,
            Call::IntMax,
            Call::IntValue,
            Call::IntMask,
            Call::FloatSz,
            Call::FloatIsF32,
            Call::FloatValue,
            Call::FloatReading,
            Call::StructName,
            Call::IsAry,
            Call::AryBase,
            Call::AryScale,
        ];
        self.random.of(&calls)(a)
    }
}
