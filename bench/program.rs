// A store as a compiler fills it: classes come in families of two. First stands what is declared, class by class, then what an analysis found of each, and then what
// it found the second time.
//
// The first class of a family has two fields, an Int and a Float; a forward reference to it, with a pointer, was made before it. The second has four: an Int, a Float, a pointer to the
// first and a flag. A declared field has a type of the fresh store. With the second class stands an array of bytes.
//
// Found are, for each class: a range, a constant Int and a constant Float, the struct of the range, the Float and so on, a pointer to it, a memory of the first field's alias and
// the range, and a tuple of control, memory and pointer. So two types that were found of one class have the same names and aliases, and meet into their fields.
use crate::built::Built;

// Handles of the fresh store: control, false, the flags, i32, and the Floats of 32 and of 64 bits.
const CTRL: u64 = 7;
const FALSE: u64 = 9;
const FLAG: u64 = 15;
pub const I32: u64 = 37;
const F32: u64 = 58;
const F64: u64 = 61;

#[derive(Clone, Copy)]
pub struct Found {
    pub int: u64,
    pub constant: u64,
    pub float: u64,
    pub structure: u64,
    pub pointer: u64,
    pub memory: u64,
    pub tuple: u64,
}

impl Found {
    // The types of all kinds.
    pub fn types(&self) -> [u64; 6] {
        [self.int, self.float, self.structure, self.pointer, self.memory, self.tuple]
    }
}

#[derive(Clone, Copy)]
pub struct Class {
    // its number among all
    pub number: u64,
    pub name: u64,
    pub fref: Option<u64>,
    pub structure: u64,
    pub pointer: u64,
}

impl Class {
    fn is_first(&self) -> bool {
        self.number % 2 == 0
    }

    pub fn fields(&self) -> u64 {
        if self.is_first() {
            2
        } else {
            4
        }
    }

    // What is declared as its Float.
    pub fn size(&self) -> u64 {
        if self.is_first() {
            F32
        } else {
            F64
        }
    }

    // Aliases that no other class has; those of its fields are the first.
    pub fn alias(&self, i: u64) -> u64 {
        16 * self.number + i + 1
    }

    // From here on nine numbers are this class's.
    pub fn from(&self) -> u64 {
        100 + 9 * self.number
    }
}

pub struct Program {
    pub built: Built,
    pub classes: Vec<Class>,
    // of each class, the first time and the second
    pub found: [Vec<Found>; 2],
    pub arrays: Vec<u64>,
    pub field_names: [u64; 4],
}

// The words of a family, and of all that stands before the first.
const FAMILY: usize = 165;
const BEFORE: usize = 94 + 14;

impl Program {
    // How many families leave so much room in a list; at least so many are wanted.
    pub fn families(len: usize, room: usize, least: usize) -> usize {
        let families = len.saturating_sub(BEFORE + room) / FAMILY;
        assert!(families >= least, "a list of {len} words is too short for a program and its answers");
        families
    }

    // The length of a list with so many families and so much room.
    pub fn length(families: usize, room: usize) -> usize {
        BEFORE + FAMILY * families + room
    }

    pub fn new(len: usize, families: usize) -> Program {
        let mut built = Built::fresh(len);
        let field_names = ["x", "y", "next", "flag"].map(|text| built.name(text));
        let array = built.array_names();
        let mut p = Program { built, classes: Vec::new(), found: [Vec::new(), Vec::new()], arrays: Vec::new(), field_names };
        for family in 0..families as u64 {
            p.declare(2 * family);
            p.declare(2 * family + 1);
            p.arrays.push(p.built.array(array, family));
        }
        for time in 0..2 {
            for class in p.classes.clone() {
                let found = p.find(class, time);
                p.found[time].push(found);
            }
        }
        assert_eq!(p.built.used(), Program::length(families, 0));
        p
    }

    // A struct of a class with these types, of which the first class of a family has two; the second and the fourth field are final.
    fn struct_of(&mut self, class: Class, types: [u64; 4]) -> u64 {
        let fields = (0..class.fields()).flat_map(|i| [self.field_names[i as usize], types[i as usize], class.alias(i), i % 2]);
        let fields: Vec<u64> = fields.collect();
        self.built.structure(class.name, &fields)
    }

    fn declare(&mut self, number: u64) {
        let name = self.built.name(&format!("c{number:07}"));
        let mut class = Class { number, name, fref: None, structure: 0, pointer: 0 };
        if class.is_first() {
            let fref = self.built.fref(name);
            self.built.pointer(fref, 1);
            class.fref = Some(fref);
        }
        let next = self.classes.last().map_or(0, |first| first.pointer);
        class.structure = self.struct_of(class, [I32, class.size(), next, FLAG]);
        class.pointer = self.built.pointer(class.structure, 1);
        self.classes.push(class);
    }

    fn find(&mut self, class: Class, time: usize) -> Found {
        let (k, x) = (class.from(), class.number as f64);
        let ((min, max), float) = match (time, class.is_first()) {
            (0, true) => ((0, k + 7), 1000.5 + x),
            (0, false) => ((k, k + 7), 1000.5 + x),
            // no single precision holds the second
            (_, true) => ((k + 4, k + 11), 2_000_000.25 + x),
            (_, false) => ((k + 4, k + 11), 1000.1 + x),
        };
        let next = self.found[time].last().map_or(0, |first| first.pointer);
        let b = &mut self.built;
        let (int, constant, float) = (b.int(min, max), b.int(k + 1 + 4 * time as u64, k + 1 + 4 * time as u64), b.float(float));
        let structure = self.struct_of(class, [int, float, next, if time == 0 { FALSE } else { FLAG }]);
        let b = &mut self.built;
        let pointer = b.pointer(structure, time as u64);
        let memory = b.memory(class.alias(0), int);
        let tuple = b.tuple(&[CTRL, memory, pointer]);
        Found { int, constant, float, structure, pointer, memory, tuple }
    }
}
