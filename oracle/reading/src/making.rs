//! The words of the entries that makers and operations make. Rows 2 to 11 are the caller's to test; making itself can only give 12.

use crate::entry::{head, name_words, right_depth, Handle};
use crate::kind;
use crate::refusals::Made;
use crate::store::Store;
use crate::types::Field;

impl Store<'_> {
    /// Makes an entry of its kind, its n and the words after its head.
    fn make_entry(&mut self, kind: u8, n: usize, after: &[u64]) -> Made {
        let mut entry = vec![head(kind, 0, n)];
        entry.extend(after);
        entry[0] = head(kind, right_depth(self.words(), &entry), n);
        self.make(&entry)
    }

    pub fn make_name(&mut self, bytes: &[u8]) -> Made {
        self.make_entry(kind::NAME, bytes.len(), &name_words(bytes))
    }

    pub fn make_int(&mut self, min: i64, max: i64) -> Made {
        self.make_entry(kind::INT, 0, &[min as u64, max as u64])
    }

    pub fn make_float(&mut self, sz: i64, bits: u64) -> Made {
        self.make_entry(kind::FLOAT, 0, &[(sz + 64) as u64, bits])
    }

    pub fn make_tuple(&mut self, types: &[Handle]) -> Made {
        self.make_entry(kind::TUPLE, types.len(), types)
    }

    pub fn make_struct(&mut self, name: Handle, fields: &[Field]) -> Made {
        let mut after = vec![name];
        for f in fields {
            after.extend([f.fname, f.ty, 2 * f.alias + u64::from(f.final_field)]);
        }
        self.make_entry(kind::STRUCT, fields.len(), &after)
    }

    pub fn make_fref(&mut self, name: Handle) -> Made {
        self.make_entry(kind::FREF, 0, &[name])
    }

    pub fn make_ptr(&mut self, to: Handle, nil: bool) -> Made {
        self.make_entry(kind::MEM_PTR, 0, &[to, u64::from(nil)])
    }

    pub fn make_mem(&mut self, alias: u64, t: Handle) -> Made {
        self.make_entry(kind::MEM, 0, &[alias, t])
    }
}
