//! type_integer.rs: what an Int is asked.

use crate::entry::Handle;
use crate::kind::Kinds;
use crate::refusals::{take, Refusal};
use crate::store::Store;
use crate::types::Type;

/// An Int that is asked for something, by its ends: rows 2 and 3.
pub fn asked(store: &Store, a: Handle) -> Result<(i64, i64), Refusal> {
    take(store, [(a, Kinds::INTS)])?;
    match store.ty(a) {
        Type::Int { min, max } => Ok((min, max)),
        _ => Err(3),
    }
}

pub fn value((min, max): (i64, i64)) -> Option<i64> {
    (min == max).then_some(min)
}

/// "bit k is 1 exactly if some number of the range has bit k; high ranges 0"
pub fn mask((min, max): (i64, i64)) -> i64 {
    if min > max {
        return 0;
    }
    let differing = min ^ max;
    if differing == 0 {
        return min;
    }
    // Above the highest bit in which the ends differ all numbers of the range agree. It and the bits below it are all in some number:
    // in the last one without it, or in the first one with it.
    let highest = 1i64 << (63 - differing.leading_zeros());
    // "takes the highest differing bit less one, wrapping at 64 bits"
    min | highest | highest.wrapping_sub(1)
}

#[cfg(test)]
mod tests {
    use super::mask;

    #[test]
    fn each_bit_is_in_some_number_of_the_range() {
        for min in -70i64..70 {
            for max in -70..70 {
                let of_all = (min..=max).fold(0, |bits, number| bits | number);
                assert_eq!(mask((min, max)), of_all, "{min}..{max}");
            }
        }
    }

    #[test]
    fn ends_far_apart() {
        assert_eq!(mask((i64::MIN, i64::MAX)), -1);
        assert_eq!(mask((i64::MAX, i64::MIN)), 0);
        assert_eq!(mask((0, i64::MAX)), i64::MAX);
        assert_eq!(mask((i64::MIN, i64::MIN + 1)), i64::MIN + 1);
        assert_eq!(mask((i64::MIN, -1)), -1);
    }
}
