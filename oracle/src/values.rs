//! Values by chance: numbers, floats, names and sizes, with those at the edges more often than their share.

use crate::random::Random;

const INT_EDGES: &[i64] = &[
    i64::MIN,
    i64::MIN + 1,
    -(1 << 32),
    -(1 << 31) - 1,
    -(1 << 31),
    -32769,
    -32768,
    -129,
    -128,
    -1,
    0,
    1,
    2,
    127,
    128,
    255,
    256,
    300,
    32767,
    65535,
    65536,
    (1 << 31) - 1,
    (1 << 32) - 1,
    1 << 32,
    i64::MAX - 1,
    i64::MAX,
];

/// An Int's end, as a word.
pub fn int(random: &mut Random) -> u64 {
    match random.below(4) {
        0 => random.of(INT_EDGES) as u64,
        1 | 2 => (random.below(21) as u64).wrapping_sub(10),
        _ => random.word() >> random.below(64),
    }
}

/// The ends of an Int that has a mask to think about: about a power of two, with the same bits above some place, all numbers with the same
/// bits above it, across zero; a constant or any; now and then high.
pub fn range(random: &mut Random) -> [u64; 2] {
    let below = (1u64 << random.below(64)) - 1;
    let word = (random.word() as i64 >> random.below(64)) as u64;
    let near = |random: &mut Random, n: u64| n.wrapping_add(random.below(5) as u64).wrapping_sub(2);
    let power = if random.percent(30) { (below + 1).wrapping_neg() } else { below + 1 };
    let ends = match random.below(8) {
        0 => [near(random, power), near(random, power)],
        1 | 2 => [(); 2].map(|()| (word & !below) | (random.word() & below)),
        3 => [word & !below, word | below],
        4 => [near(random, word & !below), near(random, word | below)],
        5 => [(random.word() >> (1 + random.below(63))).wrapping_neg(), random.word() >> (1 + random.below(63))],
        6 => [word; 2],
        _ => [int(random), int(random)],
    };
    let is_high = random.percent(12);
    if (ends[0] as i64 > ends[1] as i64) != is_high {
        return [ends[1], ends[0]];
    }
    ends
}

/// The ends of an Int with 0 at one of them, or beside them.
pub fn range_at_zero(random: &mut Random) -> [u64; 2] {
    let (zero, other) = (random.of(&[0, 0, 0, 0, 1, u64::MAX]), int(random));
    random.of(&[[zero, other], [other, zero]])
}

const FLOAT_EDGES: &[u64] = &[
    0,
    1 << 63,               // -0.0
    1,                     // the smallest subnormal
    (1 << 63) | 1,         // and its negative
    0x000f_ffff_ffff_ffff, // the largest subnormal
    0x0010_0000_0000_0000, // the smallest normal
    0x3690_0000_0000_0000, // 2^-150: no single
    0x36a0_0000_0000_0000, // 2^-149: the smallest subnormal single
    0x36a8_0000_0000_0000, // 1.5 * 2^-149: between two singles
    0x380f_ffff_c000_0000, // the largest subnormal single
    0x3810_0000_0000_0000, // 2^-126: the smallest normal single
    0x47ef_ffff_e000_0000, // the largest single
    0x47ef_ffff_e000_0001, // above it, rounded down to it
    0x47ef_ffff_f000_0000, // rounded up to infinity
    0x47f0_0000_0000_0000, // 2^128
    0x7fef_ffff_ffff_ffff, // the largest double
    0x7ff0_0000_0000_0000, // infinities
    0xfff0_0000_0000_0000,
    0x7ff0_0000_0000_0001, // NaNs, signalling and quiet, of both signs
    0x7ff4_0000_0000_0000,
    0x7ff8_0000_0000_0000,
    0x7ff8_0000_0000_0001,
    0x7fff_ffff_ffff_ffff,
    0xfff8_0000_0000_0000,
    0xffff_ffff_ffff_ffff,
    0x3fe0_0000_0000_0000, // 0.5
    0x3fd0_0000_0000_0000, // 0.25
    0x3fb9_9999_9999_999a, // 0.1
    0x3ff0_0000_0000_0000, // 1.0
    0x3ff0_0000_2000_0000, // the single after 1.0
    0x3ff0_0000_1000_0000, // halfway to it
    0x3ff0_0000_0000_0001, // the double after 1.0
    0xbff0_0000_0000_0000, // -1.0
];

/// A float constant's bits: edges, singles, doubles a bit away from a single, and any bits.
pub fn float(random: &mut Random) -> u64 {
    match random.below(6) {
        0..=2 => random.of(FLOAT_EDGES),
        3 => f64::from(f32::from_bits(random.word() as u32)).to_bits(),
        4 => f64::from(f32::from_bits(random.word() as u32)).to_bits() ^ (1 << random.below(30)),
        _ => random.word(),
    }
}

/// Sizes that are refused: among them such as a cast to eight bits would make good ones of.
pub const BAD_FLOAT_SIZES: &[i64] =
    &[16, -16, 1, -1, 63, 65, 96, 128, -128, 160, 192, 224, 256, 288, 320, 1 << 32, (1 << 32) + 32, i64::MIN];

#[rustfmt::skip]
const NAMES: &[&str] = &[
    "", "a", "b", "c", "x", "S", "T", "S1", "S2", "$TOP", "$BOT", "$BO", "#", "[]", "[u8]", "[int]", "next", "sevenby", "eightbyt",
    "ninebytes", "sixteenbyteslong", "é", "名前", "a name of several words", "zero\0inside", "\0", "a\0",
];

/// A name's bytes, UTF-8: mostly one of a few, so that names meet again; now and then about as long as is allowed.
pub fn name(random: &mut Random) -> Vec<u8> {
    if random.percent(2) {
        return vec![b'a' + random.below(3) as u8; random.between(252, 258)];
    }
    if random.percent(75) {
        return random.of(NAMES).as_bytes().to_vec();
    }
    let letters = ['a', 'b', 'é', 'ß', '名', '\u{10ffff}', ' ', '~'];
    let text: String = (0..random.below(12)).map(|_| random.of(&letters)).collect();
    text.into_bytes()
}

/// An alias: mostly one of a few, so that they meet again.
pub fn alias(random: &mut Random) -> u64 {
    match random.below(10) {
        0 => u64::from(u32::MAX),
        1 => u64::from(u32::MAX) - 1,
        2 => random.word() >> 32,
        _ => random.below(4) as u64,
    }
}

/// A number that is refused in many places: as a flag, an alias or a handle.
pub fn trouble(random: &mut Random) -> u64 {
    random.of(&[0, 2, 3, 4, 93, 256, 1 << 32, (1 << 32) + 1, (1 << 32) + 9, 1 << 62, 1 << 63, (1 << 63) + 9, u64::MAX - 1, u64::MAX])
}

/// How many parts a tuple or struct gets: few; some; now and then about `many`.
pub fn count(random: &mut Random, many: &[usize]) -> usize {
    match random.below(100) {
        0 => random.of(many),
        1..=20 => random.between(4, 12),
        _ => random.below(4),
    }
}

/// The length of a store's list, from the shortest on.
pub fn length(random: &mut Random) -> usize {
    match random.below(100) {
        0..=4 => 94,
        5..=14 => random.between(94, 130),
        15..=34 => random.between(100, 400),
        35..=89 => random.between(400, 3000),
        90..=98 => random.between(3000, 9000),
        _ => random.between(20_000, 65_536),
    }
}
