//! Calls by chance on small stores, whole and damaged. `List` checks what every call must keep; here also what a call may change.

mod common;
mod rebuilt;

use common::List;
use reading::{answer, well_formed, Call, Held, Reply};

struct Chance(u64);

impl Chance {
    fn below(&mut self, n: u64) -> u64 {
        self.0 ^= self.0 << 13;
        self.0 ^= self.0 >> 7;
        self.0 ^= self.0 << 17;
        (self.0 >> 16) % n
    }

    fn one_of<T: Copy>(&mut self, all: &[T]) -> T {
        all[self.below(all.len() as u64) as usize]
    }

    /// A handle, mostly one that starts an entry.
    fn handle(&mut self, list: &List) -> u64 {
        match self.below(20) {
            0 => self.below(list.used() + 3),
            _ => {
                let handles = handles(list);
                // mostly among the last ones, which have parts
                let from = if self.below(2) == 0 { 0 } else { handles.len() * 2 / 3 };
                self.one_of(&handles[from..])
            }
        }
    }

    fn of_kinds(&mut self, list: &List, kinds: &[u64]) -> u64 {
        let right: Vec<u64> = handles(list).into_iter().filter(|&h| kinds.contains(&(list.words[h as usize] % 256))).collect();
        if right.is_empty() || self.below(30) == 0 {
            return self.handle(list);
        }
        self.one_of(&right)
    }

    /// A field list, now and then with an unfinished last one.
    fn fields(&mut self, list: &List) -> Vec<u64> {
        let finished = 4 * self.below(4);
        let left = if self.below(20) == 0 { 1 } else { 0 };
        let word = |i| match i % 4 {
            0 => self.of_kinds(list, &[0]),
            1 => self.handle(list),
            2 => self.alias(),
            _ => self.below(2),
        };
        (0..finished + left).map(word).collect()
    }

    /// Handles mostly of one kind, since others meet at Bot; now and then about as many as are allowed.
    fn list_to_merge(&mut self, list: &List, first: u64) -> Vec<u64> {
        let kind = list.words[first as usize % list.words.len()] % 256;
        let some: Vec<u64> = (0..self.below(5)).map(|_| self.of_kinds(list, &[kind, 2])).collect();
        match self.below(20) {
            0 => some.into_iter().chain([first]).cycle().take(self.one_of(&[4096, 4097])).collect(),
            _ => some,
        }
    }

    /// The words of an entry, some of them with another word in one place, without the last, or with one more.
    fn entry(&mut self, list: &List) -> Vec<u64> {
        let all = handles(list);
        let place = self.below(all.len() as u64) as usize;
        let end = all.get(place + 1).copied().unwrap_or(list.used());
        let mut entry = list.words[all[place] as usize..end as usize].to_vec();
        match self.below(6) {
            0 | 1 => {
                let at = self.below(entry.len() as u64) as usize;
                entry[at] = self.one_of(&[0, 1, 5, 94, 257, 261, 263, u64::MAX]);
            }
            2 => entry.truncate(entry.len() - 1),
            3 => entry.push(self.below(2)),
            _ => {}
        }
        entry
    }

    fn alias(&mut self) -> u64 {
        self.one_of(&[0, 1, 1, 2, 4_294_967_295, 4_294_967_296])
    }
}

/// Where the entries start.
fn handles(list: &List) -> Vec<u64> {
    let (mut at, mut all) = (1, Vec::new());
    while at < list.used() {
        all.push(at);
        let head = list.words[at as usize];
        let n = head / 65_536 % 256;
        at += [1 + n.div_ceil(8), 1, 1, 1, 1, 3, 3, 1 + n, 2 + 3 * n, 2, 3, 3][head as usize % 256];
    }
    all
}

/// Runs a call by chance.
fn run_one(chance: &mut Chance, list: &mut List) -> Reply {
    let mut reply = Reply::Done;
    let before = List { words: list.words.clone() };
    by_chance(chance, &before, &mut |call| reply = list.call_with(call, &mut [0; 6]));
    reply
}

/// A call by chance; its list and text are lent to `with`.
fn by_chance(chance: &mut Chance, list: &List, with: &mut dyn FnMut(&Call)) {
    let (a, b) = (chance.handle(list), chance.handle(list));
    match chance.below(18) {
        0..=8 => maker(chance, list, with),
        9..=12 => {
            let same = chance.of_kinds(list, &[list.words[a as usize % list.words.len()] % 256]);
            with(&chance.one_of(&[Call::Meet(a, same), Call::Join(a, same), Call::Isa(a, same), Call::Meet(same, a), Call::Isa(a, b)]));
        }
        13 => with(&chance.one_of(&of_one(a))),
        14 => with(&Call::MeetList(&chance.list_to_merge(list, a))),
        15 => with(&Call::FindEntry(&chance.entry(list))),
        _ => of_struct(chance, list, with),
    }
}

fn maker(chance: &mut Chance, list: &List, with: &mut dyn FnMut(&Call)) {
    let (a, name, s) = (chance.handle(list), chance.of_kinds(list, &[0]), chance.of_kinds(list, &[8, 9]));
    let ends = [0, 1, 2, 255, 256, 300, u64::MAX, 1 << 63, (1 << 63) - 1];
    match chance.below(11) {
        0 => with(&Call::MakeInt(chance.one_of(&ends), chance.one_of(&ends))),
        1 => with(&Call::GetFloat(chance.one_of(&[0, 1 << 63, 0x3fe0 << 48, 0x3fb9_9999_9999_999a, 0x7ff0 << 48, 0x7ff8 << 48]))),
        2 => with(&Call::MakeFloat(chance.one_of(&[0, 16, 32, 64, -32i64 as u64, -64i64 as u64]), chance.below(2))),
        3 => with(&Call::GetTuple(&(0..chance.below(4)).map(|_| chance.handle(list)).collect::<Vec<_>>())),
        4 => with(&Call::GetStr(chance.one_of(&[&b""[..], b"S", b"[]", b"#", b"$TOP", b"eightaaa", b"\xff\xfe"]))),
        5 | 6 => with(&Call::GetStruct(name, &chance.fields(list))),
        7 => with(&Call::MakeAry(chance.of_kinds(list, &[5]), chance.alias(), a, chance.alias(), b"x")),
        8 => with(&chance.one_of(&[Call::MakeStructFref(name), Call::GetBool(a % 3), Call::GetInt(a)])),
        9 => with(&Call::GetMemPtr(s, chance.below(2))),
        _ => with(&Call::GetMem(chance.alias(), a)),
    }
}

#[rustfmt::skip]
fn of_struct(chance: &mut Chance, list: &List, with: &mut dyn FnMut(&Call)) {
    use Call::*;
    let (s, name, number) = (chance.of_kinds(list, &[8, 9]), chance.of_kinds(list, &[0]), chance.below(5));
    with(&chance.one_of(&[
        Find(s, name), FindAlias(s, number), Offset(s, number), Offsets(s), StructFields(s), StructName(s), IsAry(s), AryBase(s),
        AryScale(s), MakeRo(s), IsFinal(s),
    ]));
}

#[rustfmt::skip]
fn of_one(a: u64) -> [Call<'static>; 23] {
    use Call::*;
    [
        Kind(a), Dual(a), Glb(a), Lub(a), IsFinal(a), MakeRo(a), MakeInit(a), MakeZero(a), NonZero(a), IsHigh(a), IsHighOrConstant(a),
        IsConstant(a), IsFref(a), LogSize(a), IntMin(a), IntMax(a), IntValue(a), IntMask(a), FloatSz(a), FloatIsF32(a), FloatValue(a),
        FloatReading(a), StructName(a),
    ]
}

/// Appends a copy of an entry, as damage may.
fn copy_an_entry(chance: &mut Chance, list: &mut List) {
    let all = handles(list);
    let handle = chance.one_of(&all);
    let end = all.iter().copied().find(|&h| h > handle).unwrap_or(list.used());
    if list.used() + end - handle <= list.words.len() as u64 {
        list.copy(handle, (end - handle) as usize);
    }
}

/// One held store through many calls, refused ones among them, beside the plain way.
#[test]
fn a_held_store_through_many_calls() {
    let mut chance = Chance(0x0a11_ca11);
    let mut full = 0;
    for _ in 0..200 {
        let mut list = List::fresh(94 + chance.below(300) as usize);
        for _ in 0..chance.below(8) {
            copy_an_entry(&mut chance, &mut list);
        }
        let mut held = Held::new(list.words.clone()).unwrap_or_else(|_| panic!("well formed"));
        for _ in 0..150 {
            let before = List { words: list.words.clone() };
            by_chance(&mut chance, &before, &mut |call| {
                let reply = answer(&mut list.words, call, &mut [0; 6]);
                assert_eq!(held.answer(call, &mut [0; 6]), reply, "{call:?}");
                full += u32::from(reply == Reply::Refused(12));
            });
            assert!(held.words() == list.words);
        }
    }
    assert!(full > 1000, "{full} calls had no room");
}

#[test]
fn calls_keep_the_store() {
    let mut chance = Chance(0x5eed_1234_5678_9abc);
    let (mut accepted, mut refused) = (0, [0; 14]);
    for run in 0..400 {
        let mut list = List::fresh(94 + chance.below(400) as usize);
        for _ in 0..150 {
            if run % 2 == 0 && chance.below(10) == 0 {
                copy_an_entry(&mut chance, &mut list);
            }
            let before = list.words.clone();
            let reply = run_one(&mut chance, &mut list);
            match reply {
                Reply::Refused(row) => refused[row as usize] += 1,
                _ => accepted += 1,
            }
            let used = before[0] as usize;
            assert!(well_formed(&list.words) && list.words[1..used] == before[1..used] && list.words[0] >= before[0]);
            if let Reply::Handle(handle) = reply {
                assert!(handles(&list).contains(&handle));
            }
        }
    }
    // the calls are of all sorts
    assert!(accepted > 30_000, "{accepted} accepted");
    for row in [2, 3, 4, 7, 8, 9, 10, 11, 12, 13] {
        assert!(refused[row] > 20, "row {row}: {refused:?}");
    }
}

/// Document 02's Slip 2 as a search does it: each entry's head is compared first, and the whole entry is passed over where it differs.
fn one_by_one(list: &List, entry: &[u64]) -> Reply {
    let (all, mut count) = (handles(list), 0);
    for (place, &handle) in all.iter().enumerate() {
        let end = all.get(place + 1).copied().unwrap_or(list.used());
        let words = &list.words[handle as usize..end as usize];
        if words[0] != entry.first().copied().unwrap_or(0) {
            continue;
        }
        count += 1;
        if words == entry {
            return Reply::Searched(Some(handle), count);
        }
    }
    Reply::Searched(None, count)
}

#[test]
fn searches() {
    let mut chance = Chance(0x5ea4_c4e5);
    let (mut found, mut late) = (0, 0);
    for _ in 0..100 {
        let mut list = List::fresh(400);
        for _ in 0..60 {
            run_one(&mut chance, &mut list);
            if chance.below(10) == 0 {
                copy_an_entry(&mut chance, &mut list);
            }
            let entry = chance.entry(&list);
            let reply = list.call(&Call::FindEntry(&entry));
            assert_eq!(reply, one_by_one(&list, &entry), "{entry:?}");
            found += u32::from(matches!(reply, Reply::Searched(Some(_), _)));
            late += u32::from(matches!(reply, Reply::Searched(_, 5..)));
        }
    }
    assert!(found > 2000 && late > 1000, "{found} found, {late} with 5 entries or more not passed over");
}

/// A word changed by chance: row 1 decides, and what it lets through every call must be able to take.
#[test]
fn damaged_words() {
    let mut chance = Chance(0xdada_4711);
    let (mut taken, mut seen) = (0, 0);
    for _ in 0..300 {
        let mut list = List::fresh(300);
        for _ in 0..40 {
            run_one(&mut chance, &mut list);
        }
        for _ in 0..40 {
            let at = chance.one_of(&[0, 94 + chance.0 % 206, 94 + chance.0 % (list.used() - 93)]).min(299) as usize;
            let kept = list.words[at];
            list.words[at] = match chance.below(4) {
                0 => kept ^ 1 << chance.below(64),
                1 => chance.below(100),
                2 => chance.one_of(&[0, 257, 261, 262, 263, 264, 265, 522, 523, u64::MAX]),
                _ => kept.wrapping_add(chance.below(3)).wrapping_sub(1),
            };
            seen += 1;
            assert_eq!(well_formed(&list.words), rebuilt::is_rebuilt(&list.words), "{:?}", list.words);
            if well_formed(&list.words) {
                taken += 1;
                run_one(&mut chance, &mut list);
            } else {
                assert_eq!(list.call(&Call::GetBool(0)), Reply::Refused(1));
                list.words[at] = kept;
            }
        }
    }
    assert!(taken > 500 && seen - taken > 500, "{taken} of {seen} were well formed");
}
