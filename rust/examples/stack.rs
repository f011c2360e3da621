//! How much stack each call needs, by the list's length: `cargo run --release --example stack [LENGTH..]`.
//!
//! Each call is made on a stack of its own, whose words are painted first; how far they have been written is what the call needed, with the
//! crate's own frames around it. The types are towers of the greatest depth and of several widths (tests/common/towers.rs).
use std::arch::asm;
use std::collections::BTreeMap;
use std::ffi::c_void;
use std::hint::black_box;

use ferigulan::{calls, file_length, index_len, OpenedStore, LONGEST_LABEL};

#[path = "../tests/common/mod.rs"]
mod common;
use common::files::{file, ints};
use common::towers::{deep, memory_lengths, TOWERS};

const PAINT: u64 = 0xa5a5_a5a5_5a5a_5a5a;

/// A stack that is looked at from outside. Nothing guards its end, so it is far larger than any call needs.
struct Stack {
    words: Vec<u64>,
}

impl Stack {
    fn new() -> Stack {
        Stack { words: vec![PAINT; 1 << 18] }
    }

    /// How many bytes of stack `work` writes.
    fn used_by(&mut self, mut work: impl FnMut()) -> usize {
        self.words.fill(PAINT);
        let top = self.words.as_mut_ptr_range().end;
        // SAFETY: the top is that of a list which lives through the call, rounded down to the 16 bytes that the calling convention wants.
        unsafe { call_on((top as usize & !15) as *mut u64, &mut work) };
        let untouched = self.words.iter().take_while(|&&word| word == PAINT).count();
        assert!(untouched > 1000, "the stack was too small");
        8 * (self.words.len() - untouched)
    }
}

extern "C" fn enter<F: FnMut()>(work: *mut c_void) {
    // SAFETY: `call_on` hands over the pointer to an F that it borrows.
    unsafe { (*work.cast::<F>())() }
}

/// Calls `work` on another stack.
///
/// # Safety
/// `top` is the end of memory that nobody else uses meanwhile, a multiple of 16, with room for all that `work` needs below it.
#[inline(never)]
unsafe fn call_on<F: FnMut()>(top: *mut u64, work: &mut F) {
    let enter: extern "C" fn(*mut c_void) = enter::<F>;
    // SAFETY: the old stack pointer is kept in a register that the called function keeps; `enter` aborts rather than unwind over this
    // frame.
    unsafe {
        asm!(
            "mov r12, rsp", "mov rsp, {top}", "call {enter}", "mov rsp, r12",
            top = in(reg) top, enter = in(reg) enter,
            in("rdi") std::ptr::from_mut(work).cast::<c_void>(),
            out("r12") _, clobber_abi("C"),
        )
    }
}

/// The most that each call has needed, by list length.
type Table = BTreeMap<&'static str, BTreeMap<usize, usize>>;

#[derive(Default)]
struct Needs {
    plain: Table,
    opened: Table,
}

fn note(needs: &mut Table, name: &'static str, length: usize, bytes: usize) {
    let most = needs.entry(name).or_default().entry(length).or_default();
    *most = bytes.max(*most);
}

fn ignore<T>(answer: T) {
    black_box(answer);
}

/// A full store with the longest label, saved and loaded; and the largest file there is, which a list of this length may be too short for.
fn measure_files(stack: &mut Stack, needs: &mut Table, length: usize) {
    let label = [0; LONGEST_LABEL];
    let (mut words, full) = (vec![0; length], file(&label, &ints(length)));
    note(needs, "load", length, stack.used_by(|| ignore(calls::load(&mut words, &full))));
    let mut bytes = vec![0; file_length(label.len(), words[0] as usize)];
    note(needs, "save", length, stack.used_by(|| ignore(calls::save(&words, &label, &mut bytes))));
    let largest = file(&label, &ints(1_048_576));
    note(needs, "load, largest file", length, stack.used_by(|| ignore(calls::load(&mut words, &largest))));
}

fn measure(stack: &mut Stack, needs: &mut Needs, length: usize) {
    let mut index = vec![0; index_len(length)];
    let mut words = vec![0; length];
    note(&mut needs.plain, "fresh", length, stack.used_by(|| calls::fresh(&mut words).expect("the length is right")));
    note(&mut needs.plain, "well_formed", length, stack.used_by(|| assert!(calls::well_formed(&words))));
    note(&mut needs.plain, "find_entry", length, stack.used_by(|| ignore(calls::find_entry(&words, &[0; 4]))));
    measure_files(stack, &mut needs.plain, length);
    for shape in TOWERS {
        let mut deep = deep(length, shape);
        let file = saved(deep.words());
        note(&mut needs.plain, "load", length, stack.used_by(|| ignore(calls::load(&mut words, &file))));
        let mut memory = vec![0; memory_lengths(length)[0]];
        note(&mut needs.opened, "open", length, stack.used_by(|| deep.opened(&mut index, &mut memory, |_| ())));
        for call in deep.calls() {
            let mut output = call.output();
            let bytes = deep.plain(|words| stack.used_by(|| ignore(call.on_words(words, &mut output))));
            note(&mut needs.plain, call.name(), length, bytes);
            for m in memory_lengths(length) {
                let measured = |opened: &mut OpenedStore<'_>| stack.used_by(|| ignore(call.on_opened(opened, &mut output)));
                let bytes = deep.opened(&mut index, &mut memory[..m], measured);
                note(&mut needs.opened, call.name(), length, bytes);
            }
        }
    }
}

fn saved(words: &[u64]) -> Vec<u8> {
    let mut file = vec![0; file_length(0, words[0] as usize)];
    calls::save(words, &[], &mut file).expect("a deep store");
    file
}

fn print(title: &str, lengths: &[usize], needs: &Table) {
    println!("\n{title}: bytes of stack, by the words of the list");
    print!("{:24}", "call");
    lengths.iter().for_each(|n| print!("{n:>12}"));
    println!();
    for (name, by_length) in needs {
        print!("{name:24}");
        lengths.iter().for_each(|n| print!("{:>12}", by_length.get(n).copied().unwrap_or(0)));
        println!();
    }
    let most = |n| needs.values().filter_map(|by_length| by_length.get(n)).max().copied().unwrap_or(0);
    print!("{:24}", "maximum");
    lengths.iter().for_each(|n| print!("{:>12}", most(n)));
    print!("\n{:24}", "in KiB, rounded up");
    lengths.iter().for_each(|n| print!("{:>12}", most(n).div_ceil(1024)));
    println!();
}

fn main() {
    let asked: Vec<usize> = std::env::args().skip(1).map(|word| word.parse().expect("a length is a number of words")).collect();
    let lengths = if asked.is_empty() { vec![94, 512, 4_096, 65_536, 1_048_576] } else { asked };
    let (mut stack, mut needs) = (Stack::new(), Needs::default());
    for &length in &lengths {
        eprintln!("{length} words ..");
        measure(&mut stack, &mut needs, length);
    }
    print("plain", &lengths, &needs.plain);
    print("opened", &lengths, &needs.opened);
}
