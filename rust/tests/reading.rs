//! Calls that are lent the words to read write none of them, and opened ones nothing in the index either: they are made on pages that
//! cannot be written. Plain ones are made by several threads at a time, too.
use std::ffi::{c_int, c_long, c_void};
use std::hint::black_box;
use std::thread;

use ferigulan::{calls, fresh, index_len, memory_len, Store};

mod common;
use common::call::Call;
use common::towers::{deep, TOWERS};

extern "C" {
    fn mmap(at: *mut c_void, bytes: usize, access: c_int, flags: c_int, file: c_int, offset: c_long) -> *mut c_void;
    fn mprotect(at: *mut c_void, bytes: usize, access: c_int) -> c_int;
    fn munmap(at: *mut c_void, bytes: usize) -> c_int;
    fn fork() -> c_int;
    fn waitpid(process: c_int, status: *mut c_int, options: c_int) -> c_int;
    fn _exit(status: c_int) -> !;
}

const READ: c_int = 1;
const WRITE: c_int = 2;
const PRIVATE_ANONYMOUS: c_int = 0x22;

/// A list with pages of its own.
struct Pages {
    at: *mut u64,
    length: usize,
}

impl Pages {
    fn new(length: usize) -> Pages {
        // SAFETY: new pages, at no address that is asked for.
        let at = unsafe { mmap(std::ptr::null_mut(), 8 * length, READ | WRITE, PRIVATE_ANONYMOUS, -1, 0) };
        assert_ne!(at as isize, -1, "mmap");
        Pages { at: at.cast(), length }
    }

    fn list(&mut self) -> &mut [u64] {
        // SAFETY: the pages are this value's own, and hold zeros at first.
        unsafe { std::slice::from_raw_parts_mut(self.at, self.length) }
    }
}

impl Drop for Pages {
    fn drop(&mut self) {
        // SAFETY: the pages that `mmap` gave.
        unsafe { munmap(self.at.cast(), 8 * self.length) };
    }
}

/// Lets the pages of a list be read alone, or written again. Who writes a protected list ends the process.
fn protect(list: (*const u64, usize), access: c_int) {
    // SAFETY: only lists of `Pages` are protected, and nothing else is on their pages.
    let status = unsafe { mprotect(list.0.cast_mut().cast(), 8 * list.1, access) };
    assert_eq!(status, 0, "mprotect");
}

fn place(list: &[u64]) -> (*const u64, usize) {
    (list.as_ptr(), list.len())
}

const LENGTH: usize = 5_000;

#[test]
fn reading_calls_write_neither_words_nor_index() {
    let (mut words, mut index, mut memory) = (Pages::new(LENGTH), Pages::new(index_len(LENGTH)), vec![0; memory_len(LENGTH)]);
    let (words, index) = (words.list(), index.list());
    let (words_at, index_at) = (place(words), place(index));
    for shape in TOWERS {
        let tower = deep(LENGTH, shape);
        let reading: Vec<Call> = tower.calls().into_iter().filter(|call| !call.appends()).collect();
        words.copy_from_slice(tower.words());
        protect(words_at, READ);
        let mut store = Store::from_words(words).expect("a deep store");
        let mut opened = store.open(index, &mut memory).expect("an index that is long enough");
        protect(index_at, READ);
        let told_opened: Vec<_> = reading.iter().map(|call| call.on_opened(&mut opened, &mut call.output())).collect();
        let searched = opened.find_entry(&[261, 3, 3]);
        let told_plain: Vec<_> = reading.iter().map(|call| call.on_store(&mut store, &mut call.output())).collect();
        assert_eq!(told_opened, told_plain);
        assert_eq!(store.find_entry(&[261, 3, 3]), searched);
        protect(words_at, READ | WRITE);
        protect(index_at, READ | WRITE);
    }
}

/// Whether a signal ends a process that does this.
fn is_ended_by_a_signal<T>(work: impl FnOnce() -> T) -> bool {
    let mut status = 0;
    // SAFETY: the child does `work` alone, which takes no lock and allocates nothing, and ends without returning.
    unsafe {
        let child = fork();
        assert!(child >= 0, "fork");
        if child == 0 {
            black_box(work());
            _exit(0);
        }
        assert_eq!(waitpid(child, &mut status, 0), child, "waitpid");
    }
    status & 0x7f != 0
}

// That the test above would see a call that writes.
#[test]
fn a_call_that_writes_protected_words_ends_the_process() {
    let mut words = Pages::new(LENGTH);
    let mut store = Store::fresh(words.list()).expect("a length that is allowed");
    protect(place(store.words()), READ);
    assert!(!is_ended_by_a_signal(|| store.int_value(fresh::INT_TWO)));
    assert!(is_ended_by_a_signal(|| store.get_int(8)));
}

#[test]
fn several_threads_may_read_by_plain_calls() {
    let mut words = vec![0; LENGTH];
    let mut store = Store::fresh(&mut words).expect("a length that is allowed");
    let counter = store.make_int(0, 7).expect("there is room");
    let pair = store.get_tuple(&[counter, counter]).expect("there is room");
    let wider = store.get_tuple(&[fresh::INT_U8, fresh::INT_U8]).expect("there is room");
    thread::scope(|scope| {
        for _ in 0..4 {
            scope.spawn(|| {
                for _ in 0..1_000 {
                    assert_eq!((store.int_min(counter), store.int_max(counter), store.int_mask(counter)), (Ok(0), Ok(7), Ok(7)));
                    assert_eq!((store.isa(pair, wider), store.isa(wider, pair)), (Ok(true), Ok(false)));
                    assert!(calls::well_formed(store.words()));
                }
            });
        }
    });
}
