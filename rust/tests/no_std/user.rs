//! The counter of the other examples, with nothing but `core`: the process answers 0 where the merge is 0..8 in both orders, and after a
//! load too.
#![no_std]

use ferigulan::{file_length, index_len, Refusal, Store};

#[panic_handler]
fn panic(_: &core::panic::PanicInfo<'_>) -> ! {
    loop {}
}

fn merged() -> Result<(i64, i64), Refusal> {
    let (mut words, mut index) = ([0; 128], [0; index_len(128)]);
    let mut store = Store::fresh(&mut words)?;
    let (counter, eight) = (store.make_int(0, 7)?, store.get_int(8)?);
    let plain = store.meet(counter, eight)?;
    let opened = store.open(&mut index, &mut [])?.meet(eight, counter)?;
    let mut file = [0; file_length(4, 128)];
    let length = store.save_into(b"lift", &mut file)?;
    let mut others = [7; 128];
    let (loaded, _) = Store::load_from(&mut others, &file[..length])?;
    Ok((loaded.int_min(plain)?, loaded.int_max(opened)?))
}

/// What C starts.
#[no_mangle]
pub extern "C" fn main() -> i32 {
    match merged() {
        Ok((0, 8)) => 0,
        Ok(_) => 100,
        Err(refusal) => refusal.number().into(),
    }
}
