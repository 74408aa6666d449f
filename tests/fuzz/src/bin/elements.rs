//! libFuzzer's target for `ukhtvaresh_elements`.
#![no_main]

use fuzz::changes;

/// # Safety
/// `data` and `size` are libFuzzer's input.
#[no_mangle]
pub unsafe extern "C" fn LLVMFuzzerTestOneInput(data: *const u8, size: usize) -> i32 {
    fuzz::tables::elements(fuzz::input(data, size));
    0
}

/// # Safety
/// `data` has room for `most` bytes and holds `size`.
#[no_mangle]
pub unsafe extern "C" fn LLVMFuzzerCustomMutator(
    data: *mut u8,
    size: usize,
    most: usize,
    seed: u32,
) -> usize {
    changes::mutate(data, size, most, seed, 3, changes::change_tables)
}
