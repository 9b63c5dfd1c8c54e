// The memory that a static library of Rattle asks for. It comes from where stock Rust's comes from, the C library.
extern "C" {
    fn malloc(size: usize) -> *mut u8;
    fn realloc(block: *mut u8, size: usize) -> *mut u8;
    fn free(block: *mut u8);
}

#[repr(C)]
pub struct Tried {
    ok: bool,
    block: *mut u8,
}

#[no_mangle]
pub unsafe extern "C" fn rattle_alloc(size: usize, _align: usize) -> Tried {
    let block = malloc(size);
    Tried { ok: !block.is_null(), block }
}

#[no_mangle]
pub unsafe extern "C" fn rattle_realloc(block: *mut u8, _kept: usize, size: usize, _align: usize) -> Tried {
    let block = realloc(block, size);
    Tried { ok: !block.is_null(), block }
}

#[no_mangle]
pub unsafe extern "C" fn rattle_dealloc(block: *mut u8) {
    free(block);
}
