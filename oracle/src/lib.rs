// The Rust oracle and the comparison of the port with it. No crate beside core and alloc, no core formatting: tools/rust-obj compiles
// this from LLVM's text form.

#![no_std]
#![allow(static_mut_refs, confusable_idents, uncommon_codepoints, mixed_script_confusables)]

extern crate alloc;
// the text says `std`
extern crate core as std;

mod aimed;
mod algebra;
mod cases;
mod compare;
mod cones;
mod expected;
mod margins;
mod mutants;
mod paper;
mod parts;
mod plans;
mod random;
mod rules;
mod say;
mod solver;
mod sums;
mod types;
mod vectors;
mod verdict;

use core::alloc::{GlobalAlloc, Layout};

extern "C" {
    fn malloc(size: usize) -> *mut u8;
    fn free(place: *mut u8);
    fn oracle_panicked(core_function: *const u8) -> !;
}

struct CLibrary;

// malloc's alignment, 16, is enough for everything here
unsafe impl GlobalAlloc for CLibrary {
    unsafe fn alloc(&self, layout: Layout) -> *mut u8 {
        malloc(layout.size())
    }
    unsafe fn dealloc(&self, place: *mut u8, _: Layout) {
        free(place)
    }
}

#[global_allocator]
static ALLOCATOR: CLibrary = CLibrary;

#[panic_handler]
fn panicked(_: &core::panic::PanicInfo) -> ! {
    unsafe { oracle_panicked(b"9panicking9panic_fmt\0".as_ptr()) }
}
