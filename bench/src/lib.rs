// The Rust side of the plan: the text of documents 000 to 003 in the oracle's harness, on three kinds of numbers. C drives it, by plain numbers and pointers.

#![no_std]
#![allow(static_mut_refs, confusable_idents, uncommon_codepoints, mixed_script_confusables, dead_code)]

extern crate alloc;
// the text says `std`
extern crate core as std;

#[path = "../../oracle/src/algebra.rs"]
mod algebra;
#[path = "../../oracle/src/cones.rs"]
mod cones;
#[path = "../../oracle/src/solver.rs"]
mod solver;
#[path = "../../oracle/src/types.rs"]
mod types;
#[path = "../../oracle/src/verdict.rs"]
mod verdict;

mod numbers;
mod work;

use core::alloc::{GlobalAlloc, Layout};

extern "C" {
    fn malloc(size: usize) -> *mut u8;
    fn free(place: *mut u8);
    fn bench_panicked(core_function: *const u8) -> !;
}

struct CLibrary;

// malloc's alignment, 16, is enough for everything here
unsafe impl GlobalAlloc for CLibrary {
    unsafe fn alloc(&self, layout: Layout) -> *mut u8 {
        malloc(layout.size())
    }
    unsafe fn dealloc(&self, place: *mut u8, _: Layout) {
        free(place)
    }
}

#[global_allocator]
static ALLOCATOR: CLibrary = CLibrary;

#[panic_handler]
fn panicked(_: &core::panic::PanicInfo) -> ! {
    unsafe { bench_panicked(b"panic!\0".as_ptr()) }
}
