//! Requests to callgrind. Where the program runs alone they do nothing.

use std::arch::asm;
use std::ffi::CString;

const ZERO_STATS: u64 = 0x4354_0001;
const TOGGLE_COLLECT: u64 = 0x4354_0002;
const DUMP_STATS_AT: u64 = 0x4354_0003;

fn request(code: u64, argument: u64) {
    let request = [code, argument, 0, 0, 0, 0];
    // SAFETY: the rotations put rdi back, so that a processor does nothing; valgrind reads the request and answers in rdx.
    unsafe {
        asm!(
            "rol rdi, 3", "rol rdi, 13", "rol rdi, 61", "rol rdi, 51", "xchg rbx, rbx",
            inout("rdi") 0u64 => _, in("rax") request.as_ptr(), inout("rdx") 0u64 => _,
        );
    }
}

/// Has the instructions of some work counted, under a name.
pub fn counted<T>(name: &str, work: impl FnOnce() -> T) {
    let name = CString::new(name).unwrap();
    request(ZERO_STATS, 0);
    request(TOGGLE_COLLECT, 0);
    let _ = work();
    request(TOGGLE_COLLECT, 0);
    request(DUMP_STATS_AT, name.as_ptr() as u64);
}
