//! What the test asks of x86-64 Linux, declared by hand from its C headers.

pub const PAGE_SIZE: i32 = 30;
pub const SHUT: i32 = 0;
pub const READ_WRITE: i32 = 3;
pub const SHARED: i32 = 1;
pub const FAULT: i32 = 11;
/// The handler is given the address.
pub const WITH_INFO: i32 = 4;

/// `struct sigaction`. A handler of 0 is the system's own.
#[repr(C)]
pub struct Action {
    pub handler: usize,
    pub mask: [u64; 16],
    pub flags: i32,
    pub restorer: usize,
}

/// The start of `siginfo_t` for a fault.
#[repr(C)]
pub struct Info {
    pub signal: i32,
    pub error: i32,
    pub code: i32,
    pub address: usize,
}

extern "C" {
    pub fn sysconf(name: i32) -> i64;
    pub fn memfd_create(name: *const u8, flags: u32) -> i32;
    pub fn ftruncate(file: i32, bytes: i64) -> i32;
    pub fn mmap(at: usize, bytes: usize, protection: i32, flags: i32, file: i32, offset: i64) -> usize;
    pub fn munmap(at: usize, bytes: usize) -> i32;
    pub fn mprotect(at: usize, bytes: usize, protection: i32) -> i32;
    pub fn close(file: i32) -> i32;
    pub fn sigaction(signal: i32, new: *const Action, old: *mut Action) -> i32;
}
