//! Memory whose pages can be shut. A read or a write on a shut page is noted and then let through, so that
//! the call comes to its end and the test can say what was touched. The same pages are mapped a second time
//! and always open there, for the test's own reads and writes.
use crate::linux::{self, Action, Info, FAULT, PAGE_SIZE, READ_WRITE, SHARED, SHUT, WITH_INFO};
use std::cell::Cell;
use std::ops::Range;

/// Where this thread's shut pages lie, and the first address touched there (0 for none).
#[derive(Clone, Copy)]
struct Watch {
    from: usize,
    to: usize,
    page: usize,
    touched: usize,
}

const NOTHING: Watch = Watch { from: 0, to: 0, page: 1, touched: 0 };

thread_local! {
    static WATCH: Cell<Watch> = const { Cell::new(NOTHING) };
}

/// Notes the address and opens its page. A fault anywhere else is left to the system, which ends the process.
extern "C" fn on_fault(_: i32, info: *const Info, _: usize) {
    // SAFETY: the system passes the fault's own record.
    let address = unsafe { (*info).address };
    let mut watch = WATCH.with(Cell::get);
    if address < watch.from || watch.to <= address {
        handle_faults(0, 0);
        return;
    }
    if watch.touched == 0 {
        watch.touched = address;
    }
    WATCH.with(|cell| cell.set(watch));
    // SAFETY: the page is one of this thread's memory.
    unsafe { linux::mprotect(address - address % watch.page, watch.page, READ_WRITE) };
}

fn handle_faults(handler: usize, flags: i32) {
    let action = Action { handler, mask: [0; 16], flags, restorer: 0 };
    // SAFETY: the action lives through the call, and its handler is `on_fault` or the system's.
    unsafe { linux::sigaction(FAULT, &action, std::ptr::null_mut()) };
}

fn page_bytes() -> usize {
    // SAFETY: a question by number.
    unsafe { linux::sysconf(PAGE_SIZE) as usize }
}

pub fn page_words() -> usize {
    page_bytes() / 4
}

pub struct Memory {
    page: usize,
    /// By page.
    open: Vec<bool>,
    /// The view that calls are lent.
    lent: usize,
    /// The view that is always open.
    own: usize,
}

impl Memory {
    /// So many pages, all shut. A thread has one at a time.
    pub fn new(pages: usize) -> Memory {
        assert_eq!(WATCH.with(Cell::get).from, 0, "a second one");
        let page = page_bytes();
        let bytes = pages * page;
        // SAFETY: new mappings, at places that the system chooses.
        let (lent, own) = unsafe {
            let file = linux::memfd_create(b"table\0".as_ptr(), 0);
            assert!(file >= 0 && linux::ftruncate(file, bytes as i64) == 0, "no memory file");
            let lent = linux::mmap(0, bytes, SHUT, SHARED, file, 0);
            let own = linux::mmap(0, bytes, READ_WRITE, SHARED, file, 0);
            linux::close(file);
            (lent, own)
        };
        assert!(lent != usize::MAX && own != usize::MAX, "no memory");
        WATCH.with(|cell| cell.set(Watch { from: lent, to: lent + bytes, page, touched: 0 }));
        handle_faults(on_fault as *const () as usize, WITH_INFO);
        Memory { page, open: vec![false; pages], lent, own }
    }

    /// The words as the test itself may always read and write them.
    pub fn words(&mut self) -> &mut [u32] {
        // SAFETY: this view stays mapped and open while `self` lives, and goes to nobody else.
        unsafe { std::slice::from_raw_parts_mut(self.own as *mut u32, self.open.len() * self.page / 4) }
    }

    /// The memory from a word on as it is lent to a call.
    pub fn lend(&self, word: usize) -> *mut u32 {
        (self.lent + 4 * word) as *mut u32
    }

    /// Opens these pages and shuts all others.
    pub fn open_only(&mut self, pages: &[usize]) {
        let mut wanted = vec![false; self.open.len()];
        pages.iter().for_each(|page| wanted[*page] = true);
        let mut i = 0;
        while i < wanted.len() {
            let run = (i..wanted.len())
                .take_while(|j| self.open[*j] != wanted[*j] && wanted[*j] == wanted[i])
                .count();
            if run > 0 {
                self.protect(i..i + run, if wanted[i] { READ_WRITE } else { SHUT });
            }
            i += run.max(1);
        }
        self.open = wanted;
    }

    fn protect(&self, pages: Range<usize>, protection: i32) {
        let from = self.lent + pages.start * self.page;
        // SAFETY: the pages are this memory's; no reference of Rust's is ever made to this view.
        let done = unsafe { linux::mprotect(from, pages.len() * self.page, protection) };
        assert_eq!(done, 0, "mprotect");
    }

    /// The first word of a shut page that was touched since the last question; all is shut as before.
    pub fn touched(&mut self) -> Option<usize> {
        let watch = WATCH.with(Cell::get);
        if watch.touched == 0 {
            return None;
        }
        WATCH.with(|cell| cell.set(Watch { touched: 0, ..watch }));
        for page in 0..self.open.len() {
            if !self.open[page] {
                self.protect(page..page + 1, SHUT);
            }
        }
        Some((watch.touched - self.lent) / 4)
    }
}

impl Drop for Memory {
    fn drop(&mut self) {
        let bytes = self.open.len() * self.page;
        WATCH.with(|cell| cell.set(NOTHING));
        // SAFETY: both views end here, and nothing borrows from them any more.
        unsafe {
            linux::munmap(self.lent, bytes);
            linux::munmap(self.own, bytes);
        }
    }
}
