//! A buffer between two pages that nobody may touch: a read or a write past the one end stops the
//! run at once, and the marks on its other side show a write. Which end stands at its page changes
//! with every buffer.

use std::cell::RefCell;
use std::collections::HashMap;
use std::ffi::c_void;
use std::slice;

const PAGE: usize = 4096;
const MARK: u8 = 0xa5;

// x86-64 Linux, as the static library is.
const PROT_NONE: i32 = 0;
const PROT_READ_WRITE: i32 = 3;
const MAP_PRIVATE_ANONYMOUS: i32 = 0x22;

unsafe extern "C" {
    fn mmap(at: *mut c_void, len: usize, prot: i32, flags: i32, fd: i32, from: i64) -> *mut c_void;
    fn mprotect(at: *mut c_void, len: usize, prot: i32) -> i32;
}

thread_local! {
    /// Pages given back, by how many are open between the two closed ones.
    static FREE: RefCell<HashMap<usize, Vec<*mut u8>>> = RefCell::default();
    static AT_END: RefCell<bool> = const { RefCell::new(false) };
}

/// Bytes of any length, guarded.
pub struct Guarded {
    /// The first open byte.
    open: *mut u8,
    pages: usize,
    at: usize,
    len: usize,
}

impl Guarded {
    /// A copy of the bytes.
    pub fn new(bytes: &[u8]) -> Guarded {
        let len = bytes.len();
        let pages = len.div_ceil(PAGE).max(1);
        let at_end = AT_END.with_borrow_mut(|end| std::mem::replace(end, !*end));
        let at = if at_end { pages * PAGE - len } else { 0 };
        let mut guarded = Guarded { open: taken(pages), pages, at, len };
        guarded.open_mut().fill(MARK);
        guarded.bytes_mut().copy_from_slice(bytes);
        guarded
    }

    /// A destination that holds what no result holds by itself.
    pub fn garbage(len: u64) -> Guarded {
        let bytes: Vec<u8> = (0..len).map(|i| (i * 37 + 11) as u8).collect();
        Guarded::new(&bytes)
    }

    /// The bytes.
    pub fn bytes(&self) -> &[u8] {
        &self.open()[self.at..self.at + self.len]
    }

    /// The bytes, to be written.
    pub fn bytes_mut(&mut self) -> &mut [u8] {
        let (at, len) = (self.at, self.len);
        &mut self.open_mut()[at..at + len]
    }

    /// Whether the marks beside it are whole.
    pub fn intact(&self) -> bool {
        let (before, rest) = self.open().split_at(self.at);
        before.iter().chain(&rest[self.len..]).all(|&byte| byte == MARK)
    }

    fn open(&self) -> &[u8] {
        // SAFETY: `taken` made these pages readable and writable, and nobody else has them.
        unsafe { slice::from_raw_parts(self.open, self.pages * PAGE) }
    }

    fn open_mut(&mut self) -> &mut [u8] {
        // SAFETY: as above.
        unsafe { slice::from_raw_parts_mut(self.open, self.pages * PAGE) }
    }
}

impl Clone for Guarded {
    fn clone(&self) -> Guarded {
        Guarded::new(self.bytes())
    }
}

impl Drop for Guarded {
    fn drop(&mut self) {
        FREE.with_borrow_mut(|free| free.entry(self.pages).or_default().push(self.open));
    }
}

/// So many open pages with a closed one before and behind them.
fn taken(pages: usize) -> *mut u8 {
    if let Some(open) = FREE.with_borrow_mut(|free| free.entry(pages).or_default().pop()) {
        return open;
    }
    // SAFETY: fresh anonymous pages, closed, of which the inner ones are then opened.
    unsafe {
        let all =
            mmap(std::ptr::null_mut(), (pages + 2) * PAGE, PROT_NONE, MAP_PRIVATE_ANONYMOUS, -1, 0);
        assert_ne!(all as isize, -1, "no memory for a guarded buffer");
        let open = all.cast::<u8>().add(PAGE);
        assert_eq!(mprotect(open.cast(), pages * PAGE, PROT_READ_WRITE), 0);
        open
    }
}
