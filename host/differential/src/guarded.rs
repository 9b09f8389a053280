//! Memory between guard pages: one byte read or written outside ends the program,
//! and the seed at work is printed first.

use std::cell::Cell;
use std::ffi::c_void;
use std::ptr;

const PAGE: usize = 4096;
const PROT_NONE: i32 = 0;
const PROT_READ: i32 = 1;
const PROT_READ_WRITE: i32 = 3;
const MAP_PRIVATE_ANONYMOUS: i32 = 0x22;
const SIGSEGV: i32 = 11;
const SIGBUS: i32 = 7;

/// What the bytes of an area hold that belong to no buffer.
const SLACK: u8 = 0xC5;
static SLACK_PAGE: [u8; PAGE] = [SLACK; PAGE];

unsafe extern "C" {
    fn mmap(at: *mut c_void, len: usize, prot: i32, flags: i32, fd: i32, off: i64) -> *mut c_void;
    fn mprotect(at: *mut c_void, len: usize, prot: i32) -> i32;
    fn munmap(at: *mut c_void, len: usize) -> i32;
    fn signal(number: i32, handler: extern "C" fn(i32)) -> usize;
    fn write(fd: i32, bytes: *const u8, len: usize) -> isize;
    fn _exit(status: i32) -> !;
}

/// Against which guard page a buffer is put.
#[derive(Clone, Copy, Debug, PartialEq, Eq)]
pub enum Side {
    /// The buffer begins at the front guard page.
    Front,
    /// The buffer stops at the back guard page.
    Back,
}

/// Pages that may be read and written, with a guard page on either side.
#[derive(Debug)]
pub struct Area {
    pages: *mut u8,
    len: usize,
}

impl Area {
    /// An area with room for so many bytes.
    pub fn new(room: usize) -> Area {
        let len = room.next_multiple_of(PAGE).max(PAGE);
        // SAFETY: a fresh private mapping, of which the inner pages are then opened.
        let pages = unsafe {
            let whole = mmap(
                ptr::null_mut(),
                len + 2 * PAGE,
                PROT_NONE,
                MAP_PRIVATE_ANONYMOUS,
                -1,
                0,
            );
            assert!(whole as isize != -1, "no memory for {len} bytes");
            let pages = whole.cast::<u8>().add(PAGE);
            assert_eq!(mprotect(pages.cast(), len, PROT_READ_WRITE), 0);
            pages
        };
        let mut area = Area { pages, len };
        area.all().fill(SLACK);
        area
    }

    fn all(&mut self) -> &mut [u8] {
        // SAFETY: these pages are this area's and are open.
        unsafe { std::slice::from_raw_parts_mut(self.pages, self.len) }
    }

    /// Where a buffer of `len` bytes begins.
    fn offset(&self, len: usize, side: Side) -> usize {
        match side {
            Side::Front => 0,
            Side::Back => self.len - len,
        }
    }

    /// The buffer of `len` bytes against a guard page.
    pub fn buffer(&mut self, len: usize, side: Side) -> &mut [u8] {
        let from = self.offset(len, side);
        &mut self.all()[from..from + len]
    }

    /// Copies bytes to a guard page.
    pub fn bytes(&mut self, bytes: &[u8], side: Side) -> &mut [u8] {
        let buffer = self.buffer(bytes.len(), side);
        buffer.copy_from_slice(bytes);
        buffer
    }

    /// Takes a larger area where so many bytes have no room.
    pub fn grow(&mut self, room: usize) {
        if room > self.len {
            *self = Area::new(room);
        }
    }

    /// From now on the bytes of the buffer belong to none.
    pub fn give_back(&mut self, len: usize, side: Side) {
        self.buffer(len, side).fill(SLACK);
    }

    /// Shuts the area against writing, or opens it again.
    pub fn read_only(&mut self, shut: bool) {
        let prot = if shut { PROT_READ } else { PROT_READ_WRITE };
        // SAFETY: these pages are this area's; who writes while they are shut is caught.
        assert_eq!(unsafe { mprotect(self.pages.cast(), self.len, prot) }, 0);
    }

    /// Whether no byte beside the buffer was written, where no guard page stands.
    pub fn slack_kept(&mut self, len: usize, side: Side) -> bool {
        let from = self.offset(len, side);
        let all = self.all();
        let mut parts = [&all[..from], &all[from + len..]]
            .into_iter()
            .flat_map(|slack| slack.chunks(PAGE));
        parts.all(|part| *part == SLACK_PAGE[..part.len()])
    }
}

impl Drop for Area {
    fn drop(&mut self) {
        // SAFETY: the mapping made in `new`, with its guard pages.
        unsafe { munmap(self.pages.sub(PAGE).cast(), self.len + 2 * PAGE) };
    }
}

thread_local! {
    static SEED: Cell<u64> = const { Cell::new(0) };
    static STEP: Cell<u64> = const { Cell::new(0) };
}

/// Notes which seed and step are at work, for the case that a guard page is hit.
pub fn at_work(seed: u64, step: usize) {
    SEED.set(seed);
    STEP.set(step as u64);
}

/// From now on a hit guard page prints the seed before the program ends.
pub fn report_hits() {
    // SAFETY: the handler only reads two numbers, writes and ends the program.
    unsafe {
        signal(SIGSEGV, hit);
        signal(SIGBUS, hit);
    }
}

extern "C" fn hit(_: i32) {
    let mut line = [b' '; 96];
    let words = b"outside its buffers: seed                      step                     \n";
    line[..words.len()].copy_from_slice(words);
    put(&mut line[26..46], SEED.get());
    put(&mut line[52..72], STEP.get());
    // SAFETY: `line` holds `words.len()` bytes.
    unsafe {
        write(2, line.as_ptr(), words.len());
        _exit(139)
    }
}

/// Writes a number in decimal, without memory from anywhere.
fn put(line: &mut [u8], mut number: u64) {
    for place in line.iter_mut().rev() {
        *place = b'0' + (number % 10) as u8;
        number /= 10;
        if number == 0 {
            break;
        }
    }
}
