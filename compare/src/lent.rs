//! Lent buffers: each stands against a guard page that faults when it is touched.

use std::ffi::{c_char, c_int, c_uint, c_void};
use std::ptr;

extern "C" {
    fn mmap(at: *mut c_void, length: usize, access: c_int, flags: c_int, file: c_int, offset: i64) -> *mut c_void;
    fn mprotect(at: *mut c_void, length: usize, access: c_int) -> c_int;
    fn memfd_create(name: *const c_char, flags: c_uint) -> c_int;
    fn ftruncate(file: c_int, length: i64) -> c_int;
    fn close(file: c_int) -> c_int;
}

const NO_ACCESS: c_int = 0;
const READ: c_int = 1;
const WRITE: c_int = 2;
const SHARED: c_int = 1;
const PRIVATE: c_int = 2;
const FIXED: c_int = 0x10;
const ANONYMOUS: c_int = 0x20;
const NO_RESERVE: c_int = 0x4000;

/// Bytes of a guard; every page size in use divides it.
const GUARD: usize = 65_536;

/// Bytes beside a lent buffer, on the side without a guard, that are looked at too.
const MARGIN: usize = 64;

/// The sizes of areas; a buffer stands in the least that has room for it and its margin.
const SIZES: [usize; 3] = [GUARD, 2 * GUARD, 1024 * GUARD];

/// The side on which a lent buffer touches a guard.
#[derive(Debug, Clone, Copy, PartialEq, Eq)]
pub enum Flush {
    /// The guard follows the buffer's last byte.
    End,
    /// The guard precedes the buffer's first byte.
    Start,
}

/// Memory between two guards, mapped twice: `ours` is written by this program, `lent` is what the library gets.
struct Area {
    ours: *mut u8,
    lent: *mut u8,
    size: usize,
}

/// Ends the program: without memory there is nothing to compare.
fn mapped(at: *mut c_void) -> *mut u8 {
    if at as isize == -1 {
        panic!("no memory for the lent buffers: {}", std::io::Error::last_os_error());
    }
    at.cast()
}

impl Area {
    /// An area that the library may read, and write if `access` says so.
    fn new(size: usize, access: c_int) -> Area {
        // SAFETY: new mappings of our own; the fixed one lies inside the reserved one.
        unsafe {
            let file = memfd_create(c"lent".as_ptr(), 0);
            assert!(file >= 0 && ftruncate(file, size as i64) == 0, "no memory for the lent buffers");
            let flags = PRIVATE | ANONYMOUS | NO_RESERVE;
            let whole = mapped(mmap(ptr::null_mut(), size + 2 * GUARD, NO_ACCESS, flags, -1, 0));
            let inside = whole.add(GUARD).cast();
            let lent = mapped(mmap(inside, size, READ | WRITE, SHARED | FIXED, file, 0));
            assert!(mprotect(inside, size, access) == 0, "no protection for the lent buffers");
            let ours = mapped(mmap(ptr::null_mut(), size, READ | WRITE, SHARED, file, 0));
            close(file);
            Area { ours, lent, size }
        }
    }

    /// Where a buffer of so many bytes begins in the area.
    fn start(&self, length: usize, flush: Flush) -> usize {
        match flush {
            Flush::End => self.size - length,
            Flush::Start => 0,
        }
    }

    /// Bytes of the area, as this program sees them.
    fn bytes(&mut self, start: usize, length: usize) -> &mut [u8] {
        assert!(start + length <= self.size);
        // SAFETY: within the area, which lives as long as the program; nobody else runs while it is looked at.
        unsafe { std::slice::from_raw_parts_mut(self.ours.add(start), length) }
    }
}

/// Areas of every size, one buffer lent from them at a time.
pub struct Lent {
    areas: Vec<Area>,
    used: usize,
    start: usize,
    length: usize,
    flush: Flush,
}

impl Lent {
    /// Buffers that the library may only read.
    pub fn to_read() -> Lent {
        Lent::new(READ)
    }

    /// Buffers that the library may read and write.
    pub fn to_write() -> Lent {
        Lent::new(READ | WRITE)
    }

    fn new(access: c_int) -> Lent {
        let areas = SIZES.iter().map(|&size| Area::new(size, access)).collect();
        Lent { areas, used: 0, start: 0, length: 0, flush: Flush::End }
    }

    /// Lends a buffer that holds these bytes. An empty one is the guard's own first byte, or null.
    pub fn lend(&mut self, bytes: &[u8], flush: Flush) -> *mut u8 {
        let length = bytes.len();
        let fits = |area: &Area| length + MARGIN <= area.size;
        self.used = self.areas.iter().position(fits).expect("a buffer is at most 64 MiB");
        let area = &mut self.areas[self.used];
        let start = area.start(length, flush);
        area.bytes(start, length).copy_from_slice(bytes);
        (self.start, self.length, self.flush) = (start, length, flush);
        self.margin().fill(MARGIN as u8);
        if length == 0 && flush == Flush::Start {
            return ptr::null_mut();
        }
        // SAFETY: `start` lies in the area, or is its end where the buffer is empty.
        unsafe { self.areas[self.used].lent.add(self.start) }
    }

    /// The bytes of the buffer as they are now.
    pub fn bytes(&mut self) -> &[u8] {
        let (start, length) = (self.start, self.length);
        self.areas[self.used].bytes(start, length)
    }

    /// The bytes beside the buffer, where no guard stands.
    fn margin(&mut self) -> &mut [u8] {
        let start = match self.flush {
            Flush::End => self.start - MARGIN,
            Flush::Start => self.start + self.length,
        };
        self.areas[self.used].bytes(start, MARGIN)
    }

    /// Whether the bytes beside the buffer are as they were.
    pub fn margin_kept(&mut self) -> bool {
        self.margin().iter().all(|&byte| byte == MARGIN as u8)
    }
}
