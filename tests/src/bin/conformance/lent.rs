//! Memory lent to the product.

use std::ffi::{c_int, c_void};
use std::ptr;

/// Words on both sides of a lent slice that nobody may change.
const GUARDS: usize = 4;

/// The content of guard words and of slices that wait for an answer.
fn mark(index: usize) -> u64 {
    0xc0de_57a1_0000_0000 + index as u64
}

/// A slice of words to be written, between guard words.
pub struct Lent {
    words: Vec<u64>,
}

impl Lent {
    pub fn new(content: &[u64]) -> Lent {
        let mut words: Vec<u64> = (0..GUARDS).map(mark).collect();
        words.extend(content);
        words.extend((0..GUARDS).map(mark));
        Lent { words }
    }

    /// A slice that holds marks.
    pub fn blank(length: usize) -> Lent {
        let content: Vec<u64> = (0..length).map(mark).collect();
        Lent::new(&content)
    }

    pub fn pointer(&mut self) -> *mut u64 {
        self.words[GUARDS..].as_mut_ptr()
    }

    pub fn content(&self) -> &[u64] {
        &self.words[GUARDS..self.words.len() - GUARDS]
    }

    pub fn guarded(&self) -> bool {
        let (front, back) = (
            &self.words[..GUARDS],
            &self.words[self.words.len() - GUARDS..],
        );
        let marked = |(index, &word): (usize, &u64)| word == mark(index);
        front.iter().enumerate().all(marked) && back.iter().enumerate().all(marked)
    }

    /// Guards and content are still those of a new slice with this content.
    pub fn untouched(&self, content: &[u64]) -> bool {
        self.guarded() && self.content() == content
    }

    /// Guards and content are still those of a blank slice.
    pub fn blank_still(&self) -> bool {
        let marked = |(index, &word): (usize, &u64)| word == mark(index);
        self.guarded() && self.content().iter().enumerate().all(marked)
    }
}

unsafe extern "C" {
    fn mmap(
        at: *mut c_void,
        size: usize,
        access: c_int,
        flags: c_int,
        fd: c_int,
        from: i64,
    ) -> *mut c_void;
    fn mprotect(at: *mut c_void, size: usize, access: c_int) -> c_int;
}

const PAGE: usize = 4096;
const NO_ACCESS: c_int = 0;
const READ_WRITE: c_int = 1 | 2;
const PRIVATE_ANONYMOUS: c_int = 0x02 | 0x20;

/// Memory that ends at a page without access, for slices that are only read: a read past the end
/// of the slice ends the program by a signal.
pub struct Fence {
    start: *mut u8,
    capacity: usize,
}

impl Fence {
    pub fn new(least: usize) -> Fence {
        let capacity = least.next_multiple_of(PAGE);
        // SAFETY: a new mapping at a place of the system's choice, whose last page is then shut.
        unsafe {
            let at = mmap(
                ptr::null_mut(),
                capacity + PAGE,
                READ_WRITE,
                PRIVATE_ANONYMOUS,
                -1,
                0,
            );
            assert_ne!(at as isize, -1, "no memory for a fence");
            let start = at.cast::<u8>();
            let shut = mprotect(start.add(capacity).cast(), PAGE, NO_ACCESS);
            assert_eq!(shut, 0, "no page without access");
            Fence { start, capacity }
        }
    }

    /// Copies the bytes to the end of the memory, right before the shut page.
    pub fn place(&mut self, bytes: &[u8]) -> *const u8 {
        assert!(bytes.len() <= self.capacity, "the fence is too small");
        // SAFETY: the length was tested, and nothing else holds this memory.
        unsafe {
            let place = self.start.add(self.capacity - bytes.len());
            ptr::copy_nonoverlapping(bytes.as_ptr(), place, bytes.len());
            place
        }
    }

    /// The same for words.
    pub fn place_words(&mut self, words: &[u64]) -> *const u64 {
        let bytes: Vec<u8> = words.iter().flat_map(|word| word.to_ne_bytes()).collect();
        self.place(&bytes).cast()
    }

    /// The last bytes before the shut page are still these.
    pub fn holds(&self, bytes: &[u8]) -> bool {
        // SAFETY: the memory was placed whole, and nobody writes it while this reads.
        let all = unsafe { std::slice::from_raw_parts(self.start, self.capacity) };
        all.ends_with(bytes)
    }

    pub fn holds_words(&self, words: &[u64]) -> bool {
        let bytes: Vec<u8> = words.iter().flat_map(|word| word.to_ne_bytes()).collect();
        self.holds(&bytes)
    }
}
