//! The product's C functions, every call with its guards.
//!
//! Each wrapper first calls with answer slices of wrong lengths, none, one short and one long, and
//! asks that the call returns 0 and touches nothing. Then it calls with the right length, asks for
//! 1, and that nothing was touched but the answer and, where the function writes it, the scratch
//! slice. An answer that begins with a refusal carries 0 or a number that a condition has.

use crate::bench::Outcome;
use crate::lent::{Fence, Lent};
use reference::calls::{GRID, NUMBERS};

unsafe extern "C" {
    fn corkbingo_check(file: *const u8, file_len: usize, out: *mut u64, out_len: usize) -> u32;

    fn corkbingo_operations(file: *const u8, file_len: usize, out: *mut u64, out_len: usize)
    -> u32;

    fn corkbingo_bound(m: u64, out: *mut u64, out_len: usize) -> u32;

    fn corkbingo_grid(file: *const u8, file_len: usize, out: *mut u64, out_len: usize) -> u32;

    fn corkbingo_evaluate(
        file: *const u8,
        file_len: usize,
        vector: *const u64,
        vector_len: usize,
        scratch: *mut u64,
        scratch_len: usize,
        out: *mut u64,
        out_len: usize,
    ) -> u32;
}

type FileFunction = unsafe extern "C" fn(*const u8, usize, *mut u64, usize) -> u32;

/// The words of a refusal; shorter answers begin with none.
const REFUSAL: usize = 3;

/// The longest file, vector and table, in bytes, that a test lends.
const LONGEST_FILE: usize = 16_384;
const LONGEST_VECTOR: usize = 4_096;
#[cfg(feature = "tables")]
const LONGEST_TABLE: usize = 3_000_000;

/// The memory of the slices that are only read.
pub struct Product {
    pub(crate) file: Fence,
    pub(crate) vector: Fence,
    #[cfg(feature = "tables")]
    pub(crate) cells: Fence,
    #[cfg(feature = "sessions")]
    pub(crate) second: Fence,
}

impl Product {
    pub fn new() -> Product {
        Product {
            file: Fence::new(LONGEST_FILE),
            vector: Fence::new(LONGEST_VECTOR),
            #[cfg(feature = "tables")]
            cells: Fence::new(LONGEST_TABLE),
            #[cfg(feature = "sessions")]
            second: Fence::new(LONGEST_FILE),
        }
    }

    pub fn check(&mut self, file: &[u8]) -> Outcome<[u64; 3]> {
        self.file_call("check", corkbingo_check, file)
    }

    pub fn operations(&mut self, file: &[u8]) -> Outcome<[u64; 2]> {
        self.file_call("operations", corkbingo_operations, file)
    }

    pub fn grid(&mut self, file: &[u8]) -> Outcome<[u64; GRID]> {
        self.file_call("grid", corkbingo_grid, file)
    }

    pub fn bound(&mut self, m: u64) -> Outcome<[u64; 10]> {
        // SAFETY: the slice is lent as pointer and length.
        let mut call = |out, length| unsafe { corkbingo_bound(m, out, length) };
        wrong_lengths("bound", 10, &mut call)?;
        right_length("bound", &mut call)
    }

    /// The answer, and the scratch slice after the call.
    pub fn evaluate(
        &mut self,
        file: &[u8],
        vector: &[u64],
        scratch: &[u64],
    ) -> Outcome<([u64; 4], Vec<u64>)> {
        let name = "evaluate";
        let bytes = self.file.place(file);
        let entries = self.vector.place_words(vector);
        let mut lent = Lent::new(scratch);
        let work = lent.pointer();
        // SAFETY: each slice is lent as pointer and length, and no two of them overlap.
        let mut call = |out, length| unsafe {
            corkbingo_evaluate(
                bytes,
                file.len(),
                entries,
                vector.len(),
                work,
                scratch.len(),
                out,
                length,
            )
        };
        wrong_lengths(name, 4, &mut call)?;
        ask(lent.untouched(scratch), || {
            format!("{name}: a wrong answer length, yet the scratch slice was touched")
        })?;
        let answer = right_length(name, &mut call)?;
        ask(lent.guarded(), || {
            format!("{name}: wrote beside the scratch slice")
        })?;
        self.file_unchanged(name, file)?;
        ask(self.vector.holds_words(vector), || {
            format!("{name}: wrote to the vector")
        })?;
        Ok((answer, lent.content().to_vec()))
    }

    fn file_call<const LENGTH: usize>(
        &mut self,
        name: &str,
        function: FileFunction,
        file: &[u8],
    ) -> Outcome<[u64; LENGTH]> {
        let bytes = self.file.place(file);
        // SAFETY: each slice is lent as pointer and length, and the two do not overlap.
        let mut call = |out, length| unsafe { function(bytes, file.len(), out, length) };
        wrong_lengths(name, LENGTH, &mut call)?;
        let answer = right_length(name, &mut call)?;
        self.file_unchanged(name, file)?;
        Ok(answer)
    }

    pub(crate) fn file_unchanged(&self, name: &str, file: &[u8]) -> Outcome {
        ask(self.file.holds(file), || {
            format!("{name}: wrote to the file")
        })
    }
}

pub fn ask(holds: bool, what: impl FnOnce() -> String) -> Outcome {
    if holds { Ok(()) } else { Err(what()) }
}

/// Calls with answer slices of wrong lengths.
pub fn wrong_lengths(
    name: &str,
    length: usize,
    call: &mut impl FnMut(*mut u64, usize) -> u32,
) -> Outcome {
    for wrong in [0, length - 1, length + 1] {
        let mut out = Lent::blank(wrong);
        let returned = call(out.pointer(), wrong);
        ask(returned == 0, || {
            format!("{name}: returned {returned} for an answer of {wrong} words")
        })?;
        ask(out.blank_still(), || {
            format!("{name}: touched an answer of {wrong} words")
        })?;
    }
    Ok(())
}

/// Calls with an answer slice of the right length.
pub fn right_length<const LENGTH: usize>(
    name: &str,
    call: &mut impl FnMut(*mut u64, usize) -> u32,
) -> Outcome<[u64; LENGTH]> {
    let answer = perhaps(name, call)?;
    answer.ok_or_else(|| format!("{name}: returned 0 for an answer of {LENGTH} words"))
}

/// The same, where another slice may have the wrong layout: no answer where the call returns 0, and
/// then it has touched none.
pub fn perhaps<const LENGTH: usize>(
    name: &str,
    call: &mut impl FnMut(*mut u64, usize) -> u32,
) -> Outcome<Option<[u64; LENGTH]>> {
    let mut out = Lent::blank(LENGTH);
    match call(out.pointer(), LENGTH) {
        0 => {
            ask(out.blank_still(), || {
                format!("{name}: returned 0, yet the answer was touched")
            })?;
            Ok(None)
        }
        1 => {
            ask(out.guarded(), || format!("{name}: wrote beside the answer"))?;
            let answer: [u64; LENGTH] = std::array::from_fn(|index| out.content()[index]);
            ask(LENGTH < REFUSAL || NUMBERS.contains(&answer[0]), || {
                format!("{name}: answered {answer:?}, whose number no condition has")
            })?;
            Ok(Some(answer))
        }
        returned => Err(format!("{name}: returned {returned}")),
    }
}
