//! The product's functions on tables, every call with its guards.

use crate::bench::Outcome;
use crate::lent::Lent;
use crate::product::{Product, ask, perhaps, right_length, wrong_lengths};
use reference::sizes::SIZES;
use reference::tables::Written;

unsafe extern "C" {
    fn corkbingo_table(
        file: *const u8,
        file_len: usize,
        scratch: *mut u64,
        scratch_len: usize,
        table: *mut u64,
        table_len: usize,
        out: *mut u64,
        out_len: usize,
    ) -> u32;

    fn corkbingo_difference(
        sizes: *const u64,
        sizes_len: usize,
        outputs: *const u64,
        outputs_len: usize,
        table: *mut u64,
        table_len: usize,
        out: *mut u64,
        out_len: usize,
    ) -> u32;

    fn corkbingo_sum(
        sizes: *const u64,
        sizes_len: usize,
        table: *const u64,
        table_len: usize,
        outputs: *mut u64,
        outputs_len: usize,
        out: *mut u64,
        out_len: usize,
    ) -> u32;
}

type CellFunction = unsafe extern "C" fn(
    *const u64,
    usize,
    *const u64,
    usize,
    *mut u64,
    usize,
    *mut u64,
    usize,
) -> u32;

/// m, d and the ten word lengths.
pub type Numbers = [u64; SIZES];

impl Product {
    /// The table slice with the refusal, and the scratch slice, after the call.
    pub fn table(
        &mut self,
        file: &[u8],
        scratch: &[u64],
        table: &[u64],
    ) -> Outcome<(Written, Vec<u64>)> {
        let name = "table";
        let bytes = self.file.place(file);
        let (mut work, mut target) = (Lent::new(scratch), Lent::new(table));
        let (work_at, target_at) = (work.pointer(), target.pointer());
        // SAFETY: each slice is lent as pointer and length, and no two of them overlap.
        let mut call = |out, length| unsafe {
            corkbingo_table(
                bytes,
                file.len(),
                work_at,
                scratch.len(),
                target_at,
                table.len(),
                out,
                length,
            )
        };
        wrong_lengths(name, 3, &mut call)?;
        ask(work.untouched(scratch) && target.untouched(table), || {
            format!("{name}: a wrong answer length, yet a lent slice was touched")
        })?;
        let answer = right_length(name, &mut call)?;
        ask(work.guarded() && target.guarded(), || {
            format!("{name}: wrote beside a lent slice")
        })?;
        self.file_unchanged(name, file)?;
        let cells = target.content().to_vec();
        Ok((Written { answer, cells }, work.content().to_vec()))
    }

    /// The table slice with the refusal, after the call; none where the call returns 0.
    pub fn difference(
        &mut self,
        numbers: &Numbers,
        outputs: &[u64],
        table: &[u64],
    ) -> Outcome<Option<Written>> {
        self.cell_call("difference", corkbingo_difference, numbers, outputs, table)
    }

    /// The output slice with the refusal, after the call; none where the call returns 0.
    pub fn sum(
        &mut self,
        numbers: &Numbers,
        table: &[u64],
        outputs: &[u64],
    ) -> Outcome<Option<Written>> {
        self.cell_call("sum", corkbingo_sum, numbers, table, outputs)
    }

    fn cell_call(
        &mut self,
        name: &str,
        function: CellFunction,
        numbers: &Numbers,
        given: &[u64],
        lent: &[u64],
    ) -> Outcome<Option<Written>> {
        let source = self.cells.place_words(given);
        let mut target = Lent::new(lent);
        let target_at = target.pointer();
        let mut longer = numbers.to_vec();
        longer.push(0);
        // The call with the first `count` of these words as sizes.
        let mut call = |count: usize, out, length| {
            let sizes = self.vector.place_words(&longer[..count]);
            // SAFETY: each slice is lent as pointer and length, and no two of them overlap.
            unsafe {
                function(
                    sizes,
                    count,
                    source,
                    given.len(),
                    target_at,
                    lent.len(),
                    out,
                    length,
                )
            }
        };
        let right = numbers.len();
        wrong_lengths(name, 3, &mut |out, length| call(right, out, length))?;
        for wrong in [0, right - 1, right + 1] {
            let answer = perhaps::<3>(name, &mut |out, length| call(wrong, out, length))?;
            ask(answer.is_none(), || {
                format!("{name}: answered {answer:?} to {wrong} sizes")
            })?;
        }
        ask(target.untouched(lent), || {
            format!("{name}: a wrong length, yet the lent slice was touched")
        })?;
        let answer = perhaps(name, &mut |out, length| call(right, out, length))?;
        ask(target.guarded(), || {
            format!("{name}: wrote beside the lent slice")
        })?;
        let kept = self.vector.holds_words(numbers) && self.cells.holds_words(given);
        ask(kept, || format!("{name}: wrote to a slice that it reads"))?;
        let Some(answer) = answer else {
            let what = || format!("{name}: returned 0, yet the lent slice was touched");
            return ask(target.untouched(lent), what).map(|()| None);
        };
        let cells = target.content().to_vec();
        Ok(Some(Written { answer, cells }))
    }
}
