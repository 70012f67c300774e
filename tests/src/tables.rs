//! What the C functions on tables answer, in the layouts of include/corkbingo.h: make the
//! difference table of a file, difference given outputs, sum.

use crate::big::Big;
use crate::calls::{ACCEPTED, refusal_words};
use crate::file::{Datapath, Refusal, read};
use crate::grid::{axes, size, vectors};
use crate::newton::{differences, exact_differences, sums};
use crate::sizes::{SIZES, Sizes};
use crate::value::{exact_values, output};

/// Tables of so many cells at most are confirmed by exact differences of exact values.
const EXACT_CELLS: u64 = 1_024;

/// A slice that was lent for a table or for outputs, after the call.
#[derive(Clone, Debug, PartialEq, Eq)]
pub struct Written {
    /// Number, file, step.
    pub answer: [u64; 3],
    pub cells: Vec<u64>,
}

#[derive(Clone, Debug, PartialEq, Eq)]
pub struct Made {
    pub written: Written,
    /// The scratch slice after the call.
    pub scratch: Vec<u64>,
    /// Whether exact values confirm the table.
    pub exact: bool,
}

/// A table of outputs or of differences, and whether exact values confirm it.
pub struct Table {
    pub cells: Vec<u64>,
    pub exact: bool,
}

/// The outputs of a file at all grid vectors.
pub fn outputs(path: &Datapath) -> Vec<u64> {
    let output = |vector: Vec<i128>| output(path, &vector).output;
    vectors(&path.sizes).map(output).collect()
}

/// The difference table of a file. Panics if exact values are worked out and disagree.
pub fn difference_table(path: &Datapath) -> Table {
    let m = path.sizes.m;
    let axes = axes(&path.sizes);
    let cells = differences(m, &axes, &outputs(path));
    let exact = exact_table(path, &axes);
    if let Some(exact) = &exact {
        assert_eq!(exact, &cells, "the reference's two tables disagree");
    }
    Table {
        cells,
        exact: exact.is_some(),
    }
}

/// The differences of the exact values, cut at the very end.
fn exact_table(path: &Datapath, axes: &[u64]) -> Option<Vec<u64>> {
    if size(axes) > EXACT_CELLS {
        return None;
    }
    let value = |vector: Vec<i128>| exact_values(path, &vector)?.pop();
    let values: Vec<Big> = vectors(&path.sizes).map(value).collect::<Option<_>>()?;
    let cut = |cell: &Big| cell.modulo_power(path.sizes.m as usize).to_u64();
    exact_differences(axes, values).iter().map(cut).collect()
}

/// The conditions 1 to 8, then 12, then 13, which here tests the length of the table slice alone.
pub fn table(file: &[u8], scratch: &[u64], table: &[u64]) -> Made {
    let mut scratch = scratch.to_vec();
    let mut cells = table.to_vec();
    let path = match read(file, 1) {
        Ok(path) if scratch.len() < path.steps.len() => Err(Refusal::plain(12)),
        Ok(path) if (cells.len() as u64) < size(&axes(&path.sizes)) => Err(Refusal::plain(13)),
        verdict => verdict,
    };
    let (refusal, exact) = match path {
        Err(refusal) => (refusal, false),
        Ok(path) => {
            let made = difference_table(&path);
            scratch[..path.steps.len()].fill(0);
            cells[..made.cells.len()].copy_from_slice(&made.cells);
            (ACCEPTED, made.exact)
        }
    };
    let answer = refusal_words(refusal);
    Made {
        written: Written { answer, cells },
        scratch,
        exact,
    }
}

/// Writes the differences of the given outputs; no answer where a size is no byte.
pub fn difference(numbers: &[u64; SIZES], outputs: &[u64], table: &[u64]) -> Option<Written> {
    rewritten(numbers, outputs, table, differences)
}

/// Writes the outputs of the given table; no answer where a size is no byte.
pub fn sum(numbers: &[u64; SIZES], table: &[u64], outputs: &[u64]) -> Option<Written> {
    rewritten(numbers, table, outputs, sums)
}

fn rewritten(
    numbers: &[u64; SIZES],
    given: &[u64],
    lent: &[u64],
    work: fn(u64, &[u64], &[u64]) -> Vec<u64>,
) -> Option<Written> {
    if numbers.iter().any(|&number| number > 255) {
        return None;
    }
    let mut cells = lent.to_vec();
    let refusal = match judge(numbers, given, lent) {
        Err(number) => Refusal::plain(number),
        Ok((sizes, count)) => {
            let new = work(sizes.m, &axes(&sizes), &given[..count]);
            cells[..count].copy_from_slice(&new);
            ACCEPTED
        }
    };
    let answer = refusal_words(refusal);
    Some(Written { answer, cells })
}

/// The sizes and G, or the condition that refuses: 2, 3, 5 or 13.
fn judge(numbers: &[u64; SIZES], given: &[u64], lent: &[u64]) -> Result<(Sizes, usize), u64> {
    let sizes = Sizes::from_numbers(numbers)?;
    let count = size(&axes(&sizes)) as usize;
    let above = |&cell: &u64| u128::from(cell) >= 1 << sizes.m;
    if given.len() < count || lent.len() < count || given[..count].iter().any(above) {
        return Err(13);
    }
    Ok((sizes, count))
}

#[cfg(test)]
mod tests {
    use super::*;
    use crate::pairs::SAMPLE_A;

    const SAMPLE: [u64; SIZES] = [2, 2, 1, 2, 0, 0, 0, 0, 0, 0, 0, 0];
    const OUTPUTS: [u64; 8] = [0, 0, 0, 0, 0, 1, 2, 3];
    const TABLE: [u64; 8] = [0, 0, 0, 0, 0, 1, 0, 0];

    #[test]
    fn the_table_of_the_sample() {
        let made = table(&SAMPLE_A, &[7; 4], &[9; 10]);
        assert_eq!(made.written.answer, [0, 0, 0]);
        assert_eq!(made.written.cells, [0, 0, 0, 0, 0, 1, 0, 0, 9, 9]);
        assert_eq!(
            (made.scratch.as_slice(), made.exact),
            (&[0, 0, 0, 7][..], true)
        );
        assert_eq!(difference(&SAMPLE, &OUTPUTS, &[9; 8]).unwrap().cells, TABLE);
        assert_eq!(sum(&SAMPLE, &TABLE, &[9; 8]).unwrap().cells, OUTPUTS);
    }

    #[test]
    fn refused_calls_touch_nothing() {
        let made = table(&SAMPLE_A, &[7; 2], &[9; 7]);
        assert_eq!(
            (made.written.answer, made.scratch),
            ([12, 0, 0], vec![7; 2])
        );
        let made = table(&SAMPLE_A, &[7; 3], &[9; 7]);
        assert_eq!(
            (made.written.answer, made.scratch),
            ([13, 0, 0], vec![7; 3])
        );
        let refused = Written {
            answer: [13, 0, 0],
            cells: vec![9; 8],
        };
        let above = [0, 0, 0, 0, 0, 0, 0, 4];
        assert_eq!(sum(&SAMPLE, &above, &[9; 8]), Some(refused.clone()));
        assert_eq!(difference(&SAMPLE, &OUTPUTS[1..], &[9; 8]), Some(refused));
    }

    #[test]
    fn sizes_that_are_no_bytes() {
        let mut sizes = SAMPLE;
        sizes[SIZES - 1] = 255;
        assert_eq!(sum(&sizes, &TABLE, &[]).unwrap().answer, [5, 0, 0]);
        sizes[SIZES - 1] = 256;
        assert_eq!(sum(&sizes, &TABLE, &[]), None);
    }
}
