//! One call on tables, compared with the reference.

use super::product::Numbers;
use crate::bench::{Bench, Outcome, first_difference, named};
use reference::sizes::Sizes;
use reference::tables::{self, Made, Written};

/// The content of lent slices before a call; of no meaning.
pub fn filling(length: usize) -> Vec<u64> {
    (0..length as u64).map(|index| !index).collect()
}

impl Bench {
    /// Makes the table of a file and compares the answer and every entry of both slices.
    pub fn table(&mut self, file: &[u8], scratch: &[u64], table: &[u64]) -> Outcome<Made> {
        let (written, after) = self.product.table(file, scratch, table)?;
        let expected = tables::table(file, scratch, table);
        let call = || {
            let call = named("table", file);
            let (scratch, table) = (scratch.len(), table.len());
            format!("{call} with {scratch} scratch words and {table} cells")
        };
        self.written(&written, &expected.written, call)?;
        let wrong = first_difference(&after, &expected.scratch);
        self.same(&wrong, &None, || format!("wrong scratch entry, {}", call()))?;
        Ok(expected)
    }

    /// The table of a sound file, compared too.
    pub fn table_of(&mut self, file: &[u8], cells: usize) -> Outcome<Vec<u64>> {
        let made = self.table(file, &filling(file.len() / 9), &filling(cells))?;
        self.same(&made.written.answer, &[0, 0, 0], || named("table", file))?;
        Ok(made.written.cells)
    }

    /// Differences the outputs and compares the return value, the answer and every entry.
    pub fn difference(
        &mut self,
        numbers: &Numbers,
        outputs: &[u64],
        table: &[u64],
    ) -> Outcome<Option<Written>> {
        let found = self.product.difference(numbers, outputs, table)?;
        let expected = tables::difference(numbers, outputs, table);
        let call = || call("difference", numbers, outputs, table);
        self.perhaps_written(&found, &expected, call)?;
        Ok(expected)
    }

    /// Sums the table and compares the return value, the answer and every entry.
    pub fn sum(
        &mut self,
        numbers: &Numbers,
        table: &[u64],
        outputs: &[u64],
    ) -> Outcome<Option<Written>> {
        let found = self.product.sum(numbers, table, outputs)?;
        let expected = tables::sum(numbers, table, outputs);
        let call = || call("sum", numbers, table, outputs);
        self.perhaps_written(&found, &expected, call)?;
        Ok(expected)
    }

    /// The differences of all outputs on the grid, compared too.
    pub fn differences(&mut self, sizes: &Sizes, outputs: &[u64]) -> Outcome<Vec<u64>> {
        let lent = filling(outputs.len());
        let written = self.difference(&sizes.numbers(), outputs, &lent)?;
        self.accepted("difference", sizes, written)
    }

    /// The outputs of a whole table, compared too.
    pub fn sums(&mut self, sizes: &Sizes, table: &[u64]) -> Outcome<Vec<u64>> {
        let lent = filling(table.len());
        let written = self.sum(&sizes.numbers(), table, &lent)?;
        self.accepted("sum", sizes, written)
    }

    fn accepted(
        &mut self,
        name: &str,
        sizes: &Sizes,
        written: Option<Written>,
    ) -> Outcome<Vec<u64>> {
        let answer = written.as_ref().map(|written| written.answer);
        self.same(&answer, &Some([0, 0, 0]), || format!("{name}, {sizes:?}"))?;
        Ok(written.map_or(Vec::new(), |written| written.cells))
    }

    fn perhaps_written(
        &mut self,
        found: &Option<Written>,
        expected: &Option<Written>,
        call: impl Fn() -> String,
    ) -> Outcome {
        match (found, expected) {
            (Some(found), Some(expected)) => self.written(found, expected, call),
            _ => {
                let returned = (found.is_some(), expected.is_some());
                self.same(&returned.0, &returned.1, || format!("{} answers", call()))
            }
        }
    }

    fn written(
        &mut self,
        found: &Written,
        expected: &Written,
        call: impl Fn() -> String,
    ) -> Outcome {
        self.same(&found.answer, &expected.answer, &call)?;
        self.cells(&found.cells, &expected.cells, call)
    }

    /// Compares two slices; shows the first difference alone.
    pub fn cells(
        &mut self,
        found: &[u64],
        expected: &[u64],
        what: impl FnOnce() -> String,
    ) -> Outcome {
        let wrong = first_difference(found, expected);
        self.same(&wrong, &None, || format!("wrong cell, {}", what()))
    }
}

fn call(name: &str, numbers: &Numbers, given: &[u64], lent: &[u64]) -> String {
    let (read, written) = (given.len(), lent.len());
    format!("{name} of sizes {numbers:?} from {read} to {written} cells")
}
