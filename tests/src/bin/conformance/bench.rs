//! One call of the product, compared with the reference or with a figure from the papers.

use crate::product::Product;
use reference::calls::{self, Evaluation, GRID};
use reference::sizes::words_of;
use std::fmt::Debug;

/// What went wrong, in words, where something did.
pub type Outcome<T = ()> = Result<T, String>;

pub struct Bench {
    pub(crate) product: Product,
    comparisons: u64,
}

impl Bench {
    pub fn new() -> Bench {
        Bench {
            product: Product::new(),
            comparisons: 0,
        }
    }

    pub fn comparisons(&self) -> u64 {
        self.comparisons
    }

    /// Counts a comparison; an error where the two are not the same.
    pub fn same<T: PartialEq + Debug + ?Sized>(
        &mut self,
        found: &T,
        expected: &T,
        what: impl FnOnce() -> String,
    ) -> Outcome {
        self.comparisons += 1;
        if found == expected {
            return Ok(());
        }
        Err(format!("{}: {found:?}, not {expected:?}", what()))
    }

    /// Checks the file, asks for its operations and its grid, and compares all three. Gives the
    /// refusal.
    pub fn file_calls(&mut self, file: &[u8]) -> Outcome<[u64; 3]> {
        let refusal = self.product.check(file)?;
        self.same(&refusal, &calls::check(file), || named("check", file))?;
        let stretch = self.product.operations(file)?;
        self.same(&stretch, &calls::operations(file), || {
            named("operations", file)
        })?;
        let grid = self.product.grid(file)?;
        self.same(&grid, &calls::grid(file), || named("grid", file))?;
        Ok(refusal)
    }

    /// Evaluates the file at the vector that these words give, and compares the answer and every
    /// scratch entry.
    pub fn evaluate(&mut self, file: &[u8], words: &[u64], scratch: &[u64]) -> Outcome<Evaluation> {
        let (answer, after) = self.product.evaluate(file, words, scratch)?;
        let expected = calls::evaluate(file, words, scratch);
        let call = || {
            let call = named("evaluate", file);
            format!("{call} at {words:?} with {} scratch words", scratch.len())
        };
        self.same(&answer, &expected.answer, call)?;
        let wrong = first_difference(&after, &expected.scratch);
        self.same(&wrong, &None, || format!("wrong scratch entry, {}", call()))?;
        Ok(expected)
    }

    /// The output of a sound file at a full-width vector, compared too.
    pub fn output(&mut self, file: &[u8], vector: &[i128]) -> Outcome<u64> {
        let scratch = vec![u64::MAX; file.len() / 9];
        let done = self.evaluate(file, &words_of(vector), &scratch)?;
        self.same(&done.answer[..3], &[0, 0, 0], || named("evaluate", file))?;
        Ok(done.answer[3])
    }

    /// All calls on a file that is to be refused so.
    pub fn refuses(&mut self, file: &[u8], expected: [u64; 3]) -> Outcome {
        let refusal = self.file_calls(file)?;
        self.same(&refusal, &expected, || named("check", file))?;
        self.evaluates(file, &[0; 4], 1030, expected)
    }

    /// Checks a file that is to be accepted.
    pub fn accepts(&mut self, file: &[u8]) -> Outcome {
        let refusal = self.file_calls(file)?;
        self.same(&refusal, &[0, 0, 0], || named("check", file))
    }

    /// Evaluates with so many scratch words, and asks for this refusal (zeros: accepted).
    pub fn evaluates(
        &mut self,
        file: &[u8],
        words: &[u64],
        scratch: usize,
        expected: [u64; 3],
    ) -> Outcome {
        let scratch: Vec<u64> = (1..=scratch as u64).collect();
        let done = self.evaluate(file, words, &scratch)?;
        self.same(&done.answer[..3], &expected, || named("evaluate", file))
    }

    pub fn bound(&mut self, m: u64) -> Outcome<[u64; 10]> {
        let answer = self.product.bound(m)?;
        self.same(&answer, &calls::bound(m), || format!("bound({m})"))?;
        Ok(answer)
    }

    pub fn grid(&mut self, file: &[u8]) -> Outcome<[u64; GRID]> {
        let answer = self.product.grid(file)?;
        self.same(&answer, &calls::grid(file), || named("grid", file))?;
        Ok(answer)
    }
}

/// Index and values at the first place where two lists of one length differ.
pub fn first_difference(found: &[u64], expected: &[u64]) -> Option<(usize, u64, u64)> {
    assert_eq!(found.len(), expected.len());
    let both = found.iter().zip(expected).enumerate();
    both.map(|(index, (&found, &expected))| (index, found, expected))
        .find(|(_, found, expected)| found != expected)
}

/// A call on a file, with the file's first bytes.
pub fn named(call: &str, file: &[u8]) -> String {
    const SHOWN: usize = 96;
    let shown = file.iter().take(SHOWN).map(|byte| format!("{byte:02x}"));
    let rest = if file.len() > SHOWN { ".." } else { "" };
    let hex: String = shown.collect();
    format!("{call} of {} bytes {hex}{rest}", file.len())
}
