//! Two datapaths compared at one vector after the other, with no sessions and no budgets.

use crate::file::Datapath;
use crate::value;

#[derive(Clone, Debug, PartialEq, Eq)]
pub enum Verdict {
    Equivalent,
    Differs {
        vector: Vec<i128>,
        outputs: [u64; 2],
    },
}

/// The verdict and the count of the vectors that were run for it.
#[derive(Clone, Debug, PartialEq, Eq)]
pub struct Comparison {
    pub verdict: Verdict,
    pub run: u64,
}

/// Compares the two outputs at these vectors, one after the other, up to the first that differs.
pub fn compare<E>(
    vectors: impl IntoIterator<Item = Vec<i128>>,
    mut outputs: impl FnMut(&[i128]) -> Result<[u64; 2], E>,
) -> Result<Comparison, E> {
    let mut run = 0;
    for vector in vectors {
        run += 1;
        let outputs = outputs(&vector)?;
        if outputs[0] != outputs[1] {
            let verdict = Verdict::Differs { vector, outputs };
            return Ok(Comparison { verdict, run });
        }
    }
    let verdict = Verdict::Equivalent;
    Ok(Comparison { verdict, run })
}

/// The same by the reference's own outputs.
pub fn compare_paths(
    vectors: impl IntoIterator<Item = Vec<i128>>,
    left: &Datapath,
    right: &Datapath,
) -> Comparison {
    let both = |vector: &[i128]| [left, right].map(|path| value::output(path, vector).output);
    let Ok(comparison) = compare(vectors, |vector| {
        Ok::<_, std::convert::Infallible>(both(vector))
    });
    comparison
}
