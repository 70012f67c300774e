//! Opening and continuing.
//!
//! | Module | Subject |
//! |---|---|
//! | `product` | the C functions, every call with its guards |
//! | `bench` | one call compared with the reference |
//! | `refusals` | each refusal, and which comes first where several conditions hold |
//! | `positions` | every position, mark and field of a session |
//! | `replay` | the pairs of the documents, of ten and of signed inputs, by budgets |
//! | `signs` | every mix of signed and unsigned inputs |
//! | `exhaustive` | pairs of few bits, at all full-width vectors |
//! | `biased` | signed pairs beside biased ones |
//! | `large` | large grids, at their ends and between |
//! | `largest` | the largest grids of eight to ten inputs, from their last places |
//! | `lists` | random lists of calls, held against demand 3 |
//! | `soak` | random sessions with random files |
//! | `runs` | pairs whose outputs are worked out once, from any place |
//! | `spans` | equivalent pairs, by budgets around batches, lines and groups of lines |
//! | `differences` | pairs that differ at chosen places |
//! | `counts` | pairs of chosen counts of steps; scratch slices |
//! | `reports` | the text of an answer |

mod bench;
mod biased;
mod counts;
mod differences;
mod exhaustive;
mod large;
mod largest;
mod lists;
mod positions;
mod product;
mod refusals;
mod replay;
mod reports;
mod runs;
mod signs;
mod soak;
mod spans;

use crate::Group;

/// Two files, in the order of the call.
type Files<'a> = [&'a [u8]; 2];

pub const GROUPS: [Group; 26] = [
    ("openings refused", None, refusals::opening),
    ("precedence in open and continue", None, refusals::subsets),
    ("sizes of the two files", None, refusals::sizes),
    (
        "pairs of document 01 and of ten inputs by budgets",
        None,
        replay::pairs,
    ),
    (
        "equivalences of document 002 by budgets",
        None,
        replay::examples,
    ),
    (
        "pairs of signed inputs by budgets",
        None,
        replay::signed_pairs,
    ),
    ("mixes of signs", Some(signs::SEED), signs::mixes),
    (
        "pairs at all full-width vectors",
        Some(exhaustive::SEED),
        exhaustive::pairs,
    ),
    (
        "signed pairs beside biased ones",
        Some(biased::SEED),
        biased::pairs,
    ),
    ("positions and marks", None, positions::places),
    ("damaged sessions", None, positions::fields),
    (
        "sessions on large grids",
        Some(large::SEED),
        large::sessions,
    ),
    ("the largest grids", None, largest::sessions),
    ("random lists of calls", Some(lists::SEED), lists::lists),
    ("random sessions", Some(soak::SEED), soak::sessions),
    ("spans of equivalent pairs", Some(spans::SEED), spans::spans),
    (
        "spans at the ends of large grids",
        Some(spans::ENDS_SEED),
        spans::ends,
    ),
    (
        "first differences at every place",
        Some(differences::PLACES_SEED),
        differences::places,
    ),
    (
        "first differences on large grids",
        Some(differences::FAR_SEED),
        differences::far,
    ),
    (
        "several differences in a group of lines",
        Some(differences::SEVERAL_SEED),
        differences::several,
    ),
    ("counts of steps", Some(counts::COUNTS_SEED), counts::counts),
    (
        "steps along a line",
        Some(counts::LINES_SEED),
        counts::lines,
    ),
    (
        "longer scratch slices",
        Some(counts::SCRATCH_SEED),
        counts::scratches,
    ),
    (
        "reports of verdicts and refusals",
        Some(reports::VERDICTS_SEED),
        reports::verdicts,
    ),
    ("reports of signed inputs", None, reports::signs),
    (
        "reports of any answer",
        Some(reports::ANSWERS_SEED),
        reports::answers,
    ),
];
