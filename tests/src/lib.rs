//! A second implementation of documents 01 and 02, in plain Rust with exact integers.
//!
//! It is written from these two alone and shares nothing with the product: no table, no code, no
//! wrapping arithmetic. The test program `conformance` holds the product against it.
//!
//! | Module | Subject |
//! |---|---|
//! | `big` | signed integers of any size |
//! | `sizes` | m, d and the widths, and their rules 2, 3 and 5; the values of an input as words |
//! | `file` | reading a datapath file, refusals 1 to 8, the operation stretch |
//! | `older` | the reader of versions that take eight unsigned inputs at most |
//! | `value` | exact values of the steps; the output |
//! | `bound` | L(m) |
//! | `grid` | axes, places, vectors, dictionary order |
//! | `newton` | binomials, forward differences, sums |
//! | `compare` | two outputs compared over a list of vectors, plainly |
//! | `calls` | the answers of the C functions, in words |
//! | `tables` | the same of the functions on tables |
//! | `sessions` | the same of opening and continuing |
//! | `report` | the lines of the comparing program |
//! | `expression` | polynomials as expressions, and files built from them |
//! | `pairs` | the pairs of document 01 |
//! | `examples` | the worked examples of document 002 |
//! | `newton_examples` | the difference tables of both documents |
//! | `ten_inputs` | files, pairs and tables of eight to ten inputs |
//! | `signed` | files, pairs, outputs and tables of signed inputs |
//! | `random` | a generator of numbers with a fixed seed |
//! | `samples` | random files, sound and damaged |
//! | `twins` | random pairs of datapaths with the same sizes |
//! | `spots` | datapaths that differ at chosen vectors alone |
//! | `mixed` | random datapaths of an exact count of steps, and rewritten ones |

pub mod big;
pub mod bound;
pub mod calls;
pub mod compare;
pub mod examples;
pub mod expression;
pub mod file;
pub mod grid;
pub mod mixed;
pub mod newton;
pub mod newton_examples;
pub mod older;
pub mod pairs;
pub mod random;
pub mod report;
pub mod samples;
pub mod sessions;
pub mod signed;
pub mod sizes;
pub mod spots;
pub mod tables;
pub mod ten_inputs;
pub mod twins;
pub mod value;
