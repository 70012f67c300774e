//! Difference tables and sums.
//!
//! | Module | Subject |
//! |---|---|
//! | `product` | the C functions, every call with its guards |
//! | `bench` | one call compared with the reference |
//! | `papers` | the tables of both documents |
//! | `refusals` | each refusal, and the lengths, cells and sizes next to it |
//! | `soak` | random tables, and tables of random files |
//! | `large` | tables of a few hundred thousand cells |

mod bench;
mod large;
mod papers;
mod product;
mod refusals;
mod soak;

use crate::Group;

pub const GROUPS: [Group; 10] = [
    ("tables of the documents", None, papers::tables),
    ("precedence in table", None, refusals::of_table),
    ("precedence in difference and sum", None, refusals::of_cells),
    ("lengths of tables", None, refusals::lengths),
    ("cells of tables", None, refusals::cells),
    ("sizes as numbers", None, refusals::numbers),
    ("random tables", Some(soak::SEED), soak::tables),
    ("tables of random files", Some(soak::SEED + 1), soak::files),
    ("large tables", Some(large::SEED), large::tables),
    ("large tables of files", Some(large::SEED + 1), large::files),
];
