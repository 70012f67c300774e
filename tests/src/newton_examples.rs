//! The difference tables among the figures of the papers: document 01's own, and the examples of
//! document 002 that give differences at the zero vector or coefficients of falling factorials.
//! A coefficient c at k stands in the table as c times the factorials of the entries of k.

use crate::examples::{quadratic, reduced};
use crate::expression::{Expression, x};

/// A polynomial with its sizes and the cells of its table that are not 0.
pub struct Tabled {
    pub name: &'static str,
    pub m: u64,
    pub widths: Vec<u64>,
    pub polynomial: Expression,
    pub cells: Vec<(Vec<u64>, u64)>,
}

impl Tabled {
    pub(crate) fn new(
        name: &'static str,
        sizes: (u64, &[u64]),
        polynomial: Expression,
        cells: &[(&[u64], u64)],
    ) -> Tabled {
        let cell = |&(k, cell): &(&[u64], u64)| (k.to_vec(), cell);
        Tabled {
            name,
            m: sizes.0,
            widths: sizes.1.to_vec(),
            polynomial,
            cells: cells.iter().map(cell).collect(),
        }
    }
}

pub fn tables() -> Vec<Tabled> {
    let of_quadratic: &[(&[u64], u64)] = &[(&[1], 7), (&[2], 8)];
    let of_product: &[(&[u64], u64)] = &[(&[1, 1], 4)];
    let of_reduced: &[(&[u64], u64)] = &[(&[0, 1], 3), (&[0, 2], 6), (&[1, 1], 4)];
    let wide: (u64, &[u64]) = (16, &[16, 16]);
    let small: (u64, &[u64]) = (3, &[1, 2]);
    let product = 4 * x(1) * x(2);
    let unreduced = x(1).power(2) + reduced() + 7 * x(1);
    vec![
        Tabled::new("document 01", (8, &[8]), quadratic(x(1)), of_quadratic),
        Tabled::new("IV.1 and IV.2", (64, &[64]), quadratic(x(1)), of_quadratic),
        Tabled::new("V.1", wide, product, of_product),
        Tabled::new("V.2", wide, reduced(), of_reduced),
        Tabled::new("V.6", small, unreduced, of_reduced),
        Tabled::new("V.7", small, reduced(), of_reduced),
    ]
}

#[cfg(test)]
mod tests {
    use super::*;
    use crate::file::read;
    use crate::grid::{axes, place_of};
    use crate::tables::difference_table;
    use crate::ten_inputs;

    #[test]
    fn the_reference_gives_the_tables() {
        for example in tables().into_iter().chain(ten_inputs::tables()) {
            let path = read(&example.polynomial.file(example.m, &example.widths), 1).unwrap();
            let axes = axes(&path.sizes);
            let found = difference_table(&path);
            let mut expected = vec![0; found.cells.len()];
            for (k, cell) in example.cells {
                expected[place_of(&axes, &k) as usize] = cell;
            }
            assert_eq!(found.cells, expected, "{}", example.name);
            assert!(found.exact);
        }
    }

    #[test]
    fn the_table_of_document_01() {
        let path = read(&quadratic(x(1)).file(8, &[8]), 1).unwrap();
        let table = difference_table(&path).cells;
        assert_eq!(table, [0, 7, 8, 0, 0, 0, 0, 0, 0, 0]);
    }
}
