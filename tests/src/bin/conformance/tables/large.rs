//! Tables of a few hundred thousand cells: every cell against the reference's way input by input,
//! and some against the closed forms.

use crate::bench::{Bench, Outcome};
use reference::expression::{Expression, x};
use reference::file::{Datapath, SHORT_INPUTS, Step, read, write};
use reference::grid::{axes, place_of, size, vectors};
use reference::newton::{difference_at, sum_at};
use reference::random::Random;
use reference::samples::top;
use reference::sizes::{INPUTS, SIGNED, Sizes};
use reference::tables::outputs;
use reference::twins::late;

pub const SEED: u64 = 0x1a26_e5ee_d000;

/// Closed forms are worked out at so many places of a table.
const SPOTS: usize = 8;

/// A vector with few terms in its closed form: entries are halved until there are few.
fn spot(random: &mut Random, axes: &[u64]) -> Vec<u64> {
    let mut vector: Vec<u64> = axes.iter().map(|&axis| random.below(axis)).collect();
    while vector.iter().map(|entry| entry + 1).product::<u64>() > 60_000 {
        let input = random.index(vector.len());
        vector[input] /= 2;
    }
    vector
}

pub fn tables(bench: &mut Bench) -> Outcome {
    let mut random = Random::new(SEED);
    let list: [(u64, &[u64]); 8] = [
        (16, &[SIGNED + 16, 16, SIGNED + 16]),
        (64, &[SIGNED + 64, SIGNED + 6]),
        (61, &[SIGNED + 6, 1, 1, 129, 1, 1, 129, 1]),
        (64, &[64, 64, 64]),
        (4, &[4; 7]),
        (61, &[6, 1, 1, 1, 1, 1, 1, 4]),
        (61, &[4, 1, 1, 1, 1, 1, 1, 1, 6]),
        (61, &[6, 4, 1, 1, 1, 1, 1, 1, 1, 1]),
    ];
    for (m, widths) in list {
        let sizes = Sizes {
            m,
            widths: widths.to_vec(),
        };
        let axes = axes(&sizes);
        let cells: Vec<u64> = (0..size(&axes)).map(|_| random.word() & top(m)).collect();
        let table = bench.differences(&sizes, &cells)?;
        let values = bench.sums(&sizes, &cells)?;
        for _ in 0..SPOTS {
            let at = spot(&mut random, &axes);
            let place = place_of(&axes, &at) as usize;
            let closed = difference_at(m, &axes, &cells, &at);
            bench.same(&table[place], &closed, || {
                format!("difference at {at:?}, {sizes:?}")
            })?;
            let closed = sum_at(m, &axes, &cells, &at);
            bench.same(&values[place], &closed, || {
                format!("sum at {at:?}, {sizes:?}")
            })?;
        }
        let summed = bench.sums(&sizes, &table)?;
        bench.cells(&summed, &cells, || format!("sum of differences, {sizes:?}"))?;
        let differenced = bench.differences(&sizes, &values)?;
        bench.cells(&differenced, &cells, || {
            format!("differences of sums, {sizes:?}")
        })?;
    }
    Ok(())
}

/// A product of falling factorials, counted from the lowest values, has one cell that is not 0: at
/// its degrees, the product of their factorials. A sum of inputs has the outputs' closed form at
/// hand.
pub fn files(bench: &mut Bench) -> Outcome {
    for (m, widths) in [(64, [64; 3]), (32, [SIGNED + 32, 32, SIGNED + 64])] {
        let widths = widths.to_vec();
        let sizes = Sizes { m, widths };
        let grid = axes(&sizes);
        let degrees = [5, 11, 3];
        let zero = Datapath {
            sizes: sizes.clone(),
            steps: vec![Step::Constant(0)],
        };
        let table = bench.table_of(&write(&late(&zero, &degrees)), size(&grid) as usize)?;
        let mut expected = vec![0; table.len()];
        let factorials = degrees.map(|k| (1..=k).product::<u64>());
        let product = factorials.iter().product::<u64>();
        expected[place_of(&grid, &degrees) as usize] = product & top(m);
        bench.cells(&table, &expected, || String::from("falling factorials"))?;
    }
    let unsigned = (SHORT_INPUTS..=INPUTS).map(|d| (d, 0));
    for (d, mark) in unsigned.chain([(SHORT_INPUTS + 1, SIGNED)]) {
        let polynomial: Expression = 3 * x(1) * x(2) * x(d) - x(d - 1) * x(3) + 5;
        let mut widths = vec![mark + 1; d];
        widths[..2].copy_from_slice(&[16, mark + 16]);
        let file = polynomial.file(16, &widths);
        let path = read(&file, 1).map_err(|refusal| format!("{refusal:?}"))?;
        let grid = axes(&path.sizes);
        let table = bench.table_of(&file, size(&grid) as usize)?;
        let summed = bench.sums(&path.sizes, &table)?;
        bench.cells(&summed, &outputs(&path), || String::from("sum of a table"))?;
        for (vector, &output) in vectors(&path.sizes).zip(&summed) {
            let integer = polynomial.at(&vector).rem_euclid(1 << 16) as u64;
            bench.same(&output, &integer, || format!("output at {vector:?}"))?;
        }
    }
    Ok(())
}
