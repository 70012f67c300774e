//! The tables of both documents, those of nine and ten inputs and of signed ones: made from the file,
//! differenced from its outputs, and summed.

use crate::bench::{Bench, Outcome};
use reference::grid::{axes, place_of, size, vectors};
use reference::newton_examples;
use reference::signed;
use reference::sizes::Sizes;
use reference::ten_inputs;

pub fn tables(bench: &mut Bench) -> Outcome {
    let list = newton_examples::tables().into_iter();
    let many = ten_inputs::tables().into_iter();
    for example in list.chain(many).chain(signed::tables()) {
        let name = example.name;
        let file = example.polynomial.file(example.m, &example.widths);
        let sizes = Sizes {
            m: example.m,
            widths: example.widths,
        };
        let axes = axes(&sizes);
        let mut expected = vec![0; size(&axes) as usize];
        for (k, cell) in example.cells {
            expected[place_of(&axes, &k) as usize] = cell;
        }
        let mut outputs = Vec::new();
        for vector in vectors(&sizes) {
            outputs.push(bench.output(&file, &vector)?);
        }
        let made = bench.table_of(&file, expected.len())?;
        bench.cells(&made, &expected, || format!("table of {name}"))?;
        let table = bench.differences(&sizes, &outputs)?;
        bench.cells(&table, &expected, || format!("differences of {name}"))?;
        let summed = bench.sums(&sizes, &expected)?;
        bench.cells(&summed, &outputs, || format!("sums of {name}"))?;
    }
    Ok(())
}
