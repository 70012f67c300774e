//! Which refusal is given where several conditions hold: every set of sixteen faults at once, and of
//! those in the head and at the first and last step where the file has eight inputs or more, or
//! signed ones.

use crate::bench::{Bench, Outcome};
use crate::faults::{
    Fault, FileFault, MANY_WIDTHS, SIGNED_WIDTHS, STEPS, WIDTHS, at_the_ends, of_file, sound_file,
    sound_sizes, subsets,
};
use reference::sizes::words_of;

/// What a call of evaluate is given.
struct Call {
    file: Vec<u8>,
    vector: Vec<u64>,
    scratch: usize,
}

fn sound(widths: &[u64]) -> Call {
    Call {
        file: sound_file(widths),
        vector: words_of(&sound_sizes(widths).highest()),
        scratch: STEPS,
    }
}

fn faults(widths: &[u64], chosen: fn(&FileFault) -> bool) -> Vec<Fault<Call>> {
    let mut list = of_file(1, widths, chosen, |call: &mut Call| &mut call.file);
    list.push(([12, 0, 0], Box::new(|call| call.scratch -= 1)));
    list.push(([14, 0, 0], Box::new(|call| call.vector[1] += 1)));
    list
}

pub fn evaluate(bench: &mut Bench) -> Outcome {
    every(bench, &WIDTHS, |_| true)?;
    for widths in MANY_WIDTHS.into_iter().chain(SIGNED_WIDTHS) {
        every(bench, widths, at_the_ends)?;
    }
    Ok(())
}

fn every(bench: &mut Bench, widths: &[u64], chosen: fn(&FileFault) -> bool) -> Outcome {
    for (call, refusal) in subsets(&faults(widths, chosen), || sound(widths)) {
        bench.evaluates(&call.file, &call.vector, call.scratch, refusal)?;
        let of_file = if refusal[0] > 8 { [0, 0, 0] } else { refusal };
        let checked = bench.file_calls(&call.file)?;
        bench.same(&checked, &of_file, || format!("check, not {refusal:?}"))?;
    }
    Ok(())
}
