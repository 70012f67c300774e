//! Files cut, lengthened, and changed byte by byte; each compared in all calls.

use crate::bench::{Bench, Outcome};
use crate::refusals::plain;
use reference::expression::{falling, x};
use reference::file::{LONG_HEAD, SHORT_HEAD, SHORT_INPUTS, STEPS, length};
use reference::pairs::{SAMPLE_A, SAMPLE_B};
use reference::signed::SAMPLE_SIGNED;
use reference::sizes::{INPUTS, SIGNED};
use reference::ten_inputs::SAMPLE_NINE;

/// Small files that between them hold every operation, one input and eight to ten, signed ones too,
/// m 1 and 64.
fn small_files() -> Vec<Vec<u8>> {
    vec![
        SAMPLE_A.to_vec(),
        SAMPLE_B.to_vec(),
        plain(1, &[1], 1),
        (falling(x(1), 2) + 3).file(8, &[8]),
        (x(8) * 5 - x(1)).file(64, &[1, 64, 2, 63, 3, 62, 4, 61]),
        SAMPLE_NINE.to_vec(),
        (x(10) * 5 - x(9)).file(64, &[1, 64, 2, 63, 3, 62, 4, 61, 5, 60]),
        SAMPLE_SIGNED.to_vec(),
        (falling(x(1), 2) + 3).file(8, &[SIGNED + 1]),
        (x(10) * 5 - x(9)).file(
            64,
            &[129, 192, 2, 63, 131, 62, 4, 61, SIGNED + 64, SIGNED + 1],
        ),
    ]
}

/// Whether a width has the mark of a signed input.
fn marked(file: &[u8]) -> bool {
    file.iter().take(LONG_HEAD).skip(4).any(|&byte| byte >= 128)
}

/// All calls, with a vector and a scratch slice that a sound file of these sizes takes: where inputs
/// are signed, also with that of −1 in each.
fn compare(bench: &mut Bench, file: &[u8], inputs: usize) -> Outcome {
    bench.file_calls(file)?;
    bench.evaluate(file, &vec![1; inputs], &[u64::MAX; 20])?;
    bench.evaluate(file, &vec![0; inputs], &[3; 4])?;
    if marked(file) {
        bench.evaluate(file, &vec![u64::MAX; inputs], &[u64::MAX; 20])?;
    }
    Ok(())
}

/// Every length from 0 up to the file's own, then on past the longest file there is. The shorter ones
/// also where d says that the head is the short one, or the long one.
pub fn lengths(bench: &mut Bench) -> Outcome {
    for file in small_files() {
        let inputs = usize::from(file[1]);
        for cut in 0..=file.len() {
            compare(bench, &file[..cut], inputs)?;
        }
        let mut longer = file.clone();
        while longer.len() < length(INPUTS, STEPS) + 100 {
            longer.push(longer.len() as u8);
            compare(bench, &longer, inputs)?;
        }
        longer.truncate(file.len() + LONG_HEAD - SHORT_HEAD);
        for d in SHORT_INPUTS..=INPUTS {
            longer[1] = d as u8;
            for cut in 0..=longer.len() {
                compare(bench, &longer[..cut], d)?;
            }
        }
    }
    for d in [SHORT_INPUTS, INPUTS] {
        let mut largest = plain(64, &vec![64; d], STEPS);
        compare(bench, &largest, d)?;
        for extra in [1, 2, 8, 9, 1000] {
            largest.resize(length(d, STEPS) + extra, 0);
            bench.refuses(&largest, [6, 1, 0])?;
        }
    }
    Ok(())
}

/// Every byte of every small file, at each of the 255 other values.
pub fn bytes(bench: &mut Bench) -> Outcome {
    for file in small_files() {
        let inputs = usize::from(file[1]);
        for place in 0..file.len() {
            let mut damaged = file.clone();
            for change in 1..=255 {
                damaged[place] = file[place] ^ change;
                compare(bench, &damaged, inputs)?;
            }
        }
    }
    Ok(())
}
