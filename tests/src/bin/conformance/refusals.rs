//! Each refusal at the first and at the last place where it can occur, with the number, file and
//! step that the documents give it; and the values next to it, which are accepted.

use crate::bench::{Bench, Outcome};
use reference::file::{
    Datapath, LONG_HEAD, SHORT_HEAD, SHORT_INPUTS, STEPS, Step, head as head_of, length, write,
};
use reference::signed::{self, SAMPLE_SIGNED, SAMPLE_SIGNED_TEN, ZERO_SIGNED};
use reference::sizes::{INPUTS, SIGNED, Sizes};
use reference::ten_inputs::{self, SAMPLE_NINE, SAMPLE_TEN, ZERO_TEN};

/// Counts of inputs with either head: few, the most of the short one, and those of the long one.
const INPUT_COUNTS: [usize; 4] = [2, SHORT_INPUTS, SHORT_INPUTS + 1, INPUTS];

/// A sound file of `count` steps, all of them inputs, and of any sizes.
pub fn plain(m: u64, widths: &[u64], count: usize) -> Vec<u8> {
    let widths = widths.to_vec();
    let steps = (0..count).map(|step| Step::Input(step % widths.len()));
    write(&Datapath {
        steps: steps.collect(),
        sizes: Sizes { m, widths },
    })
}

/// The file with this operation and this argument at the step.
fn with_step(file: &[u8], step: usize, operation: u8, argument: u64) -> Vec<u8> {
    let mut bytes = file.to_vec();
    let head = head_of(usize::from(file[1]));
    let count = (bytes.len() - head) / 9;
    bytes[head + step] = operation;
    let start = head + count + 8 * step;
    bytes[start..start + 8].copy_from_slice(&argument.to_le_bytes());
    bytes
}

fn with_byte(file: &[u8], place: usize, byte: u8) -> Vec<u8> {
    let mut bytes = file.to_vec();
    bytes[place] = byte;
    bytes
}

/// Each of these counts of steps with each count of inputs.
fn counts<const LENGTH: usize>(steps: [usize; LENGTH]) -> impl Iterator<Item = (usize, usize)> {
    let with = |count| INPUT_COUNTS.into_iter().map(move |d| (count, d));
    steps.into_iter().flat_map(with)
}

/// Widths of 8 bits for d inputs: all unsigned, and every other one signed.
fn bytes(d: usize) -> [Vec<u64>; 2] {
    let signed = (0..d as u64).map(|input| SIGNED * (1 - input % 2) + 8);
    [vec![8; d], signed.collect()]
}

/// The smallest file, and the largest ones with the short head and with the long one; those also of
/// signed inputs.
fn ends() -> [Vec<u8>; 6] {
    [
        plain(1, &[1], 1),
        plain(64, &[64; SHORT_INPUTS], STEPS),
        plain(64, &[64; INPUTS], STEPS),
        plain(1, &[SIGNED + 1], 1),
        plain(64, &[SIGNED + 64; SHORT_INPUTS], STEPS),
        plain(64, &[SIGNED + 64; INPUTS], STEPS),
    ]
}

/// Numbers 2 to 5, and the sizes at both ends of their ranges.
pub fn head(bench: &mut Bench) -> Outcome {
    for file in ends() {
        bench.accepts(&file)?;
        for m in [0, 65, 128, 255] {
            bench.refuses(&with_byte(&file, 0, m), [2, 1, 0])?;
        }
        for d in [0, INPUTS as u8 + 1, 64, 255] {
            bench.refuses(&with_byte(&file, 1, d), [3, 1, 0])?;
        }
        for count in [0u16, 1025, 1280, 0x8000, 0x8001, 0xffff] {
            let [low, high] = count.to_le_bytes();
            let file = with_byte(&with_byte(&file, 2, low), 3, high);
            bench.refuses(&file, [4, 1, 0])?;
        }
    }
    for d in 1..=INPUTS {
        for file in [64, SIGNED + 64].map(|width| plain(7, &vec![width; d], 3)) {
            for input in 0..head_of(d) - 4 {
                let wrong: &[u8] = if input < d {
                    &[0, 65, 127, 128, 193, 255]
                } else {
                    &[1, 64, 128, 129, 192, 255]
                };
                for &width in wrong {
                    bench.refuses(&with_byte(&file, 4 + input, width), [5, 1, 0])?;
                }
            }
        }
        for width in [1, 64, 129, 192] {
            bench.accepts(&plain(7, &vec![width; d], 3))?;
        }
    }
    (1..=64).try_for_each(|m| bench.accepts(&plain(m, &[3], 2)))
}

/// Files of nine, ten and eleven inputs, byte by byte: which condition comes first, and where the
/// operations stand in a sound one.
pub fn long_heads(bench: &mut Bench) -> Outcome {
    for (name, file, [number, step]) in ten_inputs::refused() {
        let refused = bench.refuses(&file, [number, 1, step]);
        refused.map_err(|what| format!("{name}: {what}"))?;
    }
    let sound: [(&[u8], &[u8]); 4] = [
        (&SAMPLE_SIGNED_TEN, &[1, 1, 5]),
        (&SAMPLE_NINE, &[1, 1, 5]),
        (&SAMPLE_TEN, &[1, 1, 5]),
        (&ZERO_TEN, &[2]),
    ];
    for (file, operations) in sound {
        bench.accepts(file)?;
        let [start, length] = bench.product.operations(file)?.map(|word| word as usize);
        bench.same(&start, &14, || String::from("the start of the operations"))?;
        bench.same(&file[start..][..length], operations, || {
            String::from("the operations")
        })?;
    }
    Ok(())
}

/// Number 5 by every byte as a width: of the first d, whose low seven bits are 1 to 64 whatever the
/// mark; and of the others, which are 0. Files with wrong widths, byte by byte.
pub fn widths(bench: &mut Bench) -> Outcome {
    for d in 1..=INPUTS {
        let file = plain(8, &vec![8; d], 2);
        for input in 0..head_of(d) - 4 {
            for byte in 0..=255 {
                let file = with_byte(&file, 4 + input, byte);
                let sound = match byte {
                    1..=64 | 129..=192 => input < d,
                    _ => byte == 0 && input >= d,
                };
                match sound {
                    true => bench.accepts(&file)?,
                    false => bench.refuses(&file, [5, 1, 0])?,
                }
            }
        }
    }
    for (name, file, [number, step]) in signed::refused() {
        let refused = bench.refuses(&file, [number, 1, step]);
        refused.map_err(|what| format!("{name}: {what}"))?;
    }
    let sound: [(&[u8], [u64; 2]); 3] = [
        (&SAMPLE_SIGNED, [12, 3]),
        (&ZERO_SIGNED, [12, 1]),
        (&SAMPLE_SIGNED_TEN, [14, 3]),
    ];
    for (file, stretch) in sound {
        bench.accepts(file)?;
        let found = bench.product.operations(file)?;
        bench.same(&found, &stretch, || String::from("the operations"))?;
    }
    Ok(())
}

/// Numbers 1 and 6, at every count of steps.
pub fn lengths(bench: &mut Bench) -> Outcome {
    for short in 0..SHORT_HEAD {
        bench.refuses(&vec![0; short], [1, 1, 0])?;
    }
    for (d, head) in [(SHORT_INPUTS, SHORT_HEAD), (INPUTS, LONG_HEAD)] {
        for width in [64, SIGNED + 64] {
            let largest = plain(64, &vec![width; d], STEPS);
            for short in 0..head {
                bench.refuses(&largest[..short], [1, 1, 0])?;
            }
            bench.refuses(&largest[..head], [6, 1, 0])?;
        }
    }
    for count in 1..=STEPS {
        let many = INPUT_COUNTS[1 + count % 3];
        for (d, width) in [(2, 5), (many, 5), (many, SIGNED + 5)] {
            let mut file = plain(9, &vec![width; d], count);
            bench.accepts(&file)?;
            file.extend([1, 1]);
            let right = length(d, count);
            for wrong in [right - 2, right - 1, right + 1, right + 2] {
                bench.refuses(&file[..wrong], [6, 1, 0])?;
            }
        }
    }
    Ok(())
}

/// Number 7 at every step, and each sound operation.
pub fn operations(bench: &mut Bench) -> Outcome {
    for (count, d) in counts([1, 2, 9]).chain([(STEPS, 2), (STEPS, INPUTS)]) {
        for widths in bytes(d) {
            operations_of(bench, &plain(8, &widths, count), count)?;
        }
    }
    Ok(())
}

fn operations_of(bench: &mut Bench, file: &[u8], count: usize) -> Outcome {
    for step in 0..count {
        let refusal = [7, 1, step as u64];
        bench.refuses(&with_step(file, step, 0, 0), refusal)?;
        bench.refuses(&with_step(file, step, 6, 0), refusal)?;
    }
    for operation in 6..=255 {
        let wrong = with_step(file, count - 1, operation, u64::MAX);
        bench.refuses(&wrong, [7, 1, count as u64 - 1])?;
    }
    for operation in 1..=5 {
        let sound = with_step(file, count - 1, operation, 0);
        match (count, operation) {
            (1, 3..) => bench.refuses(&sound, [8, 1, 0])?,
            _ => bench.accepts(&sound)?,
        }
    }
    Ok(())
}

/// Number 8 at the first and at the last step, by each part of each rule.
pub fn arguments(bench: &mut Bench) -> Outcome {
    for (count, d) in counts([1, 2, 300, STEPS]) {
        for widths in bytes(d) {
            let file = plain(8, &widths, count);
            for step in [0, count - 1] {
                arguments_of(bench, &file, d, step)?;
            }
        }
    }
    for d in 1..=INPUTS {
        let file = plain(8, &vec![8; d], 2);
        bench.refuses(&with_step(&file, 0, 1, d as u64), [8, 1, 0])?;
        bench.refuses(&with_step(&file, 1, 1, d as u64), [8, 1, 1])?;
        bench.refuses(&with_step(&file, 1, 1, (1 << 32) + 1), [8, 1, 1])?;
    }
    for m in 1..64 {
        for width in [8, SIGNED + 8] {
            // a constant is below 2^m, and has no sign
            let file = plain(m, &[width], 2);
            bench.refuses(&with_step(&file, 0, 2, 1 << m), [8, 1, 0])?;
            bench.refuses(&with_step(&file, 1, 2, u64::MAX), [8, 1, 1])?;
        }
    }
    Ok(())
}

fn arguments_of(bench: &mut Bench, file: &[u8], d: usize, step: usize) -> Outcome {
    let own = step as u64;
    let mut wrong = vec![(1, d as u64), (1, 255), (1, 256), (2, 256), (2, u64::MAX)];
    for bit in [8, 16, 32, 63] {
        wrong.extend([(1, 1 << bit), (2, 1 << bit)]);
    }
    for operation in 3..=5 {
        let sides = [own, own << 16, own | own << 16, own + 1, (own + 1) << 16];
        wrong.extend(sides.map(|argument| (operation, argument)));
        wrong.extend([(operation, 0xffff), (operation, 0xffff_0000)]);
        wrong.extend((32..64).map(|bit| (operation, 1 << bit)));
    }
    for (operation, argument) in wrong {
        let file = with_step(file, step, operation, argument);
        bench.refuses(&file, [8, 1, own])?;
    }
    Ok(())
}

/// Arguments at the ends of what the rules allow.
pub fn limits(bench: &mut Bench) -> Outcome {
    for (count, d) in counts([2, 300, STEPS]) {
        // the lowest values of signed inputs, the highest of the others
        for widths in bytes(d) {
            let file = plain(8, &widths, count);
            let end = |&width: &u64| if width == 8 { 255 } else { -128 };
            let vector: Vec<i128> = widths.iter().map(end).collect();
            let before = count as u64 - 2;
            for operation in 3..=5 {
                for argument in [0, before, before << 16, before | before << 16] {
                    let file = with_step(&file, count - 1, operation, argument);
                    bench.accepts(&file)?;
                    bench.output(&file, &vector)?;
                }
            }
        }
    }
    for m in 1..=64 {
        let greatest = u64::MAX >> (64 - m);
        for (width, value) in [(8, 0), (SIGNED + 8, -1)] {
            let file = with_step(&plain(m, &[width], 1), 0, 2, greatest);
            bench.accepts(&file)?;
            let output = bench.output(&file, &[value])?;
            bench.same(&output, &greatest, || {
                format!("the greatest constant, m {m}")
            })?;
        }
    }
    for d in 1..=INPUTS {
        for (width, value, expected) in [(8, 77, 77), (SIGNED + 8, -77, 179)] {
            let file = with_step(&plain(8, &vec![width; d], 1), 0, 1, d as u64 - 1);
            let mut vector = vec![0; d];
            vector[d - 1] = value;
            let output = bench.output(&file, &vector)?;
            bench.same(&output, &expected, || format!("the last input, d {d}"))?;
        }
    }
    Ok(())
}

/// Number 12, and scratch slices of just the right length and longer.
pub fn scratch(bench: &mut Bench) -> Outcome {
    for (count, d) in counts([1, 2, 300, STEPS - 1, STEPS]) {
        for widths in bytes(d) {
            let file = plain(8, &widths, count);
            for short in [0, count / 2, count - 1] {
                bench.evaluates(&file, &vec![9; d], short, [12, 0, 0])?;
            }
            for enough in [count, count + 1, count + 3, 2 * count] {
                bench.evaluates(&file, &vec![9; d], enough, [0, 0, 0])?;
            }
        }
    }
    Ok(())
}

/// Number 14: every wrong length, and each input at both ends of its range and past it.
pub fn vectors(bench: &mut Bench) -> Outcome {
    for d in 1..=INPUTS {
        for widths in bytes(d) {
            let file = plain(8, &widths, 3);
            for length in (0..=20).chain([100, 512]) {
                let refusal = if length == d { [0, 0, 0] } else { [14, 0, 0] };
                bench.evaluates(&file, &vec![1; length], 3, refusal)?;
            }
        }
        for n in 1..=64 {
            let file = plain(64, &vec![n; d], 3);
            let greatest = u64::MAX >> (64 - n);
            bench.evaluates(&file, &vec![0; d], 3, [0, 0, 0])?;
            bench.evaluates(&file, &vec![greatest; d], 3, [0, 0, 0])?;
            for input in (0..d).filter(|_| n < 64) {
                let mut vector = vec![greatest; d];
                for past in [greatest + 1, u64::MAX] {
                    vector[input] = past;
                    bench.evaluates(&file, &vector, 3, [14, 0, 0])?;
                }
            }
        }
    }
    Ok(())
}

/// Number 14 of signed inputs, each of every word length at both ends of its range and past them: the
/// words of a value in range are accepted and no others, and the last step, an input, has the value
/// itself modulo 2^m. Bits above the word length are part of the word.
pub fn signed_vectors(bench: &mut Bench) -> Outcome {
    for n in 1..=64 {
        let half = 1i128 << (n - 1);
        let pattern = u64::MAX >> (64 - n);
        let mut values = vec![-half, -half + 1, -1, 0, half - 1];
        values.retain(|value| (-half..half).contains(value));
        // one past each end; the ends of an unsigned input; −1 without the bits above, and with
        // others; the ends of a word
        let mut words = vec![
            half as u64,
            (-half - 1) as u64,
            pattern,
            1 << 63,
            u64::MAX >> 1,
        ];
        words.extend([
            pattern / 2 + 1,
            !pattern,
            !pattern | 1 << 62,
            1 << 32,
            0xffff_ffff,
        ]);
        words.retain(|&word| !(-half..half).contains(&i128::from(word as i64)));
        for d in 1..=INPUTS {
            let widths: Vec<u64> = vec![SIGNED + n; d];
            for input in [0, d / 2, d - 1] {
                for m in [8, 64] {
                    let file = with_step(&plain(m, &widths, 1), 0, 1, input as u64);
                    let mut vector = vec![0; d];
                    for &value in &values {
                        vector[input] = value;
                        let output = bench.output(&file, &vector)?;
                        let expected = value.rem_euclid(1 << m) as u64;
                        bench.same(&output, &expected, || {
                            format!("{value} in {n} bits, signed, m {m}")
                        })?;
                    }
                    for &word in &words {
                        let mut vector = vec![0; d];
                        vector[input] = word;
                        bench.evaluates(&file, &vector, 1, [14, 0, 0])?;
                    }
                }
            }
        }
    }
    Ok(())
}

/// The same words in unsigned inputs beside signed ones: a word is plain, so that a negative one is
/// refused, but where it is a number of 64 bits.
pub fn mixed_vectors(bench: &mut Bench) -> Outcome {
    let negatives = [u64::MAX, u64::MAX - 1, 1 << 63, (1 << 63) + 1];
    for n in 1..=64 {
        for (widths, input) in [
            (vec![n], 0),
            (vec![n, SIGNED + n], 0),
            (vec![SIGNED + n, n], 1),
            (vec![SIGNED + 64, n, SIGNED + 1], 1),
            (
                vec![SIGNED + 64, 192, 192, 192, 192, 192, 192, 192, 192, n],
                9,
            ),
        ] {
            let file = with_step(&plain(64, &widths, 1), 0, 1, input as u64);
            for word in negatives {
                let mut words = vec![u64::MAX; widths.len()];
                words[input] = word;
                let number = if n == 64 { 0 } else { 14 };
                bench.evaluates(&file, &words, 1, [number, 0, 0])?;
                if n == 64 {
                    let mut vector = vec![-1; widths.len()];
                    vector[input] = i128::from(word);
                    let output = bench.output(&file, &vector)?;
                    bench.same(&output, &word, || format!("{word} in an unsigned input"))?;
                }
            }
        }
    }
    Ok(())
}
