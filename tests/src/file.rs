//! The datapath file: its steps, or the first condition that refuses it.

use crate::sizes::{INPUTS, Sizes, sound_d, sound_m, sound_widths};

/// The most inputs of a file with the short head, which holds so many widths. The long head of a
/// file with more inputs holds as many as there can be.
pub const SHORT_INPUTS: usize = 8;

/// The most steps that a file may have.
pub const STEPS: usize = 1024;

/// The length of the head, the bytes before the operations, of a file with d inputs: m, d, two
/// bytes for N, and the widths.
pub const fn head(d: usize) -> usize {
    if d <= SHORT_INPUTS {
        4 + SHORT_INPUTS
    } else {
        4 + INPUTS
    }
}

/// The short head and the long one.
pub const SHORT_HEAD: usize = head(SHORT_INPUTS);
pub const LONG_HEAD: usize = head(INPUTS);

/// The length of a file of d inputs and `count` steps.
pub fn length(d: usize, count: usize) -> usize {
    head(d) + 9 * count
}

#[derive(Clone, Copy, Debug, PartialEq, Eq)]
pub struct Refusal {
    pub number: u64,
    pub file: u64,
    pub step: u64,
}

impl Refusal {
    /// A refusal that is about no file and no step.
    pub fn plain(number: u64) -> Refusal {
        Refusal {
            number,
            file: 0,
            step: 0,
        }
    }
}

#[derive(Clone, Copy, Debug, PartialEq, Eq)]
pub enum Step {
    Input(usize),
    Constant(u64),
    Add(usize, usize),
    Subtract(usize, usize),
    Multiply(usize, usize),
}

#[derive(Clone, Debug, PartialEq, Eq)]
pub struct Datapath {
    pub sizes: Sizes,
    pub steps: Vec<Step>,
}

/// Reads the file that a call counts as `file` (1 or 2). The conditions are judged in this order: 1
/// for the short head, 2, 3, 1 for the head that d asks for, 4 to 6, then at each step 7 before 8.
pub fn read(bytes: &[u8], file: u64) -> Result<Datapath, Refusal> {
    let refuse = |number| Refusal {
        number,
        file,
        step: 0,
    };
    if bytes.len() < SHORT_HEAD {
        return Err(refuse(1));
    }
    let m = u64::from(bytes[0]);
    let d = usize::from(bytes[1]);
    if !sound_m(m) {
        return Err(refuse(2));
    }
    if !sound_d(d as u64) {
        return Err(refuse(3));
    }
    if bytes.len() < head(d) {
        return Err(refuse(1));
    }
    let count = usize::from(bytes[2]) + 256 * usize::from(bytes[3]);
    if !(1..=STEPS).contains(&count) {
        return Err(refuse(4));
    }
    let mut widths = [0; INPUTS];
    for (width, &byte) in widths.iter_mut().zip(&bytes[4..head(d)]) {
        *width = u64::from(byte);
    }
    if !sound_widths(d as u64, &widths) {
        return Err(refuse(5));
    }
    if bytes.len() != length(d, count) {
        return Err(refuse(6));
    }
    let widths = widths[..d].to_vec();
    read_steps(Sizes { m, widths }, &bytes[head(d)..], count, file)
}

/// The datapath of these sizes, with the steps in the bytes after the head.
pub(crate) fn read_steps(
    sizes: Sizes,
    bytes: &[u8],
    count: usize,
    file: u64,
) -> Result<Datapath, Refusal> {
    let (operations, arguments) = bytes.split_at(count);
    let mut steps = Vec::new();
    for (step, (&operation, argument)) in operations.iter().zip(arguments.chunks(8)).enumerate() {
        let number = |bytes: &[u8]| bytes.iter().rev().fold(0, |n, &b| n * 256 + u64::from(b));
        match read_step(&sizes, step, operation, number(argument)) {
            Ok(sound) => steps.push(sound),
            Err(number) => {
                let step = step as u64;
                return Err(Refusal { number, file, step });
            }
        }
    }
    Ok(Datapath { sizes, steps })
}

/// The step, or the condition that refuses it: 7 or 8.
fn read_step(sizes: &Sizes, step: usize, operation: u8, argument: u64) -> Result<Step, u64> {
    let left = (argument % (1 << 16)) as usize;
    let right = (argument / (1 << 16) % (1 << 16)) as usize;
    let operands = argument < 1 << 32 && left < step && right < step;
    let (sound, read) = match operation {
        1 => (argument < sizes.d() as u64, Step::Input(argument as usize)),
        2 => (
            u128::from(argument) < 1 << sizes.m,
            Step::Constant(argument),
        ),
        3 => (operands, Step::Add(left, right)),
        4 => (operands, Step::Subtract(left, right)),
        5 => (operands, Step::Multiply(left, right)),
        _ => return Err(7),
    };
    if sound { Ok(read) } else { Err(8) }
}

/// The file of sound sizes and steps.
pub fn write(path: &Datapath) -> Vec<u8> {
    let count = path.steps.len();
    let mut bytes = vec![path.sizes.m as u8, path.sizes.d() as u8];
    bytes.extend((count as u16).to_le_bytes());
    bytes.extend(path.sizes.widths.iter().map(|&n| n as u8));
    bytes.resize(head(path.sizes.d()), 0);
    bytes.extend(path.steps.iter().map(|&step| write_step(step).0));
    for &step in &path.steps {
        bytes.extend(write_step(step).1.to_le_bytes());
    }
    bytes
}

/// The operation and the argument of a step.
fn write_step(step: Step) -> (u8, u64) {
    let operands = |left: usize, right: usize| (left + (right << 16)) as u64;
    match step {
        Step::Input(input) => (1, input as u64),
        Step::Constant(number) => (2, number),
        Step::Add(left, right) => (3, operands(left, right)),
        Step::Subtract(left, right) => (4, operands(left, right)),
        Step::Multiply(left, right) => (5, operands(left, right)),
    }
}

/// Start and length of the operation array in the file; nothing of a refused file.
pub fn operations(bytes: &[u8]) -> (usize, usize) {
    match read(bytes, 1) {
        Ok(path) => (head(path.sizes.d()), path.steps.len()),
        Err(_) => (0, 0),
    }
}

#[cfg(test)]
mod tests {
    use super::*;
    use crate::pairs::{SAMPLE_A, SAMPLE_B};

    #[test]
    fn reads_the_samples() {
        let sizes = Sizes {
            m: 2,
            widths: vec![1, 2],
        };
        let a = read(&SAMPLE_A, 1).unwrap();
        assert_eq!(a.sizes, sizes);
        let product = [Step::Input(0), Step::Input(1), Step::Multiply(0, 1)];
        assert_eq!(a.steps, product);
        assert_eq!(operations(&SAMPLE_A), (12, 3));
        let b = read(&SAMPLE_B, 2).unwrap();
        assert_eq!((write(&a), write(&b)), (SAMPLE_A.into(), SAMPLE_B.into()));
        assert_eq!((b.sizes, b.steps), (sizes, vec![Step::Constant(0)]));
    }

    #[test]
    fn refusals_carry_file_and_step() {
        let mut bytes = SAMPLE_A.to_vec();
        bytes[31] = 2;
        let refusal = Refusal {
            number: 8,
            file: 2,
            step: 2,
        };
        assert_eq!(read(&bytes, 2), Err(refusal));
        assert_eq!(operations(&bytes), (0, 0));
        bytes.pop();
        assert_eq!(read(&bytes, 1).unwrap_err().number, 6);
    }
}
