//! A small sound file and the faults that it can have, in the order in which they are judged.

use reference::file::{Datapath, LONG_HEAD, SHORT_HEAD, Step, head, write};
use reference::sizes::{INPUTS, SIGNED, Sizes};

/// The count of steps of a sound file.
pub const STEPS: usize = 5;

/// m of a sound file.
pub const M: u64 = 8;

/// The widths of a sound file of two inputs, whose grid is 10 by 8, and of those of eight, nine and
/// ten, on whose grids each input takes two values. Nine and ten have the long head.
pub const WIDTHS: [u64; 2] = [8, 3];
pub const MANY_WIDTHS: [&[u64]; 3] = [&[1; 8], &[1; 9], &[1; 10]];

/// Widths with the same grids, whose first input is signed; faults of the widths of such files are
/// of their marks.
pub const SIGNED_WIDTHS: [&[u64]; 2] = [
    &[SIGNED + 8, SIGNED + 3],
    &[SIGNED + 1, 1, SIGNED + 1, 1, 1, 1, 1, 1, 1, SIGNED + 1],
];

/// The widths of all sound files.
pub fn all_widths() -> impl Iterator<Item = &'static [u64]> {
    let unsigned = [&WIDTHS[..]].into_iter().chain(MANY_WIDTHS);
    unsigned.chain(SIGNED_WIDTHS)
}

/// G of a sound file with these widths.
#[cfg(any(feature = "tables", feature = "sessions"))]
pub fn grid_size(widths: &[u64]) -> u64 {
    if widths.len() == 2 {
        80
    } else {
        1 << widths.len()
    }
}

/// The sizes of a sound file.
pub fn sound_sizes(widths: &[u64]) -> Sizes {
    let widths = widths.to_vec();
    Sizes { m: M, widths }
}

pub fn sound_file(widths: &[u64]) -> Vec<u8> {
    let sizes = sound_sizes(widths);
    let steps = vec![
        Step::Input(widths.len() - 1),
        Step::Constant(200),
        Step::Add(0, 1),
        Step::Subtract(2, 0),
        Step::Multiply(3, 3),
    ];
    write(&Datapath { sizes, steps })
}

/// A fault of a file: its number and step, and how it is made.
pub struct FileFault {
    pub number: u64,
    pub step: u64,
    pub make: fn(&mut Vec<u8>),
    /// Whether only a file with the long head can have it.
    long: bool,
}

const fn fault(number: u64, step: u64, make: fn(&mut Vec<u8>)) -> FileFault {
    FileFault {
        number,
        step,
        make,
        long: false,
    }
}

/// The head of a file whose d is sound.
fn head_of(file: &[u8]) -> usize {
    head(usize::from(file[1]))
}

fn operation(file: &mut [u8], step: usize) {
    file[head_of(file) + step] = 6;
}

/// Makes the argument one that no operation takes at m 8.
fn argument(file: &mut [u8], step: usize) {
    file[head_of(file) + STEPS + 8 * step + 7] = 1;
}

/// Several are made in the reverse order, so that those inside the file are made before it is cut,
/// and those that ask for its head before d is changed.
const FILE_FAULTS: [FileFault; 15] = [
    fault(1, 0, |file| file.truncate(SHORT_HEAD - 1)),
    fault(2, 0, |file| file[0] = 65),
    fault(3, 0, |file| file[1] = INPUTS as u8 + 1),
    FileFault {
        number: 1,
        step: 0,
        make: |file| file.truncate(LONG_HEAD - 1),
        long: true,
    },
    fault(4, 0, |file| file[3] = 5),
    fault(5, 0, |file| {
        let last = head_of(file) - 1;
        let used = last == 3 + usize::from(file[1]);
        file[last] = match (u64::from(file[4]) < SIGNED, used) {
            (true, true) => 65,
            (true, false) => 1,
            (false, true) => 193,
            (false, false) => 128,
        };
    }),
    fault(6, 0, |file| {
        file.pop();
    }),
    fault(7, 0, |file| operation(file, 0)),
    fault(8, 0, |file| argument(file, 0)),
    fault(7, 1, |file| operation(file, 1)),
    fault(8, 1, |file| argument(file, 1)),
    fault(7, 2, |file| operation(file, 2)),
    fault(8, 2, |file| argument(file, 2)),
    fault(7, 4, |file| operation(file, 4)),
    fault(8, 4, |file| argument(file, 4)),
];

/// The faults of a sound file with these widths.
pub fn file_faults(widths: &[u64]) -> impl Iterator<Item = &'static FileFault> + use<> {
    let long = head(widths.len()) == LONG_HEAD;
    FILE_FAULTS.iter().filter(move |fault| long || !fault.long)
}

/// Whether a fault stands in the head, at the first step or at the last.
pub fn at_the_ends(fault: &FileFault) -> bool {
    [0, STEPS as u64 - 1].contains(&fault.step)
}

/// A fault of a call: the refusal that it gives where it is the first, and how it is made.
pub type Fault<C> = ([u64; 3], Box<dyn Fn(&mut C)>);

/// The faults of the file that a call counts as `file`, made through `part`.
pub fn of_file<C: 'static>(
    file: u64,
    widths: &[u64],
    chosen: impl Fn(&FileFault) -> bool,
    part: fn(&mut C) -> &mut Vec<u8>,
) -> Vec<Fault<C>> {
    let mut list: Vec<Fault<C>> = Vec::new();
    for fault in file_faults(widths).filter(|fault| chosen(fault)) {
        let make = fault.make;
        let refusal = [fault.number, file, fault.step];
        list.push((refusal, Box::new(move |call| make(part(call)))));
    }
    list
}

/// Every set of the faults, made on a new sound call each time, with the refusal of its first.
pub fn subsets<C>(
    faults: &[Fault<C>],
    sound: impl Fn() -> C,
) -> impl Iterator<Item = (C, [u64; 3])> {
    (0..1u32 << faults.len()).map(move |set| {
        let chosen = |index: &usize| set >> index & 1 == 1;
        let mut call = sound();
        for index in (0..faults.len()).rev().filter(chosen) {
            faults[index].1(&mut call);
        }
        let first = (0..faults.len()).find(chosen);
        (call, first.map_or([0, 0, 0], |index| faults[index].0))
    })
}
