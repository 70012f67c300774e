//! Refusals of the calls on tables, and what next to them is accepted.

use super::bench::filling;
use super::product::Numbers;
use crate::bench::{Bench, Outcome};
use crate::faults::{
    Fault, FileFault, MANY_WIDTHS, SIGNED_WIDTHS, STEPS, WIDTHS, all_widths, at_the_ends,
    grid_size, of_file, sound_file, sound_sizes, subsets,
};
use crate::refusals::plain;
use reference::grid::{axes, size};
use reference::samples::top;
use reference::signed::all_marked;
use reference::sizes::{SIGNED, Sizes};
use reference::tables::Written;

/// What a call of table is given.
struct TableCall {
    file: Vec<u8>,
    scratch: usize,
    cells: usize,
}

/// Every set of sixteen faults, and of those in the head and at the first and last step where the
/// file has eight inputs or more, or signed ones.
pub fn of_table(bench: &mut Bench) -> Outcome {
    every(bench, &WIDTHS, |_| true)?;
    for widths in MANY_WIDTHS.into_iter().chain(SIGNED_WIDTHS) {
        every(bench, widths, at_the_ends)?;
    }
    Ok(())
}

fn every(bench: &mut Bench, widths: &[u64], chosen: fn(&FileFault) -> bool) -> Outcome {
    let cells = grid_size(widths) as usize;
    let mut faults = of_file(1, widths, chosen, |call: &mut TableCall| &mut call.file);
    faults.push(([12, 0, 0], Box::new(|call| call.scratch -= 1)));
    faults.push(([13, 0, 0], Box::new(|call| call.cells -= 1)));
    let sound = || TableCall {
        file: sound_file(widths),
        scratch: STEPS,
        cells,
    };
    for (call, refusal) in subsets(&faults, sound) {
        let made = bench.table(&call.file, &filling(call.scratch), &filling(call.cells))?;
        bench.same(&made.written.answer, &refusal, || {
            String::from("the first fault of table")
        })?;
    }
    Ok(())
}

/// What a call of difference or sum is given.
struct CellCall {
    numbers: Numbers,
    given: Vec<u64>,
    lent: usize,
}

fn sound(widths: &[u64], cells: usize) -> CellCall {
    CellCall {
        numbers: sound_sizes(widths).numbers(),
        given: (0..cells as u64).map(|cell| cell * 3 % 256).collect(),
        lent: cells,
    }
}

/// Every set of faults in the sizes and in both slices, of two inputs and of eight to ten; of signed
/// ones, the faults of widths keep the mark or are the mark alone.
pub fn of_cells(bench: &mut Bench) -> Outcome {
    for widths in all_widths() {
        let cells = grid_size(widths) as usize;
        let mark = widths[0] / SIGNED * SIGNED;
        // the first unused width, made 1 or a mark alone; of ten inputs the last one, made 65
        let (place, wrong) = match (widths.len() < 10, mark) {
            (true, 0) => (2 + widths.len(), 1),
            (true, _) => (2 + widths.len(), SIGNED),
            (false, _) => (11, 65 + mark),
        };
        let faults: [Fault<CellCall>; 10] = [
            ([2, 0, 0], Box::new(|call| call.numbers[0] = 65)),
            ([3, 0, 0], Box::new(|call| call.numbers[1] = 11)),
            ([5, 0, 0], Box::new(move |call| call.numbers[2] = mark)),
            ([5, 0, 0], Box::new(move |call| call.numbers[3] = 65 + mark)),
            ([5, 0, 0], Box::new(move |call| call.numbers[place] = wrong)),
            ([5, 0, 0], Box::new(|call| call.numbers[11] = 255)),
            ([13, 0, 0], Box::new(|call| call.lent -= 1)),
            (
                [13, 0, 0],
                Box::new(move |call| call.given.truncate(cells - 1)),
            ),
            ([13, 0, 0], Box::new(|call| call.given[0] = 256)),
            (
                [13, 0, 0],
                Box::new(move |call| call.given[cells - 2] = u64::MAX),
            ),
        ];
        for (call, refusal) in subsets(&faults, || sound(widths, cells)) {
            both(bench, &call.numbers, &call.given, call.lent, Some(refusal))?;
        }
    }
    Ok(())
}

/// Both calls with these slices, and the refusal that is expected; none where they return 0.
fn both(
    bench: &mut Bench,
    numbers: &Numbers,
    given: &[u64],
    lent: usize,
    expected: Option<[u64; 3]>,
) -> Outcome {
    let lent = filling(lent);
    let differenced = bench.difference(numbers, given, &lent)?;
    let summed = bench.sum(numbers, given, &lent)?;
    let answer = |written: Option<Written>| written.map(|written| written.answer);
    for (name, found) in [("difference", differenced), ("sum", summed)] {
        bench.same(&answer(found), &expected, || {
            format!("{name} of sizes {numbers:?}, {} cells", given.len())
        })?;
    }
    Ok(())
}

/// Slices one short, exact and long; entries past G stay, and those of the slice that is read are
/// free.
pub fn lengths(bench: &mut Bench) -> Outcome {
    let list: [(u64, &[u64]); 13] = [
        (1, &[SIGNED + 1]),
        (8, &[SIGNED + 8]),
        (5, &[SIGNED + 2, 64, SIGNED + 1]),
        (2, &[1, 1, 129, 1, 1, 129, 1, 1, 1, 129]),
        (1, &[1]),
        (1, &[1; 8]),
        (1, &[64; 9]),
        (2, &[1; 10]),
        (3, &[1, 2]),
        (8, &[8]),
        (64, &[64]),
        (5, &[2, 64, 1]),
        (64, &[3, 1, 64]),
    ];
    for (m, widths) in list {
        let file = plain(m, widths, 3);
        let sizes = Sizes {
            m,
            widths: widths.to_vec(),
        };
        let count = size(&axes(&sizes)) as usize;
        let candidates = [0, count / 2, count - 1, count, count + 1, count + 40];
        let refusal = |short| if short { [13, 0, 0] } else { [0, 0, 0] };
        for lent in candidates {
            let made = bench.table(&file, &filling(4), &filling(lent))?;
            let expected = refusal(lent < count);
            bench.same(&made.written.answer, &expected, || {
                format!("table of {sizes:?} with {lent} cells")
            })?;
            for given in candidates {
                let mut cells = vec![top(m); count.min(given)];
                cells.resize(given, u64::MAX);
                let expected = refusal(lent < count || given < count);
                both(bench, &sizes.numbers(), &cells, lent, Some(expected))?;
            }
        }
        for scratch in [0, 2, 3, 4] {
            let expected = if scratch < 3 { [12, 0, 0] } else { [0, 0, 0] };
            let made = bench.table(&file, &filling(scratch), &filling(count))?;
            bench.same(&made.written.answer, &expected, || {
                format!("table of {sizes:?} with {scratch} scratch words")
            })?;
        }
    }
    Ok(())
}

/// Cells at 2^m − 1 and at 2^m, at the first and the last place that counts and at the next.
pub fn cells(bench: &mut Bench) -> Outcome {
    for m in 1..=64 {
        let widths = match m % 16 {
            0 => vec![1; 10],
            8 => vec![1; 9],
            4 | 12 => vec![1; 8],
            _ => vec![2, 3],
        };
        let signed = all_marked(&widths);
        for widths in [widths, signed] {
            cells_of(bench, &Sizes { m, widths })?;
        }
    }
    Ok(())
}

fn cells_of(bench: &mut Bench, sizes: &Sizes) -> Outcome {
    let count = size(&axes(sizes)) as usize;
    let greatest = top(sizes.m);
    let full = vec![greatest; count + 1];
    both(bench, &sizes.numbers(), &full, count, Some([0, 0, 0]))?;
    for place in [0, 1, count / 2, count - 1, count] {
        for cell in [greatest.checked_add(1), Some(u64::MAX)] {
            let Some(cell) = cell.filter(|_| sizes.m < 64) else {
                continue;
            };
            let mut given = full.clone();
            given[place] = cell;
            let number = if place < count { 13 } else { 0 };
            both(bench, &sizes.numbers(), &given, count, Some([number, 0, 0]))?;
        }
    }
    Ok(())
}

/// The most cells of a grid here.
const MOST: usize = 1_024;

/// Sizes of eight to eleven inputs as numbers, and the condition that refuses them, or 0.
const MANY_INPUTS: [(Numbers, u64); 18] = [
    ([8, 8, 129, 1, 129, 1, 129, 1, 1, 129, 0, 0], 0),
    ([8, 8, 129, 1, 129, 1, 129, 1, 1, 129, 128, 0], 5),
    ([8, 8, 129, 1, 129, 1, 129, 1, 1, 129, 0, 128], 5),
    ([8, 9, 129, 129, 129, 129, 129, 129, 129, 129, 129, 0], 0),
    ([8, 9, 129, 129, 129, 129, 129, 129, 129, 129, 129, 128], 5),
    ([8, 9, 129, 129, 129, 129, 129, 129, 129, 129, 128, 0], 5),
    ([8, 10, 1, 1, 1, 1, 1, 1, 1, 1, 1, 129], 0),
    ([8, 10, 1, 1, 1, 1, 1, 1, 1, 1, 1, 128], 5),
    ([8, 10, 1, 1, 1, 1, 1, 1, 1, 1, 1, 193], 5),
    ([8, 8, 1, 1, 1, 1, 1, 1, 1, 1, 0, 0], 0),
    ([8, 8, 1, 1, 1, 1, 1, 1, 1, 1, 1, 0], 5),
    ([8, 8, 1, 1, 1, 1, 1, 1, 1, 1, 0, 1], 5),
    ([8, 9, 1, 1, 1, 1, 1, 1, 1, 1, 1, 0], 0),
    ([8, 9, 1, 1, 1, 1, 1, 1, 1, 1, 0, 0], 5),
    ([8, 9, 1, 1, 1, 1, 1, 1, 1, 1, 1, 1], 5),
    ([8, 10, 1, 1, 1, 1, 1, 1, 1, 1, 1, 1], 0),
    ([8, 10, 1, 1, 1, 1, 1, 1, 1, 1, 1, 0], 5),
    ([8, 11, 1, 1, 1, 1, 1, 1, 1, 1, 1, 1], 3),
];

/// Each of the twelve numbers at every byte and past it; and sizes of many inputs.
pub fn numbers(bench: &mut Bench) -> Outcome {
    let wide = [256, 257, 266, 1 << 32, (1 << 32) + 8, 1 << 63, u64::MAX];
    let list: [(u64, &[u64]); 7] = [
        (8, &[SIGNED + 8, SIGNED + 3]),
        (8, &[SIGNED + 1; 10]),
        (8, &WIDTHS),
        (64, &[64]),
        (1, &[1; 8]),
        (8, &[1; 9]),
        (8, &[1; 10]),
    ];
    for (m, widths) in list {
        let widths = widths.to_vec();
        let numbers = Sizes { m, widths }.numbers();
        for index in 0..numbers.len() {
            let mut damaged = numbers;
            for byte in 0..=255 {
                damaged[index] = byte;
                bench.difference(&damaged, &[0; MOST], &filling(MOST))?;
                bench.sum(&damaged, &[0; MOST], &filling(MOST))?;
            }
            for number in wide {
                damaged[index] = number;
                both(bench, &damaged, &[0; MOST], MOST, None)?;
            }
        }
    }
    for (numbers, number) in MANY_INPUTS {
        both(bench, &numbers, &[0; MOST], MOST, Some([number, 0, 0]))?;
    }
    Ok(())
}
