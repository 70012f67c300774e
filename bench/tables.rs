//! Differencing and summing by the library beside a plain Rust loop over the same data, in one run.
//!
//! Each row is a grid; the two are timed in turn, round after round, and the best round of each
//! counts. Prints nanoseconds for each cell and axis, and the ratio. Both must give the same cells.

use std::env;
use std::time::Instant;

unsafe extern "C" {
    fn corkbingo_difference(
        sizes: *const u64,
        sizes_len: usize,
        outputs: *const u64,
        outputs_len: usize,
        table: *mut u64,
        table_len: usize,
        out: *mut u64,
        out_len: usize,
    ) -> u32;
    fn corkbingo_sum(
        sizes: *const u64,
        sizes_len: usize,
        table: *const u64,
        table_len: usize,
        outputs: *mut u64,
        outputs_len: usize,
        out: *mut u64,
        out_len: usize,
    ) -> u32;
}

type Call = unsafe extern "C" fn(
    *const u64,
    usize,
    *const u64,
    usize,
    *mut u64,
    usize,
    *mut u64,
    usize,
) -> u32;

/// The words of sizes: m, d and ten word lengths.
const SIZES: usize = 12;

/// One line of the plain loop: u − 1 rounds of the neighbour taken away or added, from the end.
fn plain_line(cells: &mut [u64], start: usize, stride: usize, u: usize, subtract: bool) {
    for round in 1..u {
        for j in (round..u).rev() {
            let left = cells[start + (j - 1) * stride];
            let cell = &mut cells[start + j * stride];
            *cell = if subtract {
                cell.wrapping_sub(left)
            } else {
                cell.wrapping_add(left)
            };
        }
    }
}

fn plain(from: &[u64], to: &mut [u64], axes: &[usize], m: u32, subtract: bool) {
    to.copy_from_slice(from);
    let mut stride = 1;
    for &u in axes.iter().rev() {
        for block in (0..to.len()).step_by(u * stride) {
            for offset in 0..stride {
                plain_line(to, block + offset, stride, u, subtract);
            }
        }
        stride *= u;
    }
    let mask = if m == 64 { u64::MAX } else { (1 << m) - 1 };
    to.iter_mut().for_each(|cell| *cell &= mask);
}

fn library(call: Call, sizes: &[u64; SIZES], from: &[u64], to: &mut [u64]) {
    let mut out = [1u64; 3];
    let right = unsafe {
        call(
            sizes.as_ptr(),
            SIZES,
            from.as_ptr(),
            from.len(),
            to.as_mut_ptr(),
            to.len(),
            out.as_mut_ptr(),
            3,
        )
    };
    assert_eq!((right, out), (1, [0, 0, 0]), "the library refused the grid");
}

fn timed(run: &mut dyn FnMut()) -> f64 {
    let start = Instant::now();
    run();
    start.elapsed().as_secs_f64() * 1e9
}

fn row(m: u32, n: u64, axes: &[usize], rounds: usize) {
    let size: usize = axes.iter().product();
    let mut sizes = [0u64; SIZES];
    sizes[0] = u64::from(m);
    sizes[1] = axes.len() as u64;
    sizes[2..2 + axes.len()].fill(n);
    let mask = if m == 64 { u64::MAX } else { (1 << m) - 1 };
    let mut state = 0x9e37_79b9_7f4a_7c15_u64;
    let data: Vec<u64> = (0..size)
        .map(|_| {
            state ^= state << 13;
            state ^= state >> 7;
            state ^= state << 17;
            state & mask
        })
        .collect();
    for (name, call, subtract) in [
        ("difference", corkbingo_difference as Call, true),
        ("sum", corkbingo_sum as Call, false),
    ] {
        let (mut ours, mut theirs) = (vec![0; size], vec![0; size]);
        let (mut best, mut plain_best) = (f64::MAX, f64::MAX);
        for _ in 0..rounds {
            best = best.min(timed(&mut || library(call, &sizes, &data, &mut ours)));
            plain_best =
                plain_best.min(timed(&mut || plain(&data, &mut theirs, axes, m, subtract)));
        }
        assert_eq!(ours, theirs, "{name} differs from the plain loop");
        let unit = (size * axes.len()) as f64;
        println!(
            "{name:10} m {m:2} axes {:19} {:9.2} ns {:9.2} ns   ratio {:.2}",
            axes.iter()
                .map(usize::to_string)
                .collect::<Vec<_>>()
                .join("x"),
            best / unit,
            plain_best / unit,
            best / plain_best
        );
    }
}

fn main() {
    let quick = env::args().nth(1).is_some_and(|word| word == "quick");
    println!(
        "for each cell and axis: the library, the plain loop, and the library's time over the plain loop's"
    );
    if quick {
        row(8, 8, &[10, 10], 3);
        return;
    }
    row(64, 64, &[66], 2000);
    row(16, 16, &[18, 18, 18], 200);
    row(32, 32, &[34, 34, 34], 40);
    row(64, 64, &[66, 66, 66], 10);
    row(3, 2, &[4, 4, 4, 4, 4, 4, 4, 4], 40);
    row(3, 1, &[2; 10], 2000);
}
