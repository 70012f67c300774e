//! The test program: the product's static library held against the reference.
//!
//! Prints a line for each group of tests, `ok NAME: K comparisons` or `FAILED NAME: what`, and
//! last `N passed, M failed`, which counts the groups. Ends with status 1 where one has failed.
//!
//! | Module | Subject |
//! |---|---|
//! | `lent` | memory lent to the product, guarded on both sides |
//! | `product` | the C functions, every call with its guards |
//! | `bench` | one call of the product compared with the reference |
//! | `refusals` | each refusal at the first and at the last place where it can occur |
//! | `faults` | a sound file and the faults that it can have |
//! | `precedence` | which refusal comes first where several conditions hold |
//! | `damage` | files cut, lengthened, and changed byte by byte |
//! | `soak` | random files |
//! | `grids` | bounds and grids of all sizes |
//! | `replay` | the pairs and examples of the documents, and pairs of ten and of signed inputs |
//! | `tables` | difference tables and sums; only with the feature of this name |
//! | `sessions` | opening and continuing; only with the feature of this name |
//! | `program` | the comparing program; only where CORKBINGO_COMPARE names it |

mod bench;
mod damage;
mod faults;
mod grids;
mod lent;
mod precedence;
mod product;
mod program;
mod refusals;
mod replay;
#[cfg(feature = "sessions")]
mod sessions;
mod soak;
#[cfg(feature = "tables")]
mod tables;

use bench::{Bench, Outcome};
use std::panic::{self, AssertUnwindSafe};
use std::process::ExitCode;
use std::sync::Mutex;

/// A group of tests: its name, its seed if it draws numbers, and what it runs.
type Group = (&'static str, Option<u64>, fn(&mut Bench) -> Outcome);

const FILES: [Group; 21] = [
    ("head refused", None, refusals::head),
    ("heads of nine and ten inputs", None, refusals::long_heads),
    ("widths refused", None, refusals::widths),
    ("lengths refused", None, refusals::lengths),
    ("operations refused", None, refusals::operations),
    ("arguments refused", None, refusals::arguments),
    ("limits accepted", None, refusals::limits),
    ("scratch refused", None, refusals::scratch),
    ("vectors refused", None, refusals::vectors),
    ("words of signed inputs", None, refusals::signed_vectors),
    (
        "words of inputs signed and not",
        None,
        refusals::mixed_vectors,
    ),
    ("precedence of refusals", None, precedence::evaluate),
    ("truncated and lengthened files", None, damage::lengths),
    ("damaged bytes", None, damage::bytes),
    ("bounds", None, grids::bounds),
    ("grids", Some(grids::SEED), grids::grids),
    (
        "pairs of document 01 and of ten inputs",
        None,
        replay::pairs,
    ),
    ("pairs of signed inputs", None, replay::signed_pairs),
    (
        "outputs of document 002 and of signed inputs",
        None,
        replay::outputs,
    ),
    (
        "equivalences of document 002",
        Some(replay::SEED),
        replay::examples,
    ),
    ("random files", Some(soak::SEED), soak::files),
];

fn groups() -> Vec<Group> {
    let mut list = Vec::from(FILES);
    #[cfg(feature = "tables")]
    list.extend(tables::GROUPS);
    #[cfg(feature = "sessions")]
    list.extend(sessions::GROUPS);
    list.extend(program::groups());
    list
}

/// The message and the place of the last panic.
static PANIC: Mutex<String> = Mutex::new(String::new());

fn main() -> ExitCode {
    panic::set_hook(Box::new(|info| {
        *PANIC.lock().unwrap() = info.to_string().replace('\n', " ");
    }));
    let groups = groups();
    let count = groups.len();
    let mut failed = 0;
    for (name, seed, group) in groups {
        let name = match seed {
            Some(seed) => format!("{name} (seed {seed:#x})"),
            None => String::from(name),
        };
        match run(group) {
            Ok(comparisons) => println!("ok {name}: {comparisons} comparisons"),
            Err(what) => {
                failed += 1;
                println!("FAILED {name}: {what}");
            }
        }
    }
    println!("{} passed, {failed} failed", count - failed);
    ExitCode::from(u8::from(failed > 0))
}

/// Runs a group on a bench of its own. A panic is a failure, and so is a group without comparisons.
fn run(group: fn(&mut Bench) -> Outcome) -> Outcome<u64> {
    let mut bench = Bench::new();
    match panic::catch_unwind(AssertUnwindSafe(|| group(&mut bench))) {
        Err(_) => Err(PANIC.lock().unwrap().clone()),
        Ok(Err(what)) => Err(what),
        Ok(Ok(())) => match bench.comparisons() {
            0 => Err(String::from("nothing was compared")),
            comparisons => Ok(comparisons),
        },
    }
}
