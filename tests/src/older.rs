//! The reader of versions that take at most eight inputs, all unsigned: conditions 1 to 8 with a head
//! of 12 bytes in every file, d from 1 to 8 and word lengths from 1 to 64.
//!
//! Such readers are in use, and meet files of nine and ten inputs and of signed ones. They are to
//! refuse the former by 3 and the latter by 5, or by a number that comes first, and never to take one
//! for another datapath. So this reader stays as it is, with lengths of its own; a step is read as
//! in `file`.

use crate::file::{Datapath, Refusal, STEPS, read_steps};
use crate::sizes::{Sizes, sound_m};

const INPUTS: usize = 8;
const HEAD: usize = 12;

/// Reads the file that a call counts as `file` (1 or 2).
pub fn read(bytes: &[u8], file: u64) -> Result<Datapath, Refusal> {
    let refuse = |number| Refusal {
        number,
        file,
        step: 0,
    };
    if bytes.len() < HEAD {
        return Err(refuse(1));
    }
    let (m, d) = (u64::from(bytes[0]), usize::from(bytes[1]));
    let count = usize::from(u16::from_le_bytes([bytes[2], bytes[3]]));
    let widths: Vec<u64> = bytes[4..HEAD].iter().map(|&n| u64::from(n)).collect();
    if !sound_m(m) {
        return Err(refuse(2));
    }
    if !(1..=INPUTS).contains(&d) {
        return Err(refuse(3));
    }
    if !(1..=STEPS).contains(&count) {
        return Err(refuse(4));
    }
    let (used, unused) = widths.split_at(d);
    if used.iter().any(|n| !(1..=64).contains(n)) || unused.iter().any(|&n| n != 0) {
        return Err(refuse(5));
    }
    if bytes.len() != HEAD + 9 * count {
        return Err(refuse(6));
    }
    let widths = used.to_vec();
    read_steps(Sizes { m, widths }, &bytes[HEAD..], count, file)
}

#[cfg(test)]
mod tests {
    use super::*;
    use crate::file;
    use crate::random::Random;
    use crate::samples::{self, SHAPES};
    use std::collections::BTreeMap;

    /// How often the older reader gave each number (0: accepted) where d is 9 or 10, where it is not
    /// and an input is marked as signed, and for the other files.
    #[derive(Default)]
    struct Seen {
        many: BTreeMap<u64, u64>,
        signed: BTreeMap<u64, u64>,
        plain: BTreeMap<u64, u64>,
    }

    /// Whether d is 1 to 8 and the width of an input has the mark.
    fn marked(bytes: &[u8]) -> bool {
        let d = bytes.get(1).map_or(0, |&d| usize::from(d));
        let widths = bytes.get(4..4 + d).filter(|_| d <= INPUTS);
        widths.is_some_and(|widths| widths.iter().any(|&width| width >= 128))
    }

    impl Seen {
        /// Where d is 9 or 10, the number is 3, or 1 or 2 exactly where these come first. Of a signed
        /// input it is 5, or 1, 2 or 4 exactly where these come first. Otherwise the two readers
        /// agree: on the datapath, or on number, file and step.
        fn compare(&mut self, bytes: &[u8]) {
            let older = read(bytes, 2);
            let number = older.as_ref().map_or_else(|refusal| refusal.number, |_| 0);
            let many = matches!(bytes.get(1), Some(9 | 10));
            let seen = if many || marked(bytes) {
                let first = match bytes {
                    _ if bytes.len() < 12 => 1,
                    [0 | 65..=255, ..] => 2,
                    _ if many => 3,
                    [_, _, 0, 0, ..] | [_, _, 1..=255, 4, ..] | [_, _, _, 5..=255, ..] => 4,
                    _ => 5,
                };
                let expected = Refusal {
                    number: first,
                    file: 2,
                    step: 0,
                };
                assert_eq!(older, Err(expected), "{bytes:?}");
                match many {
                    true => &mut self.many,
                    false => &mut self.signed,
                }
            } else {
                assert_eq!(older, file::read(bytes, 2), "{bytes:?}");
                &mut self.plain
            };
            *seen.entry(number).or_default() += 1;
        }

        /// The file, cut at every length, and with each byte of the longest head at every value.
        fn damage(&mut self, bytes: &[u8]) {
            for cut in 0..=bytes.len() {
                self.compare(&bytes[..cut]);
            }
            let mut damaged = bytes.to_vec();
            for place in 0..file::LONG_HEAD.min(bytes.len()) {
                for byte in 0..=255 {
                    damaged[place] = byte;
                    self.compare(&damaged);
                }
                damaged[place] = bytes[place];
            }
        }
    }

    /// Sound files of d inputs: at every m that is a multiple of `apart`, of 1 to 12 steps, and one
    /// of the most.
    fn files(random: &mut Random, d: usize, apart: usize) -> Vec<Vec<u8>> {
        let mut list = Vec::new();
        for m in (1..=64).skip(apart - 1).step_by(apart) {
            let sizes = samples::sizes_of(random, m, d);
            let count = random.between(1, 12) as usize;
            let shape = random.pick(&SHAPES);
            list.push(samples::file(random, &sizes, count, shape));
        }
        let sizes = samples::sizes_of(random, 64, d);
        list.push(samples::file(random, &sizes, STEPS, SHAPES[0]));
        list
    }

    #[test]
    fn files_of_nine_and_ten_inputs_are_refused() {
        let mut random = Random::new(0x01de2);
        let mut seen = Seen::default();
        for d in [9, 10] {
            for bytes in files(&mut random, d, 1) {
                assert_eq!(file::read(&bytes, 1).unwrap().sizes.d(), d);
                assert_eq!(read(&bytes, 1).unwrap_err().number, 3);
                seen.damage(&bytes);
            }
        }
        assert_eq!(seen.many.keys().copied().collect::<Vec<_>>(), [1, 2, 3]);
        assert!(seen.many[&3] > 100_000);
    }

    #[test]
    fn files_of_signed_inputs_are_refused() {
        let mut random = Random::new(0x01de4);
        let mut seen = Seen::default();
        for d in 1..=INPUTS {
            for bytes in files(&mut random, d, 4) {
                for input in [0, d / 2, d - 1] {
                    let mut signed = bytes.clone();
                    signed[4 + input] |= 128;
                    assert!(file::read(&signed, 1).unwrap().sizes.signed());
                    assert_eq!(read(&signed, 1).unwrap_err().number, 5);
                    seen.damage(&signed);
                }
            }
        }
        assert_eq!(
            seen.signed.keys().copied().collect::<Vec<_>>(),
            [1, 2, 4, 5]
        );
        assert!(seen.signed[&5] > 100_000);
    }

    #[test]
    fn other_files_are_read_alike() {
        let mut random = Random::new(0x01de3);
        let mut seen = Seen::default();
        for d in 1..=INPUTS {
            let list = files(&mut random, d, 6);
            for bytes in list.into_iter().filter(|bytes| !marked(bytes)) {
                assert_eq!(read(&bytes, 1).unwrap().sizes.d(), d);
                seen.damage(&bytes);
                for _ in 0..20 {
                    let mut damaged = bytes.clone();
                    samples::damage(&mut random, &mut damaged);
                    seen.compare(&damaged);
                }
            }
        }
        for _ in 0..10_000 {
            seen.compare(&samples::noise(&mut random));
        }
        assert_eq!(
            seen.plain.keys().copied().collect::<Vec<_>>(),
            Vec::from_iter(0..=8)
        );
        assert!(seen.plain[&0] > 1_000);
    }
}
