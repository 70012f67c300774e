//! The sizes of a datapath: m, d and the widths of the inputs, with their rules; and the values that
//! an input takes, given as words.
//!
//! A width is the whole width byte of an input: the word length n in its low seven bits, and above
//! them the mark of a signed input. A vector is a list of integers, one for each input.

/// The most inputs that a datapath may have; sessions and sizes given as numbers hold so many
/// widths.
pub const INPUTS: usize = 10;

/// The words of sizes given as numbers: m, d, and the widths of ten inputs.
pub const SIZES: usize = 2 + INPUTS;

/// The mark of a signed input, as part of its width.
pub const SIGNED: u64 = 128;

/// n, the word length of an input of this width.
pub fn word_length(width: u64) -> u64 {
    width % SIGNED
}

pub fn is_signed(width: u64) -> bool {
    width >= SIGNED
}

/// The lowest value of an input: 0, or −2^(n−1) of a signed one.
pub fn lowest(width: u64) -> i128 {
    if is_signed(width) {
        -(1 << (word_length(width) - 1))
    } else {
        0
    }
}

/// The highest value of an input: 2^n − 1, or 2^(n−1) − 1 of a signed one.
pub fn highest(width: u64) -> i128 {
    lowest(width) + (1 << word_length(width)) - 1
}

/// What a word gives an input of this width, in its range or not: for a signed one it is two's
/// complement of 64 bits.
pub fn value_of(width: u64, word: u64) -> i128 {
    let plain = i128::from(word);
    if is_signed(width) && plain >= 1 << 63 {
        plain - (1 << 64)
    } else {
        plain
    }
}

/// The word that gives a value of any input.
pub fn word_of(value: i128) -> u64 {
    value.rem_euclid(1 << 64) as u64
}

/// The words that give a vector.
pub fn words_of(vector: &[i128]) -> Vec<u64> {
    vector.iter().copied().map(word_of).collect()
}

/// Sound sizes. d is the count of the widths.
#[derive(Clone, Debug, PartialEq, Eq)]
pub struct Sizes {
    pub m: u64,
    pub widths: Vec<u64>,
}

impl Sizes {
    pub fn d(&self) -> usize {
        self.widths.len()
    }

    /// The word lengths of all inputs together.
    pub fn bits(&self) -> u64 {
        self.widths.iter().copied().map(word_length).sum()
    }

    /// Whether some input is signed.
    pub fn signed(&self) -> bool {
        self.widths.iter().copied().any(is_signed)
    }

    /// The vector of the lowest values, and that of the highest.
    pub fn lowest(&self) -> Vec<i128> {
        self.widths.iter().copied().map(lowest).collect()
    }

    pub fn highest(&self) -> Vec<i128> {
        self.widths.iter().copied().map(highest).collect()
    }

    /// m, d and the ten widths, 0 past the d-th.
    pub fn numbers(&self) -> [u64; SIZES] {
        let mut numbers = [0; SIZES];
        numbers[0] = self.m;
        numbers[1] = self.d() as u64;
        numbers[2..2 + self.d()].copy_from_slice(&self.widths);
        numbers
    }

    /// Sizes given as numbers, each a byte, or the condition that refuses them: 2, 3 or 5.
    pub fn from_numbers(numbers: &[u64; SIZES]) -> Result<Sizes, u64> {
        let [m, d, widths @ ..] = numbers;
        if !sound_m(*m) {
            return Err(2);
        }
        if !sound_d(*d) {
            return Err(3);
        }
        if !sound_widths(*d, widths) {
            return Err(5);
        }
        let widths = widths[..*d as usize].to_vec();
        Ok(Sizes { m: *m, widths })
    }

    /// The full-width vector that these words give; none where 14 refuses them: there are d words,
    /// and each gives a value from the lowest of its input to the highest.
    pub fn vector(&self, words: &[u64]) -> Option<Vec<i128>> {
        if words.len() != self.d() {
            return None;
        }
        let value = |(&width, &word): (&u64, &u64)| {
            let value = value_of(width, word);
            (lowest(width)..=highest(width))
                .contains(&value)
                .then_some(value)
        };
        self.widths.iter().zip(words).map(value).collect()
    }
}

/// Rule 2.
pub fn sound_m(m: u64) -> bool {
    (1..=64).contains(&m)
}

/// Rule 3.
pub fn sound_d(d: u64) -> bool {
    (1..=INPUTS as u64).contains(&d)
}

/// Rule 5: the first d widths have word lengths of 1 to 64, marked or not; the others are 0, without
/// a mark too.
pub fn sound_widths(d: u64, widths: &[u64; INPUTS]) -> bool {
    let (used, unused) = widths.split_at(d as usize);
    let sound = |&width: &u64| (1..=64).contains(&word_length(width));
    used.iter().all(sound) && unused.iter().all(|&width| width == 0)
}

#[cfg(test)]
mod tests {
    use super::*;

    #[test]
    fn the_ends_of_the_ranges() {
        let ends = |width| (lowest(width), highest(width));
        assert_eq!(ends(1), (0, 1));
        assert_eq!(ends(8), (0, 255));
        assert_eq!(ends(64), (0, 18_446_744_073_709_551_615));
        assert_eq!(ends(SIGNED + 1), (-1, 0));
        assert_eq!(ends(SIGNED + 2), (-2, 1));
        assert_eq!(ends(SIGNED + 8), (-128, 127));
        assert_eq!(
            ends(SIGNED + 63),
            (-4_611_686_018_427_387_904, 4_611_686_018_427_387_903)
        );
        assert_eq!(
            ends(SIGNED + 64),
            (-9_223_372_036_854_775_808, 9_223_372_036_854_775_807)
        );
    }

    /// For every width, the words of the range's values and of no others are taken, among those at
    /// its ends and at the ends of a word.
    #[test]
    fn words_and_values() {
        for n in 1..=64 {
            for width in [n, SIGNED + n] {
                let widths = vec![width];
                let sizes = Sizes { m: 8, widths };
                let (low, high) = (lowest(width), highest(width));
                for value in [low, low + 1, -1, 0, 1, high - 1, high] {
                    let word = word_of(value);
                    let inside = (low..=high).contains(&value);
                    let found = sizes.vector(&[word]);
                    assert_eq!(found == Some(vec![value]), inside, "{width}, {value}");
                }
                let taken = |value: i128| sizes.vector(&[word_of(value)]).is_some();
                assert_eq!(
                    (taken(low - 1), taken(high + 1)),
                    match width {
                        // every word is a value
                        64 | 192 => (true, true),
                        _ => (false, false),
                    }
                );
            }
        }
        let byte = |word| value_of(SIGNED + 8, word);
        assert_eq!([127, 128, 255].map(byte), [127, 128, 255]);
        assert_eq!(byte(u64::MAX - 127), -128);
        assert_eq!(value_of(8, u64::MAX), i128::from(u64::MAX));
    }

    #[test]
    fn every_width_byte() {
        for byte in 0..=255 {
            let sound = (1..=64).contains(&byte) || (129..=192).contains(&byte);
            let mut numbers = [8, 1, byte, 0, 0, 0, 0, 0, 0, 0, 0, 0];
            let found = Sizes::from_numbers(&numbers);
            assert_eq!(found.is_ok(), sound, "{byte}");
            if let Ok(sizes) = found {
                assert_eq!(sizes.numbers(), numbers);
                assert_eq!(sizes.signed(), byte > 128);
            }
            numbers[2] = 8;
            for unused in 3..SIZES {
                let mut numbers = numbers;
                numbers[unused] = byte;
                let found = Sizes::from_numbers(&numbers).err();
                assert_eq!(found, (byte > 0).then_some(5), "{byte}, word {unused}");
            }
        }
    }
}
