//! L(m): the least natural number whose factorial is divisible by 2^m; and the quotients by which it
//! can be followed by hand.

use crate::big::Big;

pub fn bound(m: u64) -> u64 {
    let mut factorial = Big::from(1u64);
    let mut n = 0;
    while !factorial.modulo_power(m as usize).is_zero() {
        n += 1;
        factorial = &factorial * &Big::from(n);
    }
    n
}

/// n divided by 2, 4, 8, 16, 32 and 64, each rounded down.
pub fn quotients(n: u64) -> [u64; 6] {
    [2, 4, 8, 16, 32, 64].map(|power| n / power)
}

#[cfg(test)]
mod tests {
    use super::*;
    use crate::pairs::{BOUNDS, FIGURES};

    /// The exponent of two in n!: the greatest e with 2^e dividing it.
    fn exponent(n: u64) -> u64 {
        let factorial = (1..=n).fold(Big::from(1u64), |product, k| &product * &Big::from(k));
        let divides = |e: &u64| factorial.modulo_power(*e as usize).is_zero();
        (1..).take_while(divides).last().unwrap_or(0)
    }

    /// SF(2^m) as the appendix of document 002 computes it.
    fn appendix(m: u64) -> u64 {
        if m <= 2 {
            return 2 * m;
        }
        let mut power = 64 - (1 + m).leading_zeros() - 1;
        let (mut rest, mut n) = (m, 0);
        while rest != 0 {
            let part = (1 << power) - 1;
            n += rest / part;
            rest %= part;
            power -= 1;
        }
        m + n
    }

    #[test]
    fn the_values_of_document_01() {
        for (m, least) in BOUNDS {
            assert_eq!(bound(m), least, "L({m})");
        }
    }

    #[test]
    fn the_appendix_agrees() {
        for m in 1..=300 {
            assert_eq!(bound(m), appendix(m), "L({m})");
        }
    }

    #[test]
    fn figures_worked_out_by_hand() {
        for (m, [least, by_hand @ ..]) in FIGURES {
            assert_eq!(bound(m), least, "L({m})");
            assert_eq!(quotients(least), by_hand, "the quotients of L({m})");
        }
    }

    #[test]
    fn the_quotients_add_up_to_the_exponent() {
        for m in 1..=64 {
            let least = bound(m);
            let reached: u64 = quotients(least).iter().sum();
            assert_eq!(reached, exponent(least), "L({m})");
            assert!(reached >= m, "L({m})");
            let before: u64 = quotients(least - 1).iter().sum();
            assert_eq!(before, exponent(least - 1), "L({m}) - 1");
            assert!(before < m, "L({m}) - 1");
        }
    }
}
