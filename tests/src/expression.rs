//! Polynomials written as expressions, and the datapath files that compute them.

use crate::file::{Datapath, Step, write};
use crate::sizes::Sizes;
use std::ops::{Add, Mul, Sub};

#[derive(Clone, Debug)]
pub enum Expression {
    Input(usize),
    Constant(i32),
    Add(Box<Expression>, Box<Expression>),
    Subtract(Box<Expression>, Box<Expression>),
    Multiply(Box<Expression>, Box<Expression>),
    /// A power, with an exponent of at least 1.
    Power(Box<Expression>, u32),
}

/// Input x1 to x10, named as document 01 names them.
pub fn x(number: usize) -> Expression {
    Expression::Input(number - 1)
}

pub fn constant(number: i32) -> Expression {
    Expression::Constant(number)
}

/// The falling factorial Y_k of document 002, for k of at least 1.
pub fn falling(base: Expression, k: i32) -> Expression {
    (1..k).fold(base.clone(), |product, j| product * (base.clone() - j))
}

impl From<i32> for Expression {
    fn from(number: i32) -> Expression {
        constant(number)
    }
}

macro_rules! operator {
    ($trait:ident, $method:ident, $case:ident) => {
        impl<T: Into<Expression>> $trait<T> for Expression {
            type Output = Expression;

            fn $method(self, other: T) -> Expression {
                Expression::$case(Box::new(self), Box::new(other.into()))
            }
        }

        impl $trait<Expression> for i32 {
            type Output = Expression;

            fn $method(self, other: Expression) -> Expression {
                constant(self).$method(other)
            }
        }
    };
}

operator!(Add, add, Add);
operator!(Sub, sub, Subtract);
operator!(Mul, mul, Multiply);

impl Expression {
    pub fn power(self, exponent: u32) -> Expression {
        Expression::Power(Box::new(self), exponent)
    }

    /// The integer value at a vector, for values that stay small.
    pub fn at(&self, vector: &[i128]) -> i128 {
        match self {
            Expression::Input(input) => vector[*input],
            Expression::Constant(number) => i128::from(*number),
            Expression::Add(left, right) => left.at(vector) + right.at(vector),
            Expression::Subtract(left, right) => left.at(vector) - right.at(vector),
            Expression::Multiply(left, right) => left.at(vector) * right.at(vector),
            Expression::Power(base, exponent) => base.at(vector).pow(*exponent),
        }
    }

    /// The file that computes this expression. Constants are reduced modulo 2^m, a power names the
    /// step of its base again and again, and every other use of an input has a step of its own.
    pub fn file(&self, m: u64, widths: &[u64]) -> Vec<u8> {
        let widths = widths.to_vec();
        let mut steps = Vec::new();
        self.append(m, &mut steps);
        let sizes = Sizes { m, widths };
        write(&Datapath { sizes, steps })
    }

    /// Appends the steps of this expression and gives the index of its last one.
    fn append(&self, m: u64, steps: &mut Vec<Step>) -> usize {
        let mut operands = |left: &Expression, right: &Expression| {
            let left = left.append(m, steps);
            (left, right.append(m, steps))
        };
        let step = match self {
            Expression::Input(input) => Step::Input(*input),
            Expression::Constant(number) => {
                Step::Constant(i128::from(*number).rem_euclid(1 << m) as u64)
            }
            Expression::Add(left, right) => {
                let (left, right) = operands(left, right);
                Step::Add(left, right)
            }
            Expression::Subtract(left, right) => {
                let (left, right) = operands(left, right);
                Step::Subtract(left, right)
            }
            Expression::Multiply(left, right) => {
                let (left, right) = operands(left, right);
                Step::Multiply(left, right)
            }
            Expression::Power(base, exponent) => {
                let base = base.append(m, steps);
                let mut last = base;
                for _ in 1..*exponent {
                    steps.push(Step::Multiply(last, base));
                    last = steps.len() - 1;
                }
                return last;
            }
        };
        steps.push(step);
        steps.len() - 1
    }
}

#[cfg(test)]
mod tests {
    use super::*;
    use crate::file::read;
    use crate::grid::full_width;
    use crate::sizes::SIGNED;
    use crate::value::output;

    #[test]
    fn files_compute_their_expressions() {
        let list = [
            3 * x(1).power(4) - x(2) * x(2) + 7,
            5 - falling(x(2), 4) * x(1),
            (x(1) - x(2)).power(3) * (2 - x(2)),
            constant(-1),
        ];
        for expression in list {
            for m in [1, 5, 8, 64] {
                for widths in [[3, 3], [SIGNED + 3, 3], [SIGNED + 3, SIGNED + 3]] {
                    let path = read(&expression.file(m, &widths), 1).unwrap();
                    for vector in full_width(&path.sizes) {
                        let expected = expression.at(&vector).rem_euclid(1 << m) as u64;
                        assert_eq!(output(&path, &vector).output, expected);
                    }
                }
            }
        }
    }
}
