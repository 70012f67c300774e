"""Datapaths from formulas.

A form is a function of the inputs. Called with wires it lays down steps; called with polynomials it gives its expansion,
from which `expanded` and `horner` make other forms of the same polynomial.
"""

from functools import reduce
from math import factorial, gcd, prod
from operator import add, mul
from random import Random

INPUT, CONSTANT, ADD, SUBTRACT, MULTIPLY = range(1, 6)

SIGNED = 128


def word_length(width):
    """The word length of an input, whose width byte has SIGNED added where it is signed."""
    return width % SIGNED


def lowest(width):
    """The lowest value of an input."""
    return -(2 ** (word_length(width) - 1)) if width >= SIGNED else 0


class Ring:
    """Operators by `lift`, which takes a number to an element, and `apply`."""

    def __add__(self, other):
        return self.apply(ADD, self.lift(other))

    def __radd__(self, other):
        return self.lift(other).apply(ADD, self)

    def __sub__(self, other):
        return self.apply(SUBTRACT, self.lift(other))

    def __mul__(self, other):
        return self.apply(MULTIPLY, self.lift(other))

    def __rsub__(self, other):
        return self.lift(other).apply(SUBTRACT, self)

    def __rmul__(self, other):
        return self.lift(other).apply(MULTIPLY, self)

    def __pow__(self, k):
        return reduce(mul, [self] * k)


class Wire(Ring):
    """The value of a step."""

    def __init__(self, datapath, index):
        self.datapath, self.index = datapath, index

    def lift(self, other):
        return other if isinstance(other, Wire) else self.datapath.step(CONSTANT, other % 2**self.datapath.m)

    def apply(self, operation, other):
        return self.datapath.step(operation, self.index, other.index)


class Polynomial(Ring):
    """Coefficients by the exponents of the d inputs."""

    def __init__(self, d, terms):
        self.d, self.terms = d, terms

    def lift(self, other):
        return other if isinstance(other, Polynomial) else Polynomial(self.d, {(0,) * self.d: other})

    def apply(self, operation, other):
        terms = {} if operation == MULTIPLY else dict(self.terms)
        for e, c in other.terms.items():
            if operation == MULTIPLY:
                for f, b in self.terms.items():
                    g = tuple(map(add, e, f))
                    terms[g] = terms.get(g, 0) + b * c
            else:
                terms[e] = terms.get(e, 0) + (c if operation == ADD else -c)
        return Polynomial(self.d, terms)


class Datapath:
    """The steps of a form; equal steps are made once."""

    def __init__(self, m, widths, form):
        self.m, self.widths, self.steps, self.made = m, widths, [], {}
        output = form(*[self.step(INPUT, i) for i in range(len(widths))])
        assert output.index == len(self.steps) - 1 < 1024

    def step(self, *step):
        if step not in self.made:
            self.made[step] = Wire(self, len(self.steps))
            self.steps.append(step)
        return self.made[step]

    def file(self):
        d = len(self.widths)
        head = bytes([self.m, d]) + len(self.steps).to_bytes(2, "little") + bytes(self.widths).ljust(8 if d <= 8 else 10, b"\0")
        arguments = [s[1] if s[0] in (INPUT, CONSTANT) else s[1] | s[2] << 16 for s in self.steps]
        return head + bytes(s[0] for s in self.steps) + b"".join(a.to_bytes(8, "little") for a in arguments)


class Pair:
    """Two forms with width bytes and m; `first` is the first vector at which they differ, None where they are equivalent."""

    def __init__(self, name, widths, m, form1, form2, first=None):
        self.name, self.widths, self.m, self.forms, self.first = name, widths, m, (form1, form2), first
        self.datapaths = [Datapath(m, widths, form) for form in self.forms]
        bound = next(k for k in range(1, 67) if factorial(k) % 2**m == 0)
        self.lowest = [lowest(width) for width in widths]
        self.axes = [min(2 ** word_length(width), bound) for width in widths]
        self.grid = prod(self.axes)
        digits = [x - low for x, low in zip(first, self.lowest)] if first else []
        self.place = reduce(lambda p, digit: p * digit[1] + digit[0], zip(digits, self.axes), 0) if first else self.grid
        self.run = self.place + 1 if first else self.grid


def terms_of(form, x):
    """The coefficients modulo 2^m by exponents of a form of the inputs x, highest exponents first."""
    d, m = len(x), x[0].datapath.m
    units = [tuple(int(i == j) for j in range(d)) for i in range(d)]
    terms = form(*[Polynomial(d, {unit: 1}) for unit in units]).terms
    return {e: terms[e] % 2**m for e in sorted(terms, reverse=True) if terms[e] % 2**m}


def monomials(terms, x):
    """The sum of monomials with coefficients by exponents."""

    def monomial(c, e):
        powers = [xi**k for xi, k in zip(x, e) if k]
        return c * reduce(mul, powers) if powers else x[0].lift(c)

    return reduce(add, [monomial(c, e) for e, c in terms.items()])


def expanded(form):
    """A form multiplied out into monomials."""
    return lambda *x: monomials(terms_of(form, x), x)


def horner(form, *order):
    """A form nested by Horner's rule, outermost in the first input of the order; inputs count from 0."""

    def nested(terms, x, rest):
        if not rest:
            return sum(terms.values())
        parts = {}
        for e, c in terms.items():
            parts.setdefault(e[rest[0]], {})[e] = c
        value = nested(parts[max(parts)], x, rest[1:])
        for k in reversed(range(max(parts))):
            value = value * x[rest[0]]
            if k in parts:
                value = value + nested(parts[k], x, rest[1:])
        return value

    return lambda *x: nested(terms_of(form, x), x, order or range(len(x)))


def nest(parts, factors):
    """p0 + f0·(p1 + f1·(p2 + ..)): Horner's rule where the factors are one input, Newton's form where they are x − k."""
    value = parts[-1]
    for part, factor in zip(reversed(parts[:-1]), reversed(factors)):
        value = value * factor + part
    return value


def coefficients(count, seed):
    """Odd numbers of 64 bits."""
    random = Random(seed)
    return [random.getrandbits(64) | 1 for _ in range(count)]


def volterra(d, degree, seed):
    """The sum of all monomials of d inputs up to a total degree: a Volterra model."""
    exponents = [()]
    for _ in range(d):
        exponents = [e + (k,) for e in exponents for k in range(degree + 1 - sum(e))]
    return lambda *x: monomials(dict(zip(exponents, coefficients(len(exponents), seed))), x)


def falling(x, k):
    """The falling factorial x(x−1)..(x−k+1)."""
    return reduce(mul, [x - i if i else x for i in range(k)])


def falling_product(k, x):
    """Y_k of document 002: the product of the falling factorials of the inputs x, of orders k."""
    return reduce(mul, [falling(xi, ki) for xi, ki in zip(x, k) if ki])


def vanishing(m, k):
    """The least positive c such that c · Y_k is 0 everywhere modulo 2^m."""
    return 2**m // gcd(2**m, prod(map(factorial, k)))
