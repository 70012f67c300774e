"""The pairs that bench/engine compares: models of the rows of document 002's tables I and II, and others."""

from functools import reduce
from math import cos, pi, sqrt
from operator import add

from datapaths import SIGNED, Pair, coefficients, expanded, falling, falling_product, horner, nest, vanishing, volterra

# Table I. The numbers of inputs, degrees, word lengths and m are the rows'; the formulas are models of what the rows name.


def fixed(*values):
    """Fixed-point numbers with 24 fraction bits."""
    return [round(v * 2**24) for v in values]


def anti_alias(x):
    return 156 * x**6 + 62724 * x**5 + 17968 * x**4 + 18661 * x**3 + 43593 * x**2 + 40224 * x + 13281


def anti_alias_reduced(x):
    """The same function modulo 2^16, by other coefficients."""
    return 156 * x**6 + 5380 * x**5 + 1584 * x**4 + 10469 * x**3 + 27209 * x**2 + 7456 * x + 13281


def poly_reduced(x):
    return (x + 3) * (5 * x * x + 7) + 11


def poly(x):
    """The same function modulo 2^16, of degree 4: a redundant term that vanishes is added."""
    return vanishing(16, (4,)) * falling(x, 4) + poly_reduced(x)


def odd_series(c):
    return lambda x: reduce(add, [ck * x ** (2 * k + 1) for k, ck in enumerate(c)])


COS = fixed(1, -1 / 2, 1 / 24, -1 / 720)
COT = fixed(pi / 2, -1, 1 / 3, -1 / 5, 1 / 7, -1 / 9)
ERF = fixed(*[2 / sqrt(pi) * c for c in (1, -1 / 3, 1 / 10, -1 / 42)])
LN = fixed(2, 2 / 3, 2 / 5, 2 / 7)
PSK = volterra(2, 4, seed=1)
CUBIC = volterra(3, 3, seed=2)
QUARTIC = volterra(3, 4, seed=3)
MAC = volterra(3, 4, seed=4)


def gains(g, c):
    """The product of the powers of signal and image at gain g and phase cosine c."""
    return (1 + g * g + 2 * g * c) * (1 + g * g - 2 * g * c)


def sections(x1, x2):
    """Two second-order sections one after the other."""
    return (x1 * x1 - 14 * x1 * x2 + 51 * x2 + 9) * (7 * x2 * x2 + 3 * x1 * x2 - 18 * x1 + 25)


def powers(x1, x2):
    return ((x1 + 2 * x2) ** 3 + 5) * (x1 * x1 * x2 + 3) ** 2


def vanishing_term(m, k):
    return lambda *x: vanishing(m, k) * falling_product(k, x)


TABLE_1 = [
    # the name, the word lengths, m and the two forms; after them the degree
    Pair("Anti-alias function", [11], 16, anti_alias, horner(anti_alias_reduced)),  # 6
    Pair("Poly_unopt", [16], 16, expanded(poly), poly_reduced),  # 4
    Pair("cos x", [32], 32, lambda x: COS[0] + COS[1] * x**2 + COS[2] * x**4 + COS[3] * x**6, lambda x: nest(COS, [x * x] * 3)),  # 6
    Pair("cot^-1 x", [32], 32, lambda x: COT[0] + odd_series(COT[1:])(x), lambda x: COT[0] + x * nest(COT[1:], [x * x] * 4)),  # 9
    Pair("erf x", [32], 32, odd_series(ERF), lambda x: x * nest(ERF, [x * x] * 3)),  # 7
    Pair("ln((1+x)/(1-x))", [32], 32, odd_series(LN), lambda x: x * (LN[0] + LN[1] * x**2 + (x**2) ** 2 * (LN[2] + LN[3] * x**2))),  # 7
    Pair("IRR", [12, 8], 16, gains, lambda g, c: (1 + g * g) ** 2 - (2 * g * c) ** 2),  # 4
    Pair("PSK", [11, 14], 16, PSK, horner(PSK, 1, 0)),  # 4
    Pair("Cubic filter", [12, 14, 10], 16, CUBIC, horner(CUBIC, 0, 1, 2)),  # 3
    Pair("Degree-4 filter 2", [15, 11, 13], 16, horner(QUARTIC, 0, 1, 2), horner(QUARTIC, 2, 1, 0)),  # 4
    Pair("4th Order IIR", [24, 29], 32, sections, expanded(sections)),  # 4
    Pair("MIBENCH", [16, 12], 16, powers, horner(powers, 0, 1)),  # 9
    Pair("Horner Polynomial", [14, 14, 16], 16, MAC, horner(MAC, 1, 2, 0)),  # 4
    Pair("Vanishing polynomial", [12, 12], 16, vanishing_term(16, (6, 4)), expanded(vanishing_term(16, (5, 5)))),  # 10
]

# Table II: one wrong coefficient. That of a monomial shows at a vector of zeros and ones, so the last two pairs differ early. To differ at
# the row's count of vectors, the second form has a redundant term c · Y_k, where k is the vector at that count: the right c makes it
# vanish, and half of it makes k the first vector where it doesn't. No difference is first at a k such that 2^m divides k1!·..·kd!, as at
# the 4,335th vector of the Horner Polynomial; (13, 6, 3), the 4,324th, is the last before it that can be.


def wrong(name, k):
    row = next(pair for pair in TABLE_1 if pair.name == name)
    half = vanishing(row.m, k) // 2
    return Pair(name + ", wrong", row.widths, row.m, row.forms[0], lambda *x: row.forms[1](*x) + half * falling_product(k, x), k)


TABLE_2 = [
    wrong("Anti-alias function", (17,)),  # 18 vectors
    wrong("PSK", (17, 1)),  # 308
    wrong("Horner Polynomial", (13, 6, 3)),  # 4,324
    wrong("4th Order IIR", (12, 7)),  # 416
    wrong("Vanishing polynomial", (5, 12)),  # 103
    Pair("Anti-alias function, early", [11], 16, anti_alias, horner(lambda x: anti_alias_reduced(x) + x), (1,)),
    Pair("PSK, early", [11, 14], 16, PSK, horner(lambda x1, x2: PSK(x1, x2) + 2**15 * x1 * x2, 1, 0), (1, 1)),
]

# Grids of other shapes: the last input takes 2, 4, 28, 18, 18, 8, 66 and 8 values.


def mixer(s1, s2, s3, s4, g1, g2, g3, g4):
    """Four samples, each times its gain."""
    return s1 * g1 + s2 * g2 + s3 * g3 + s4 * g4


def mixer_in_twos(s1, s2, s3, s4, g1, g2, g3, g4):
    """Winograd's inner product: a product of sums for every two channels, less the products of their samples and of their gains."""
    return (s1 + g2) * (s2 + g1) + (s3 + g4) * (s4 + g3) - (s1 * s2 + s3 * s4) - (g1 * g2 + g3 * g4)


def four_products(a, b, c, d):
    """Real and imaginary part of (a + bi)(c + di)."""
    return a * c - b * d, a * d + b * c


def three_products(a, b, c, d):
    common = c * (a + b)
    return common - b * (c + d), common + a * (d - c)


def packed(real, imaginary):
    return real + 2**16 * imaginary


WIDE = volterra(3, 3, seed=5)

# The first half of a Hamming window of ten samples, with 14 fraction bits.
TAPER = [round(2**14 * (0.54 - 0.46 * cos(2 * pi * i / 9))) for i in range(5)]


def beam(*x):
    """Ten samples, each times its weight in the window."""
    return reduce(add, [w * xi for w, xi in zip(TAPER + TAPER[::-1], x)])


def beam_folded(*x):
    """The window is symmetric: one product for the two samples of a weight, and a tree of sums."""
    a, b, c, d, e = [w * (x[i] + x[9 - i]) for i, w in enumerate(TAPER)]
    return ((a + b) + (c + d)) + e


SHAPES = [
    Pair("Mixer, 1-bit gains", [3] * 4 + [1] * 4, 16, mixer, mixer_in_twos),
    Pair("Mixer, 2-bit gains", [2] * 8, 16, mixer, mixer_in_twos),
    Pair("Cross-fade", [16, 16, 8], 24, lambda a, b, t: a * t + b * (256 - t), lambda a, b, t: 256 * b + (a - b) * t),
    Pair("Complex multiply, real", [8] * 4, 16, lambda a, b, c, d: a * c - b * d, lambda a, b, c, d: c * (a + b) - b * (c + d)),
    Pair("Complex multiply, imaginary", [8] * 4, 16, lambda a, b, c, d: a * d + b * c, lambda a, b, c, d: c * (a + b) + a * (d - c)),
    Pair("Complex multiply, both", [6, 6, 3, 3], 32, lambda *x: packed(*four_products(*x)), lambda *x: packed(*three_products(*x))),
    Pair("Cubic filter, 64 bits", [64] * 3, 64, WIDE, horner(WIDE, 2, 0, 1)),
    Pair("Beam of ten samples", [2] * 8 + [3] * 2, 16, beam, beam_folded),
]

# Audio blocks with signed samples.


def stereo(s1, s2, g1, g2):
    """Two samples, each times its gain."""
    return s1 * g1 + s2 * g2


def stereo_in_twos(s1, s2, g1, g2):
    """Winograd's inner product."""
    return (s1 + g2) * (s2 + g1) - s1 * s2 - g1 * g2


def stereo_wrong(s1, s2, g1, g2):
    """A redundant term of falling factorials, counted from the lowest values, that is half of one that vanishes."""
    k = (9, 3, 8, 2)
    return stereo_in_twos(s1, s2, g1, g2) + vanishing(24, k) // 2 * falling_product(k, [s1 + 2**15, s2 + 2**15, g1, g2])


# A low-pass section of second order, its coefficients with 14 fraction bits: of three samples in and two out.
B, A = [1106, 2212, 1106], [-18727, 6763]


def biquad(x0, x1, x2, y1, y2):
    return B[0] * x0 + B[1] * x1 + B[2] * x2 - A[0] * y1 - A[1] * y2


def biquad_folded(x0, x1, x2, y1, y2):
    """One product for all samples in, whose weights are 1, 2 and 1."""
    return B[0] * (x0 + 2 * x1 + x2) - (A[0] * y1 + A[1] * y2)


SAMPLES = [SIGNED + 16] * 2 + [8] * 2

AUDIO = [
    Pair("Mixer, signed samples", SAMPLES, 24, stereo, stereo_in_twos),
    Pair("Mixer, signed samples, wrong", SAMPLES, 24, stereo, stereo_wrong, (9 - 2**15, 3 - 2**15, 8, 2)),
    Pair("Biquad, signed samples", [SIGNED + 3] * 5, 32, biquad, biquad_folded),
]

# Blocks of 900 to 1,024 steps in both forms.


def iterated(product):
    """z := z·w + (3 + 5i), 125 times."""

    def form(z1, z2, w1, w2):
        for _ in range(125):
            z1, z2 = product(z1, z2, w1, w2)
            z1, z2 = z1 + 3, z2 + 5
        return packed(z1, z2)

    return form


def newton_sum(table):
    """The sum of table[i][j] · Y_(i, j), multiplied out."""

    def line(parts, x):
        return reduce(add, [part * falling(x, k) if k else x.lift(part) for k, part in enumerate(parts)])

    return lambda x1, x2: line([line(column, x1) for column in zip(*table)], x2)


def newton_nested(table):
    """The same sum nested in Newton's form."""

    def line(parts, x):
        return nest(parts, [x - k if k else x for k in range(len(parts) - 1)])

    return lambda x1, x2: line([line(row, x2) for row in table], x1)


TABLE = [coefficients(17, seed) for seed in range(17)]
WRONG = [*TABLE[:-1], [*TABLE[-1][:-1], TABLE[-1][-1] + 1]]

BLOCKS = [
    Pair("Block, complex steps", [3] * 4, 32, iterated(four_products), iterated(three_products)),
    Pair("Block, Newton's form", [64, 64], 64, newton_sum(TABLE), newton_nested(TABLE)),
    Pair("Block, Newton's form, wrong", [64, 64], 64, newton_sum(TABLE), newton_nested(WRONG), (16, 16)),
]

PAIRS = TABLE_1 + TABLE_2 + SHAPES + AUDIO + BLOCKS
