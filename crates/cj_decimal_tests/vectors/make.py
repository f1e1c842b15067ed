#!/usr/bin/env python3
"""Makes src/tests/vectors.rt: spellings and comparisons with what exact arithmetic answers for them.

Run in the crate's folder: python3 vectors/make.py > src/tests/vectors.rt
Nothing here is taken from the program: numbers are Python's integers and fractions, and the grammar of
RFC 8259, section 6, is the regular expression below.
"""
import re
from fractions import Fraction

NUMBER = re.compile(r"-?(?:0|[1-9][0-9]*)(?:\.[0-9]+)?(?:[eE][+-]?[0-9]+)?", re.ASCII)
POWER_LIMIT = 1_000_000
DIGIT_LIMIT = 36


def normal_form(spelling):
    """The pair (c, p), without ever making 10 ** p for a large p."""
    mantissa, _, exponent = spelling.lower().partition("e")
    digits, _, fraction = mantissa.partition(".")
    c = int(digits + fraction)
    p = int(exponent or "0") - len(fraction)
    if c == 0:
        return 0, 0
    while c % 10 == 0:
        c, p = c // 10, p + 1
    return c, p


def read(spelling):
    if not NUMBER.fullmatch(spelling):
        return "NotANumber"
    c, p = normal_form(spelling)
    if len(str(abs(c))) > DIGIT_LIMIT or abs(p) > POWER_LIMIT:
        return "NumberRange"
    return c, p


def units(value, places):
    """The value as a number of units of 10^-places, if it is one below 10^18 in size."""
    c, p = value
    if p > 40 or p < -80:
        return 0 if c == 0 else None
    exact = Fraction(c) * Fraction(10) ** p
    scaled = exact * 10**places
    if scaled.denominator != 1 or abs(exact) >= 10**18:
        return None
    return int(scaled)


nines = "9" * 36
ones = "1" * 36
SPELLINGS = [
    # the worked rows
    "1.50e3", "0.0", "0e999999999999", "1e1000000", "1e1000001", "10e1000000", "9" * 37, nines,
    "01", "+1", "1.", "", "1" + "0" * 40, "1e0000000000000000000001",
    "12.0", "1e2", "0", "999999999999999999", "1.5", "1e18", "0.001",
    "999999999999999999.999999999999999999", "1e-19",
    # usual numbers
    "1", "7", "10", "1000", "120", "123456", "84734.125", "0.5", "2.50", "100.001",
    "18446744073709551615", "18446744073709551616", "18446744073709551620",
    "99999999999999999", "100000000000000000", "999999999999999990",
    # 36 and 37 digits, with zeros before, behind and inside
    "0." + nines, "0.0" + nines, "0.00000" + ones, nines + "0", nines + "000", nines + ".0", nines + ".000",
    nines[:18] + "." + nines[18:], "1" + nines, "1" + nines[:35], "0." + "9" * 37, "0.00" + "9" * 37,
    "9" * 37 + "0", "9" * 18 + "." + "9" * 19, "1" + "0" * 35 + "1", "1" + "0" * 34 + "1",
    "1" + "0" * 34 + "10", "1" + "0" * 36 + ".0", "1" + "0" * 36 + ".1", "0." + "0" * 40 + "1",
    "0." + "0" * 40 + "10", "1" + "0" * 17 + "." + "0" * 18, "1" + "0" * 17 + "." + "0" * 17 + "1",
    "1" + "0" * 17 + "." + "0" * 18 + "1", "1" + "0" * 17 + "." + "0" * 19 + "1",
    # powers at both limits
    "1e-1000000", "1e-1000001", "0.1e1000001", "0.1e1000002", "0.1e-999999", "0.1e-1000000",
    "100e-1000002", "100e-1000003", "100e999998", "100e999999", "1.5e1000001", "1.5e1000002", "15e1000000",
    "15e1000001", nines + "e1000000", nines + "e-1000000", nines + "0e999999", nines + "0e1000000",
    # exponents in every spelling
    "1E2", "1e+2", "1e-2", "1E+002", "2e-0", "0e0", "0.000e-7", "0E-1000001", "0.00e1000001",
    "1e" + "9" * 36, "1e-" + "9" * 36, "1e" + "9" * 60, "1e-" + "9" * 60, "0e" + "9" * 60,
    "1e" + "0" * 60 + "5", "1e-" + "0" * 60 + "5", "1e18446744073709551616", "1e-18446744073709551616",
    # the edges of whole and fixed
    "1e17", "1e19", "10e17", "0.9e18", "1000000000000000000", "1000000000000000001", "999999999999999999e0",
    "9999999999999999990e-1", "1e-18", "1e-17", "5e-19", "0.0000000000000000010", "0.0000000000000000015",
    "1e36", "1e35", "1e-36", "999999999999999999.9999999999999999990", "999999999999999999.9999999999999999995",
    # no numbers
    "-", "--1", "-+1", "00", "00.1", "1.e1", ".5", "1.5.", "1.5.5", "e1", "1e", "1e+", "1e-", "1e+-1", "1ee1",
    "1e1.", "1e1e1", "1e1.0", " 1", "1 ", "1 2", "0x1", "1_000", "NaN", "Infinity", "1f", "1,5", "+", ".", "1e 1",
    "-.5", "-e1", "01.5", "0123", "\u0661", "1\u0662", "1" + "0" * 40 + "x", "1\t",
]


def signed(spellings):
    seen = set()
    for s in spellings:
        for t in (s, "-" + s):
            if t not in seen:
                seen.add(t)
                yield t


COMPARISONS = [
    ("1e-3", "1000", 1000, "1001"), ("1e-3", "1000", 999, "1001"), ("1e-3", "1000", 1001, "1001"),
    ("999999999999999999", "0", 999999999999999999, "999999999999999999"),
    ("999999999999999999", "0", 1, "999999999999999999"),
    ("999999999999999999", "0", -999999999999999999, "999999999999999999"),
    ("1e-18", "0", 999999999999999999, "0.999999999999999999"),
    ("1e-18", "0", 999999999999999999, "0.999999999999999998"),
    ("1e-18", "0", 999999999999999998, "0.999999999999999999"),
    ("-0.001", "1000", 1000, "999"), ("-0.001", "1000", 0, "1000"), ("-0.001", "1000", 1, "1000"),
    ("-0.001", "1000", -1, "1000"), ("0", "5", 123, "5"), ("0", "5", 123, "5.000000000000000001"),
    ("0", "5", 123, "4.999999999999999999"), ("1", "0", 0, "0"), ("1", "0", 0, "1e-18"), ("1", "0", 0, "-1e-18"),
    ("1", "0", -1, "-0.999999999999999999"), ("1", "0", -1, "-1.000000000000000001"),
    ("0.001", "1001", 0, "1001.000000000000000001"), ("0.001", "1001", 0, "1001"),
    ("999999999999999999.999999999999999999", "999999999999999999.999999999999999999", 999999999999999999,
     "-999999999999999999.999999999999999999"),
    ("999999999999999999.999999999999999999", "-999999999999999999.999999999999999999", 2,
     "999999999999999999.999999999999999999"),
    ("999999999999999999.999999999999999999", "-999999999999999999.999999999999999999", 1, "0"),
    ("-999999999999999999.999999999999999999", "999999999999999999.999999999999999999", 1, "0"),
    ("-999999999999999999.999999999999999999", "999999999999999999.999999999999999999", 999999999999999999, "0"),
    ("-999999999999999999.999999999999999999", "-1e-18", -1, "999999999999999999.999999999999999998"),
    ("0.5", "0.25", 3, "1.75"), ("0.5", "0.25", -3, "-1.25"), ("0.5", "0.25", -3, "-1.250000000000000001"),
    ("1.000000000000000001", "0", 999999999999999999, "999999999999999999.999999999999999999"),
    ("1.000000000000000001", "-1", 999999999999999999, "999999999999999998.999999999999999999"),
    ("1.000000000000000001", "-1", 999999999999999999, "999999999999999999"),
]


def fixed_units(spelling):
    answer = units(normal_form(spelling), 18)
    assert answer is not None, spelling
    return answer


def negated(s):
    return s[1:] if s.startswith("-") else s if s == "0" else "-" + s


def comparisons():
    seen = set()
    for scale, shift, v, q in COMPARISONS:
        for row in ((scale, shift, v, q), (negated(scale), negated(shift), v, negated(q)), (negated(scale), shift, -v, q)):
            if row not in seen:
                seen.add(row)
                yield row


def text(n):
    return "none" if n is None else str(n)


def table(name, comment, lines):
    print()
    print(f"/// {comment}")
    print(f"pub const {name}: &str = \"\\")
    for line in lines:
        assert not set(line) & set('"\\\n'), line
        print(line.replace(" ", "\\x20").replace("\t", "\\t") + "\\n\\")
    print("\";")


def spelling_line(s):
    value = read(s)
    if isinstance(value, str):
        return f"{s}|{value}"
    return f"{s}|{value[0]}|{value[1]}|{text(units(value, 0))}|{text(units(value, 18))}"


def comparison_line(row):
    scale, shift, v, q = row
    left, right = fixed_units(scale) * v + fixed_units(shift), fixed_units(q)
    order = "Less" if left < right else "Greater" if left > right else "Equal"
    return f"{scale}|{shift}|{v}|{q}|{order}"


def main():
    print("//! Written by vectors/make.py, with exact arithmetic outside the program. Change that file and run\n"
          "//! it again.")
    table("SPELLINGS", "Each line has a spelling. Then come its coefficient, power, whole value and units of 10^-18, or\n"
          "/// its fault.",
          map(spelling_line, signed(SPELLINGS)))
    table("COMPARISONS", "Each line has a scale, a shift, v and q, and how `v * scale + shift` compares with q.",
          map(comparison_line, comparisons()))


main()
