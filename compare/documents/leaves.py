#!/usr/bin/env python3
"""Writes crates/leaves/stdin and crates/leaves/stdout: inputs for the leaves, and the answers that document 01 gives.

The answers are worked out here with whole numbers and fractions alone, from document 01 and IEEE 754, and know
nothing of the Rattle code. Run it from the repository's root; it is seeded, so that it writes the same files again."""
import random
import re
from fractions import Fraction
from math import isqrt

INFINITY, MINUS, NAN = 0x7F800000, 0x80000000, 0x7FC00000


def value(bits):
    """The number that a finite pattern stands for."""
    field, digits = bits >> 23 & 255, bits & 0x7FFFFF
    scaled = digits if field == 0 else (digits | 0x800000) << (field - 1)
    return (-1 if bits & MINUS else 1) * Fraction(scaled, 1 << 149)


def nearest(x):
    """The pattern of the f32 nearest to x >= 0, a tie to the even one."""
    if x == 0:
        return 0
    units = x * (1 << 149)
    shift = max(0, int(units).bit_length() - 24)
    whole, rest = divmod(units, 1 << shift)
    twice = 2 * rest
    if twice > 1 << shift or (twice == 1 << shift and whole % 2):
        whole += 1
    return min(int(whole) + (shift << 23), INFINITY)


def is_nan(bits):
    return bits & 0x7FFFFFFF > INFINITY


def root(bits):
    if bits in (0, MINUS, INFINITY):
        return bits
    if is_nan(bits) or bits & MINUS:
        return NAN
    # The root of the value, to 200 binary places, with a last digit that tells an exact root from a rest.
    scaled = value(bits) * (1 << 400)
    down = isqrt(int(scaled))
    exact = down * down == scaled
    return nearest(Fraction(2 * down + (0 if exact else 1), 1 << 201))


def cutoff(bits):
    """The greatest f32 s at which root(s) / 2 > t fails, where some f32 passes."""
    if is_nan(bits) or bits == INFINITY:
        return INFINITY
    if bits & MINUS and bits != MINUS:
        return MINUS | 1
    t = value(bits)
    passes = lambda s: value(nearest(value(root(s)) / 2)) > t
    low, high = 0, INFINITY
    while high - low > 1:
        middle = (low + high) // 2
        low, high = (low, middle) if passes(middle) else (middle, high)
    # The infinity's root is the infinity, so it passes for every finite t.
    return low


def magnitude(bits):
    return NAN if is_nan(bits) else bits & 0x7FFFFFFF


def clamp(bits):
    if is_nan(bits):
        return NAN
    if bits > MINUS:
        return 0
    return 0x3F800000 if 0x3F800000 < bits < MINUS else bits


def whole(bits):
    if is_nan(bits):
        return "0"
    if bits & 0x7FFFFFFF >= 0x5F000000:
        return "least" if bits & MINUS else "most"
    number = int(value(bits))
    return str(number) if number in (-2, -1, 0, 1, 2, 5, 6) else "other"


def token(text):
    body = re.fullmatch(r"([+-]?)(\d*)(?:(\.)(\d*))?", text, re.ASCII)
    if not body:
        return "no number"
    before, after = body[2], body[4] or ""
    if not 1 <= len(before + after) <= 18:
        return "no number"
    bits = nearest(Fraction(int(before + after), 10 ** len(after)))
    return f"{bits | (MINUS if body[1] == '-' else 0):08x}"


def long_token(text):
    """Any number of digits, of which 19 are left without the zeros at the start and at the end; then perhaps a power of ten."""
    body = re.fullmatch(r"([+-]?)(\d*)(?:\.(\d*))?(?:[eE]([+-]?\d+))?", text, re.ASCII)
    if not body:
        return "no number"
    before, after = body[2], body[3] or ""
    if not before + after or len((before + after).strip("0")) > 19:
        return "no number"
    # A power that is far out tells no more than one that is less far: the digits are at most as many as the text has bytes.
    power = max(-500, min(500, int(body[4] or "0")))
    bits = nearest(int(before + after) * Fraction(10) ** (power - len(after)))
    return f"{bits | (MINUS if body[1] == '-' else 0):08x}"


def numeral(bits):
    """Nine significant digits, to nearest, a tie to even, from 1e-6 to 1e6; `0` and `-0`; else nothing."""
    sign, size = ("-" if bits & MINUS else ""), bits & 0x7FFFFFFF
    if size == 0:
        return sign + "0"
    if not 0x358637BD <= size <= 0x49742400:
        return ""
    x = value(size)
    places = next(k for k in range(16) if x * 10**k >= 10**8)
    digits = round(x * 10**places)  # of a fraction: to nearest, a tie to even
    if digits == 10**9:
        digits, places = 10**8, places - 1
    return f"{sign}{digits // 10**places}.{digits % 10**places:0{places}d}"


def patterns(rng):
    out = [0, 1, 2, 3, 0x7FFFFE, 0x7FFFFF, 0x800000, 0x800001, 0x7F7FFFFE, 0x7F7FFFFF, INFINITY, NAN, 0x7F800001]
    for power in range(-149, 128, 4):
        bits = nearest(Fraction(2) ** power)
        out += [bits - 1, bits, bits + 1]
    for number in (2, 3, 4, 5, 9, 10, 16777216):
        out.append(nearest(Fraction(number)))
    # Squares of f32 with few digits, and their neighbours: roots that are exact, and just beside.
    for _ in range(60):
        square = nearest(Fraction(rng.randrange(1, 4096)) ** 2 / Fraction(2) ** (2 * rng.randrange(0, 40)))
        out += [square - 1, square, square + 1]
    out += [rng.randrange(0, INFINITY) for _ in range(250)]
    return out + [bits | MINUS for bits in out[::7]]


def halfway(rng):
    """Decimals that lie exactly half-way between two f32, and one digit to either side of that."""
    out = []
    while len(out) < 300:
        odd, power = 2 * rng.randrange(1 << 23, 1 << 24) + 1, rng.randrange(-14, 34)
        x = odd * Fraction(2) ** power
        places = max(0, -power)
        digits = x * 10 ** places
        if digits >= 10 ** 18:
            continue
        for step in (-1, 0, 1):
            text = f"{int(digits) + step:0{places + 1}d}"
            out.append(text if places == 0 else text[:-places] + "." + text[-places:])
    return out


def tokens(rng):
    out = ["", "+", "-", ".", "+.", "-.", "0", "-0", "+0", "-0.000", "0.1", "16777217", "5.", ".5", "-.5", "+5.", "..", "1..2", "1.2.3",
           "1e5", "1E5", "1e", "e1", "inf", "nan", "NaN", "infinity", "0x10", "--1", "+-1", "1-", "1+", "1 ", " 1", "1_000", "1,5", "/", ":", "1/", ":1",
           "123456789012345678", "1234567890123456789", "0.00000000000000001", "0.000000000000000001", "999999999999999999", "000000000000000001",
           "0000000000000000001", "12345678901234567.8", "123456789012345678.", "123456789012345678.9", ".123456789012345678", ".1234567890123456789",
           "+123456789012345678", "-1234567890123456789", "0.99999999", "5.99999999", "5.9999999", "-0.99999999", "16777216", "16777218", "16777219",
           "33554434", "33554433", "33554435", "0.5000000298023224", "0.50000002980232239", "0.00000011920929", "1\t2", "1\x00", "\x7f", "1\xa0"]
    for _ in range(500):
        count = rng.randrange(1, 20)
        point = rng.randrange(0, count + 3)
        digits = "".join(rng.choice("0123456789") for _ in range(count))
        out.append(rng.choice(["", "", "+", "-"]) + (digits[:point] + "." + digits[point:] if point <= count else digits))
    return out + halfway(rng)


def long_tokens(rng):
    """Ties and their neighbours in all of the range, both ends of it, digits that count and zeros that do not, and texts that are none."""
    out = ["", ".", "e", "e1", ".e1", "1e", "1e+", "1e-", "1e1.", "1e1e1", "1e 1", "1_0", "0x1", "inf", "nan", "1e--1", "--1e1", "1ee1", "1.e1", ".1E1", "+1e+1", "-1E-1",
           "0e0", "-0e9", "-0.0e-9", "0e99999999999999999999999", "1e99999999999999999999999", "-1e-99999999999999999999999", "1e000000000000000000000000000001",
           "1234567890123456789", "12345678901234567890", "12345678901234567891", "0012345678901234567890000", "1.2345678901234567890000e5", "1.23456789012345678901", "9999999999999999999",
           "340282346638528859811704183484516925440", "3.4028235677973366e38", "3.402823567797336616e38", "3.402823567797336617e38", "3.5e38", "1e38", "1e39", "-1e39",
           "7.006492321624085354e-46", "7.006492321624085355e-46", "7.0064923216240854e-46", "1.4e-45", "1.1754943508222875e-38", "1e-45", "1e-46", "-1e-46",
           "0.043478260869565216", "0.0043478260869565218", "1.3877787807814457e-17", "0.500000000000000000000000000000", "0" * 60 + "1" + "0" * 60, "0." + "0" * 60 + "1e60"]
    for _ in range(150):
        power = rng.randrange(-150, 104)
        odd = 2 * rng.randrange(1 << 24) + 1 if power == -150 else 2 * rng.randrange(1 << 23, 1 << 24) + 1
        x, count = odd * Fraction(2) ** power, rng.randrange(17, 20)
        down = next(k for k in range(-60, 80) if x * Fraction(10) ** k >= 10 ** (count - 1))
        for step in (-1, 0, 1):
            digits = str(int(x * Fraction(10) ** down) + step)
            moved = rng.choice([0, 0, rng.randrange(0, count)])
            number = digits[:count - moved] + "." + digits[count - moved:] if moved else digits
            out.append(rng.choice(["", "-", "+"]) + number + rng.choice("eE") + str(moved - down))
    return out


def main():
    rng = random.Random(20)
    jobs = []
    for bits in patterns(rng):
        jobs.append((f"r {bits:08x}", f"{root(bits):08x}"))
    for text in ["0.0005", "0.001", "0.007", "0.035", "1", "0.5", "0.3", "1000", "99999999999"]:
        jobs.append((f"k {token(text)}", f"{cutoff(int(token(text), 16)):08x}"))
    for bits in [0, MINUS, 1, MINUS | 1, 0x800000, 0x5F7FFFFE, 0x5F7FFFFF, 0x5F000000, 0x5EFFFFFF, 0x5F800000, 0x7F7FFFFF, 0xFF7FFFFF, INFINITY, MINUS | INFINITY, NAN, 0xBF800000]:
        jobs.append((f"k {bits:08x}", f"{cutoff(bits):08x}"))
    special = [0, MINUS, 1, MINUS | 1, 0x3F7FFFFF, 0x3F800000, 0x3F800001, 0xBF800000, 0xBF7FFFFF, 0xBF800001, 0x40BFFFFF, 0x40C00000, 0x40B9999A,
               0x5EFFFFFF, 0x5F000000, 0xDF000000, 0xDF000001, 0x7F7FFFFF, 0xFF7FFFFF, INFINITY, MINUS | INFINITY, NAN, 0x7F800001, 0xFFC00000]
    for bits in special:
        jobs.append((f"m {bits:08x}", f"{magnitude(bits):08x}"))
        jobs.append((f"c {bits:08x}", f"{clamp(bits):08x}"))
        jobs.append((f"w {bits:08x}", whole(bits)))
        jobs.append((f"f {bits:08x}", "finite" if bits & 0x7FFFFFFF < INFINITY else "not finite"))
    for text in tokens(rng):
        jobs.append((f"t {text}", token(text)))
    for text in long_tokens(random.Random(42)):
        jobs.append((f"l {text}", long_token(text)))
    # Whole numbers: up to 2 ^ 23 and 2 ^ 24, at ties, where rounding adds a digit; and with the same digits twice, up to 2 ^ 64.
    counts = [0, 1, 2, 3, 36, 255, 0x7FFFFF, 0x800000, 0x800001, 0xFFFFFF, 0x1000000, 0x1000001, 0x1000002, 0x1000003, 0x1000005,
              0x2000002, 0x2000006, 0x1FFFFFE, 0x1FFFFFF, 0x7FFFFFFF, 0x80000000, 0x80000080, 0x80000180, 0xFFFFFF7F, 0xFFFFFF80, 0xFFFFFFFF]
    for count in counts + [rng.randrange(1 << rng.randrange(1, 33)) for _ in range(100)]:
        jobs.append((f"n {count:08x}", f"{nearest(Fraction(count)):08x}"))
        jobs.append((f"h {count:08x}", f"{nearest(Fraction(count * (2 ** 32 + 1))):08x}"))
    # Numbers as text: ties, where rounding adds a digit, the ends of the range and just past them, every power of two and ten in it.
    written = [0, 1, 0x3F804000, 0x3F80C000, 0x358637BC, 0x358637BD, 0x358637BE, 0x497423FF, 0x49742400, 0x49742401, 0x7F7FFFFF, INFINITY, NAN, 0x3F7FFFFF, 0x41200000, 0x411FFFFF]
    written += [e << 23 for e in range(106, 147)] + [nearest(Fraction(10) ** k) - d for k in range(-6, 7) for d in (0, 1, 2)]
    written += [rng.randrange(0x358637BD, 0x49742401) for _ in range(400)]
    written += [0x3F800000 + (2 * rng.randrange(1 << 9) + 1 << 14) for _ in range(100)]
    for bits in written:
        jobs.append((f"d {bits:08x}", numeral(bits)))
        jobs.append((f"d {bits | MINUS:08x}", numeral(bits | MINUS)))
    with open("crates/leaves/stdin", "w", encoding="latin-1", newline="") as file:
        file.write("".join(line + "\n" for line, _ in jobs))
    with open("crates/leaves/stdout", "w", encoding="latin-1", newline="") as file:
        file.write("".join(f"{line}\t{answer}\n" for line, answer in jobs))


if __name__ == "__main__":
    main()
