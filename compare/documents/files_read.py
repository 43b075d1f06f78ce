"""GIMP files, read by document 01's rules and by those for what GIMP saves."""
import math
import re
from fractions import Fraction

from document import Refusal, float_of, number
from leaves import nearest

MARK, SPACE = b"\xef\xbb\xbf", bytes([9, 10, 11, 12, 13, 32])
MOST_BYTES, MOST_SAVED, MOST_SEGMENTS = 65536, 131072, 256
FOREGROUND, BACKGROUND = (0.25, 0.25, 0.25, 1.0), (0.75, 0.75, 0.75, 1.0)


def lines_of(text, saved=False):
    """Leading marks go; marks alone leave an empty line, and no text at all has no line."""
    rest = text
    while rest.startswith(MARK):
        rest = rest[len(MARK):]
    if len(text) > (MOST_SAVED if saved else MOST_BYTES) or not saved and not rest.isascii():
        raise Refusal(10, 0)
    if not text:
        return []
    parts = rest.split(b"\n")
    ended = [part[:-1] if part.endswith(b"\r") else part for part in parts[:-1]]
    return ended if len(parts) > 1 and not parts[-1] else ended + [parts[-1]]


def is_utf8(line):
    try:
        line.decode("utf-8", "strict")
        return True
    except UnicodeDecodeError:
        return False


def long_number(text):
    """A long token's number, or None where it is none or infinite."""
    body = re.fullmatch(r"([+-]?)(\d*)(?:\.(\d*))?(?:[eE]([+-]?\d+))?", text, re.ASCII)
    if not body:
        return None
    before, after, power = body[2], body[3] or "", int(body[4] or 0)
    digits = before + after
    if not digits or len(digits.strip("0")) > 19:
        return None
    # Beyond these powers it is zero or infinite, whatever the digits.
    power = max(-len(digits) - 100, min(power - len(after), 100))
    size = float_of(nearest(Fraction(int(digits)) * Fraction(10) ** power))
    return None if math.isinf(size) else -size if body[1] == "-" else size


def count_of(line):
    digits = line[1:] if line.startswith(b"+") else line
    if not digits or any(byte not in b"0123456789" for byte in digits) or int(digits) >= 1 << 64:
        raise Refusal(11, 3)
    return int(digits)


def colour_of(code, own, foreground, background):
    base = (own, foreground, foreground, background, background)[code]
    return base[:3] + (0.0,) if code in (2, 4) else base


def segment_of(line, at, foreground, background, saved=False):
    """Three positions, eight channels and two codes."""
    tokens = line.translate(bytes.maketrans(SPACE, b" " * len(SPACE))).split(b" ")
    numbers = [(long_number if saved else number)(token.decode("ascii")) for token in tokens if token]
    if len(numbers) not in (13, 15) or None in numbers:
        raise Refusal(12, at)
    # A code is cut from the rounded number.
    codes = [math.trunc(x) for x in (numbers[11:] + [0.0, 0.0])[:4]]
    if any(not 0 <= code <= most for code, most in zip(codes, (5, 2, 4, 4))):
        raise Refusal(12, at)
    outside = codes[0] in (1, 2) and not numbers[0] <= numbers[1] <= numbers[2]
    if codes[0] == 1 and not saved or outside:
        raise Refusal(16, at)
    left, right = (colour_of(code, tuple(own), foreground, background) for code, own in ((codes[2], numbers[3:7]), (codes[3], numbers[7:11])))
    return numbers[:3], left + right, codes[:2]


def read(text, room, foreground=FOREGROUND, background=BACKGROUND, saved=False):
    """The segments and the name."""
    if not all(math.isfinite(x) for x in foreground + background):
        raise Refusal(2, 0)
    lines = lines_of(text, saved)
    if saved and not all((is_utf8 if at == 2 else bytes.isascii)(line) for at, line in enumerate(lines[:3], 1)):
        raise Refusal(10, 0)
    if lines and lines[0] != b"GIMP Gradient":
        raise Refusal(11, 1)
    if len(lines) > 1 and not lines[1].startswith(b"Name:"):
        raise Refusal(11, 2)
    count = count_of(lines[2]) if len(lines) > 2 else 0
    if count > min(MOST_SEGMENTS, room):
        raise Refusal(15, 3)
    if not all(map(bytes.isascii, lines[3:3 + count])):
        raise Refusal(10, 0)
    segments, end = [], 0.0
    for at, line in enumerate(lines[3:3 + count], 4):
        segments.append(segment_of(line, at, foreground, background, saved))
        left, middle, right = segments[-1][0]
        if not (left == end and left <= middle <= right):
            raise Refusal(18, at)
        end = right
    if len(segments) < count:
        raise Refusal(13, 3)
    if count == 0:
        raise Refusal(14, 4)
    if end != 1.0:
        raise Refusal(18, 3 + count)
    return segments, lines[1][len(b"Name:"):].strip(SPACE)


def name(text, saved=False):
    try:
        return read(text, MOST_SEGMENTS, saved=saved)[1].decode("utf-8")
    except Refusal:
        return ""
