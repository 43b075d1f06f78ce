"""Texts that the program `files` makes itself: of many segments, and as GIMP saves them."""
from files_read import MOST_SAVED

SEGMENT, POINT = b"0 .5 1 0 0 0 1 1 1 1 1 0 0\n", b"1 1 1 0 0 0 1 1 1 1 1 0 0\n"
NAMES = (
    ("Russian", b"\xd0\x9c\xd0\xbe\xd1\x80\xd0\xb5"),
    ("Japanese", b"\xe6\xb5\xb7 #1"),
    ("four bytes", b"\xf0\x9f\x8c\x8a"),
    ("the greatest of each length", b"\x7f\xdf\xbf\xef\xbf\xbf\xf4\x8f\xbf\xbf"),
    ("the least of each length", b"\xc2\x80\xe0\xa0\x80\xf0\x90\x80\x80"),
    ("beside the surrogates", b"\xed\x9f\xbf\xee\x80\x80"),
    ("overlong, two bytes", b"\xc1\xbf"),
    ("overlong, three", b"\xe0\x9f\xbf"),
    ("overlong, four", b"\xf0\x8f\xbf\xbf"),
    ("a surrogate", b"\xed\xa0\x80"),
    ("above U+10FFFF", b"\xf4\x90\x80\x80"),
    ("byte F5", b"\xf5\x80\x80\x80"),
    ("a byte that continues nothing", b"a\x80"),
    ("cut short", b"\xe6\xb5"),
    ("cut by a letter", b"\xe6\xb5a"),
    ("one too many", b"\xc3\xa9\x80"),
    ("spaces of Unicode stay", b"\xc2\xa0a\xe3\x80\x80"),
)
REDS = (
    ("an exponent", b"1e0"),
    ("17 significant digits of 19", b"9.9999999999999995e-08"),
    ("20 digits, 17 of them significant", b"0.0039215686274509803"),
    ("19 significant digits", b"0.1234567890123456789"),
    ("20 significant digits", b"0.12345678901234567891"),
    ("zeros that do not count", b"00000000000000000000000.100000000000000000000"),
    ("E and a plus", b"1E+0"),
    ("no digit after e", b"1e"),
    ("a point after e", b"1e1.5"),
    ("the greatest f32", b"3.4028234663852886e38"),
    ("infinite", b"4e38"),
    ("infinite, and a great exponent", b"-1e99999999999999999999"),
    ("zero by its exponent", b"1e-99999999999999999999"),
    ("inf", b"inf"),
    ("a comma", b"0,5"),
)
TEXTS = (
    ("a code by its exponent", b"GIMP Gradient\nName: n\n1\n0 .5 1 0 0 0 1 1 1 1 1 20e-1 0\n"),
    ("a code cut from the number read", b"GIMP Gradient\nName: n\n1\n0 .5 1 0 0 0 1 1 1 1 1 5.99999999 0\n"),
    ("curved", b"GIMP Gradient\nName: n\n1\n0 .5 1 0 0 0 1 1 1 1 1 1 0\n"),
    ("curved, its middle outside", b"GIMP Gradient\nName: n\n1\n0 2 1 0 0 0 1 1 1 1 1 1 0\n"),
    ("in line 1", b"GIMP Gradient\xc3\xa9\nName: n\n1\n0 .5 1 0 0 0 1 1 1 1 1 0 0\n"),
    ("in line 3", b"GIMP Gradient\nName: n\n1\xc3\xa9\n0 .5 1 0 0 0 1 1 1 1 1 0 0\n"),
    ("in a segment", b"GIMP Gradient\nName: n\n1\n0 .5 1 0 0 0 1 1 1 1 1 0 \xc3\xa9\n"),
    ("after the segments", b"GIMP Gradient\nName: n\n1\n0 .5 1 0 0 0 1 1 1 1 1 0 0\n\xc3\n"),
    ("10 of line 2 before 11 of line 1", b"x\nName: \xff\n1\n"),
    ("11 of line 1 before what follows", b"x\nName: n\n1\n\xff\n"),
    ("15 before 10 of a segment", b"GIMP Gradient\nName: n\n3\n\xff\n"),
    ("14 before 10 of a line", b"GIMP Gradient\nName: n\n0\n\xff\n"),
    ("10 of line 5 before 12 of line 4", b"GIMP Gradient\nName: n\n2\nx\n\xff\n"),
    ("10 before 13", b"GIMP Gradient\nName: n\n2\n\xff"),
    ("UTF-8 in line 2 that has no Name", b"GIMP Gradient\nn\xc3\xa9\n1\n"),
)


def many(count, n):
    return b"GIMP Gradient\nName: many\n" + count + b"\n" + SEGMENT + POINT * (n - 1)


def saved_texts():
    for label, given in NAMES:
        yield label, b"GIMP Gradient\nName: " + given + b"\n1\n" + SEGMENT
    for label, red in REDS:
        yield label, b"GIMP Gradient\nName: n\n1\n0 .5 1 " + red + b" 0 0 1 1 1 1 1 0 0\n"
    yield from TEXTS
    for length in (MOST_SAVED, MOST_SAVED + 1):
        yield f"{length:,} bytes", many(b"1", 1).ljust(length, b"\0")
