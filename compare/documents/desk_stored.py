"""Texts with one thing wrong, for the gate: what the program `grammar` runs, and the answers."""
from pathlib import Path

from desk_read import answer

STORED = Path(__file__).resolve().parents[2] / "crates/grammar"
WHOLE = ["kind linear", "threshold 0.02", "stop 0 0 0 0 1", "stop 0.5 1 0 0 1", "stop 1 1 1 1 1", "edit 1 0 0.5 0 1"]
PAIR = ["kind linear", "stop 0 0 0 0 1", "stop 1 1 1 1 1"]
ENDS = {"LF": "|", "CR LF": "^|"}


def coded(lines, end="|", last=None):
    """Lines whose fields stand parted by blanks, as a row of the program's input writes them."""
    return end.join(line.replace(" ", "_") for line in lines) + (end if last is None else last)


def line_cases():
    yield "black to white", coded(PAIR)
    yield "whole", coded(WHOLE)
    for i, line in enumerate(WHOLE):
        yield f"without line {i + 1}", coded(WHOLE[:i] + WHOLE[i + 1:])
        yield f"line {i + 1} twice", coded(WHOLE[:i] + [line] + WHOLE[i:])
        for j in range(i + 1, len(WHOLE)):
            other = list(WHOLE)
            other[i], other[j] = other[j], other[i]
            yield f"lines {i + 1} and {j + 1} changed about", coded(other)
        yield f"only lines 1 to {i + 1}", coded(WHOLE[:i + 1])


def field_cases():
    for i, line in enumerate(WHOLE):
        fields = line.split(" ")
        for j in range(len(fields)):
            for name, put in (("lost", []), ("empty", [""]), ("x", ["x"]), ("twice", [fields[j]] * 2), ("and a blank", [fields[j] + "="])):
                wrong = " ".join(fields[:j] + put + fields[j + 1:])
                yield f"line {i + 1} field {j + 1}: {name}", coded(WHOLE[:i] + [wrong] + WHOLE[i + 1:]).replace("=", " ")


def text_cases():
    yield "no text", ""
    yield "LF alone", "|"
    yield "CR alone", "^"
    yield "a byte-order mark", "@" + coded(PAIR)
    for name, end in ENDS.items():
        yield f"{name} after each line", coded(PAIR, end)
        yield f"{name}, none after the last line", coded(PAIR, end, "")
        yield f"{name}, a blank last line", coded(PAIR, end, end + end)
        yield f"{name}, a blank line before the first", end + coded(PAIR, end)
    yield "a last CR without LF", coded(PAIR, "|", "^")
    yield "CR CR LF", coded(PAIR, "^^|")
    yield "CR as a line end", coded(PAIR, "^")
    yield "blanks for tabs", coded(PAIR).replace("_", " ")
    yield "a tab before the first word", "_" + coded(PAIR)
    yield "a tab after the last field", coded(PAIR, "|", "_|")
    yield "a byte above 127", coded(PAIR).replace("stop_1", "stop!_1")


def value_cases():
    for kind in ("smoothstep", "Linear", "basis", "sharp", "catmull-rom", "gimp", "linearx", ""):
        yield f"kind {kind}", coded([f"kind {kind}"] + PAIR[1:])
    for asked in ("0.001", "0.0009", "0.035", "0.036", "0", "-0", "-1", "999999999999999999", "nan", "inf", "1e-3", ".007", "7.", "+.02"):
        yield f"threshold {asked}", coded([PAIR[0], f"threshold {asked}"] + PAIR[1:])
    for x in ("123456789012345678", "1234567890123456789", "0.00000000000000001", "0.000000000000000001", "-1", "2", "1.", "+1", "1.0.0", "1e0", ".", "-"):
        yield f"position {x}", coded([*PAIR[:2], f"stop {x} 1 1 1 1"])
        yield f"channel {x}", coded([*PAIR[:2], f"stop 1 {x} 1 1 1"])
    for index in ("0", "1", "2", "00", "000000000000000001", "0000000000000000001", "999999999999999999", "1000000000000000000", "-0", "+0", "0.", "0x0", ""):
        yield f"edit {index}", coded([*PAIR, f"edit {index} 0.25 0.5 0.75 1"])
    yield "edit to the colour it has", coded([*PAIR, "edit 1 1 1 1 1"])
    yield "edit of a smoothstep", coded(["kind smoothstep", *PAIR[1:], "edit 0 1 0 0 1"])


def ramp_cases():
    yield "kind alone", coded(PAIR[:1])
    yield "kind and threshold", coded([PAIR[0], "threshold 0.01"])
    yield "kind and edit", coded([PAIR[0], "edit 0 0 0 0 1"])
    yield "one stop", coded(PAIR[:2])
    yield "falling", coded([PAIR[0], PAIR[2], PAIR[1]])
    yield "falling, and an edit of no stop", coded([PAIR[0], PAIR[2], PAIR[1], "edit 9 0 0 0 1"])
    yield "falling, and unread after it", coded([PAIR[0], PAIR[2], PAIR[1], "stop"])
    yield "two stops at 0.5", coded([PAIR[0], "stop .5 .25 0 0 1", "stop .5 .75 0 0 1"])
    yield "two stops at -0", coded([PAIR[0], "stop -0 .25 0 0 1", "stop -0 .75 0 0 1"])
    yield "channels that are not clamped", coded([*PAIR[:2], "stop 1 2 -1 .5 1"])
    turns = [f"stop {i} {i % 2} {i % 2} {i % 2} 1" for i in range(100)]
    yield "smoothstep, 100 stops in turn, threshold 0.001", coded(["kind smoothstep", "threshold 0.001", *turns])
    yield "smoothstep, 30 stops in turn, threshold 0.001", coded(["kind smoothstep", "threshold 0.001", *turns[:30]])


def cases():
    for group in (line_cases, field_cases, text_cases, value_cases, ramp_cases):
        yield from group()


def plain(row):
    out = row.encode("latin-1")
    for mark, stands in ((b"|", b"\n"), (b"^", b"\r"), (b"_", b"\t"), (b"!", b"\xc8"), (b"@", b"\xef\xbb\xbf")):
        out = out.replace(mark, stands)
    return out


def shown(label, printed):
    if len(printed) > 512:
        total = totals = 0
        for byte in printed:
            total += byte
            totals += total
        printed = f"{len(printed)} bytes {total} {totals}\n".encode()
    return b"# " + label.encode() + b"\n" + printed


def long_cases():
    """The texts that the program builds by itself."""
    stop = b"stop\t0\t0\t0\t0\t1\n"
    yield "512 stops", b"kind\tlinear\n" + stop * 512
    yield "512 stops and an edit of the last", b"kind\tlinear\n" + stop * 512 + b"edit\t511\t1\t1\t1\t1\n"
    yield "513 stops", b"kind\tlinear\n" + stop * 513
    yield "513 stops, unread after them", b"kind\tlinear\n" + stop * 513 + b"stop\n"
    for label, zeros, tail, length in (("16,384 bytes", 6, b"", 16384), ("16,385 bytes", 7, b"", 16385), ("16,384 bytes, the last an LF too many", 5, b"\n", 16384)):
        data = b"kind\tlinear\nthreshold\t0.007" + b"0" * zeros + b"\n" + stop * 1090 + tail
        assert len(data) == length
        yield label, data


def rooms():
    """An output too short for the answer is zero throughout; past what is printed it stays."""
    printed = answer(plain(coded(PAIR)))
    for room in (0, len(printed) - 1, len(printed), len(printed) + 2):
        held = bytes(room) if room < len(printed) else printed + b"\x07" * (room - len(printed))
        word = "short" if room < len(printed) else "printed"
        yield f"# room {room}\n{word} {len(printed)}, zeros {held.count(0)}, sevens {held.count(7)}\n".encode()


def store():
    rows = list(cases())
    (STORED / "stdin").write_bytes("".join(f"{label}\t{row}\n" for label, row in rows).encode("latin-1"))
    answers = [shown(label, answer(plain(row))) for label, row in rows]
    answers += [shown(label, answer(data)) for label, data in long_cases()]
    (STORED / "stdout").write_bytes(b"".join(answers) + b"".join(rooms()))
    print(f"{len(answers)} texts")
