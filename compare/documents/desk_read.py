"""The tool's input, read as document 01 says, and what is then printed."""
from document import DEFAULT, Ramp, Refusal, bits_of, number, refresh, sample, thin, threshold_of

MOST_BYTES, MOST_STOPS, ROOM = 16384, 512, 1000


class Unread(Exception):
    """The number of the first line that fits nothing."""


def lines_of(data):
    *ended, last = data.split(b"\n")
    return [line[:-1] if line.endswith(b"\r") else line for line in ended] + ([last] if last else [])


def numbers(fields, count):
    found = [number(field.decode("latin-1")) for field in fields]
    return found if len(found) == count and None not in found else None


def read(data):
    """The kind, the threshold, the stops (five numbers each) and the edit (index and colour), or None for that."""
    if len(data) > MOST_BYTES:
        raise Unread(0)
    lines = [line.split(b"\t") for line in lines_of(data)]
    at = 0

    def next_word():
        return lines[at][0] if at < len(lines) else b""

    if next_word() != b"kind" or lines[0][1:] not in ([b"linear"], [b"smoothstep"]):
        raise Unread(1)
    kind, threshold, stops, edit = lines[0][1].decode(), DEFAULT, [], None
    at = 1
    if next_word() == b"threshold" and numbers(lines[at][1:], 1):
        threshold = numbers(lines[at][1:], 1)[0]
        at += 1
    while next_word() == b"stop" and numbers(lines[at][1:], 5):
        stops.append(numbers(lines[at][1:], 5))
        at += 1
    if next_word() == b"edit" and len(lines[at]) == 6:
        index, colour = lines[at][1], numbers(lines[at][2:], 4)
        if 1 <= len(index) <= 18 and all(48 <= b <= 57 for b in index) and colour:
            edit = int(index), tuple(colour)
            at += 1
    if at < len(lines):
        raise Unread(at + 1)
    return kind, threshold, stops, edit


def flattened(kind, asked, stops, edit):
    """The positions and colours of the list, and the evaluations of all calls made. The tool holds 512 stops."""
    if len(stops) > MOST_STOPS:
        raise Refusal(1)
    ramp = Ramp(kind, [s[0] for s in stops], [tuple(s[1:]) for s in stops])
    ramp.check()
    threshold = threshold_of(asked)
    rows, evaluations = sample(ramp, threshold)
    if edit:
        index, colour = edit
        if index >= len(stops):
            raise Refusal(6)
        rows, spent = refresh(ramp, index, colour, threshold, rows)
        ramp = ramp.with_colour(index, colour)
        evaluations += spent
    positions, colours, spent = thin(ramp, threshold, rows, ROOM)
    return positions, colours, evaluations + spent


def answer(data):
    try:
        positions, colours, evaluations = flattened(*read(data))
    except Unread as line:
        return f"unread\t{line}\n".encode()
    except Refusal as refusal:
        return f"refused\t{refusal}\n".encode()
    out = [f"stops\t{len(positions)}\tevaluations\t{evaluations}\n"]
    for t, colour in zip(positions, colours):
        out.append("stop" + "".join(f"\t{bits_of(x):08x}" for x in (t, *colour)) + "\n")
    return "".join(out).encode()
