"""Random texts for the tool, one for each seed."""
import random

PLAIN = ["0", "1", ".5", "0.25", "0.1", "1.", "+0.75", "-0", "-0.5", "2", "0.003", "0.9999999"]
ODD = ["", ".", "+", "-", "1e5", "nan", "inf", "--1", "1.2.3", " 1", "1 ", "0x1", "1,5", "123456789012345678", "1234567890123456789",
       "0.00000000000000001", "0.000000000000000001", "-999999999999999999", "000000000000000000", "\xe9", "1\r", "16777217"]
WORDS = [b"kind", b"threshold", b"stop", b"edit", b"Kind", b"stops", b"", b"\xef\xbb\xbfkind"]


def a_number(rng):
    pick = rng.random()
    if pick < 0.6:
        return rng.choice(PLAIN)
    if pick < 0.997:
        return f"{rng.uniform(0, 1):.{rng.randrange(1, 9)}f}"
    return rng.choice(ODD)


def positions(rng, n):
    style = rng.random()
    if style < 0.6:
        chosen = sorted(rng.randrange(0, 101) for _ in range(n))
    elif style < 0.9:
        first = rng.randrange(-50, 50)
        chosen = [first + i * rng.choice([0, 7, 7, 20]) for i in range(n)]
    else:
        chosen = [rng.randrange(0, 101) for _ in range(n)]
    scale = rng.choice([100, 100, 100, 1, 1000000000])
    return [f"{x / scale:.9f}" if scale > 100 else str(x / scale) for x in chosen]


def sound(rng):
    """The lines of a text that is read."""
    lines = [["kind", rng.choice(["linear", "linear", "smoothstep"])]]
    if rng.random() < 0.5:
        lines.append(["threshold", rng.choice(["0.035", "0.02", "0.007", "0", "-1", "99", "0.0350000001", a_number(rng)])])
    n = rng.choice([0, 1, 2, 2, 2, 2, 3, 3, 4, 5])
    flat = rng.random() < 0.4
    colour = [a_number(rng) for _ in range(4)]
    for position in positions(rng, n):
        if not flat or rng.random() < 0.2:
            colour = [a_number(rng) for _ in range(4)]
        lines.append(["stop", position, *colour])
    if rng.random() < 0.4:
        index = str(rng.randrange(0, n + 1)) if rng.random() < 0.9 else rng.choice(["", "-1", "+0", "0x0", "1" * 18, "1" * 19, "0" * 18, "0" * 19, "00", "1."])
        lines.append(["edit", index, *[a_number(rng) for _ in range(4)]])
    return [[field.encode("latin-1") for field in line] for line in lines]


def damage_lines(rng, lines):
    """One line lost, doubled, moved, or with a field too many, too few or changed."""
    i, j = rng.randrange(len(lines)), rng.randrange(len(lines))
    how = rng.randrange(7)
    if how == 0:
        del lines[i]
    elif how == 1:
        lines.insert(j, list(lines[i]))
    elif how == 2:
        lines[i], lines[j] = lines[j], lines[i]
    elif how == 3:
        lines[i].insert(rng.randrange(len(lines[i]) + 1), rng.choice([b"", b"0", b"stop"]))
    elif how == 4:
        del lines[i][rng.randrange(len(lines[i]))]
    elif how == 5:
        lines[i][rng.randrange(len(lines[i]))] = rng.choice(ODD).encode("latin-1")
    else:
        lines[i][0] = rng.choice(WORDS)


def damage_bytes(rng, data):
    """One byte lost, changed or put in."""
    i = rng.randrange(len(data) + 1)
    put = rng.choice([b"\t", b"\n", b"\r", b" ", b".", b"0", b"-", b"\x00", b"\xff", b"\r\n", b"e"])
    return data[:i] + (b"" if rng.random() < 0.3 else put) + data[i + rng.randrange(2):]


def at_the_most(rng):
    """Around the most bytes, with about as many stops as a ramp may have, or more."""
    end = b"\n" if rng.random() < 0.5 else b""
    lines = [b"kind\tlinear"] + [b"stop\t0\t0\t0\t0\t1"] * rng.choice([511, 512, 513, 600])
    data = b"\n".join(lines) + end
    return data + b"\n" * (rng.choice([16383, 16384, 16385]) - len(data)) if rng.random() < 0.5 else data


def in_turn(rng):
    """Black and white in turn: as many stops come out as there is room for, or more."""
    lines = ["kind\tsmoothstep", "threshold\t" + rng.choice(["0.001", "0.002", "0.007"])]
    for i in range(rng.choice([30, 60, 90, 100, 110])):
        lines.append(f"stop\t{i}" + f"\t{i % 2}" * 3 + "\t1")
    if rng.random() < 0.5:
        lines.append(f"edit\t{rng.randrange(30)}\t.5\t.5\t.5\t1")
    return "\n".join(lines).encode()


def many_stops(rng):
    lines = ["kind\t" + rng.choice(["linear", "smoothstep"])]
    n = rng.randrange(6, 41)
    for position in sorted(rng.randrange(0, 1000) for _ in range(n)):
        lines.append(f"stop\t{position / 1000}" + "".join(f"\t{rng.uniform(0, 1):.3f}" for _ in range(4)))
    if rng.random() < 0.5:
        lines.append(f"edit\t{rng.randrange(n)}" + "".join(f"\t{rng.uniform(0, 1):.3f}" for _ in range(4)))
    return "\n".join(lines).encode()


def text(seed):
    rng = random.Random(seed)
    pick = rng.random()
    if pick < 0.02:
        return at_the_most(rng) if pick < 0.001 else in_turn(rng) if pick < 0.0015 else many_stops(rng)
    lines = sound(rng)
    pick = rng.random()
    if pick < 0.3:
        for _ in range(rng.choice([1, 1, 2])):
            if lines:
                damage_lines(rng, lines)
    end = rng.choice([b"\n", b"\n", b"\n", b"\r\n"])
    data = end.join(b"\t".join(line) for line in lines) + rng.choice([end] * 8 + [b"", b"", b"\r", end + end])
    return damage_bytes(rng, data) if 0.3 <= pick < 0.5 else data
