"""Small lists, solutions and certificates, what is changed in them, and generated lists, for bench/fuzz."""
import os
import re

from layouts import Instance, Refused

HOME = os.path.dirname(os.path.dirname(os.path.abspath(__file__)))

TEXTS = [
    (b"1 10 1 6 3\n", False), (b"1 10 0\n", False), (b"1 10 1 11 1\n", False), (b"1 9 3 4 1 3 3 2 1\n", False), (b"1 10 2 4 2 3 4\n", False),
    (b"2 5 5 2 3 2 2 2 3 2\n", False), (b"1 10 1 2 4 caps 1 1 2\n", False), (b"1 1 2 3 -1 1 1 3 1\n", True),
    (b"2 1 3 3 1 -1 1 2 2 3 0 0 3\n", True), (b"1 2 10 1 1 10 5 -1 1 1 2 6\n", True), (b"1 1 2147483647 -1 1 1 1000000 2147483647\n", True),
    (b"3 9 9 9 2 1 2 3 4 3 2 1 2 caps 1 2 1\n", False),
]
SPECIAL = [b"0", b"1", b"2", b"-1", b"10", b"31", b"32", b"33", b"64", b"65", b"1000", b"1001", b"8000", b"1000000", b"1000001", b"2147483647",
           b"2147483648", b"4294967296", b"99999999999999999999999999", b"007", b"+1", b"1e1", b"1.5", b"caps", b"Caps", b"-", b"\xff", b"\x00"]


def bases():
    folder = os.path.join(HOME, "examples")
    found = list(TEXTS)
    for name in sorted(os.listdir(folder)):
        if name.endswith((".vbp", ".mvp")):
            with open(os.path.join(folder, name), "rb") as file:
                found.append((file.read(), name.endswith(".mvp")))
    return found


def mutated(chance, text, others):
    """The text with a few tokens or bytes changed, moved, left out or put in."""
    tokens = text.split()
    for _ in range(chance.choice([0, 1, 1, 1, 2, 3, 6])):
        place = chance.randrange(len(tokens) + 1)
        way = chance.randrange(9)
        if way <= 2 and tokens:
            tokens[min(place, len(tokens) - 1)] = chance.choice(SPECIAL) if way else b"%d" % chance.choice([chance.randrange(12), chance.randrange(10000)])
        elif way == 3:
            tokens.insert(place, chance.choice(SPECIAL))
        elif way == 4 and tokens:
            del tokens[min(place, len(tokens) - 1)]
        elif way == 5:
            tokens = tokens[:place]
        elif way == 6:
            tokens = tokens[:place] + chance.choice(others)[0].split()[place:]
        elif way == 7 and tokens:
            tokens[min(place, len(tokens) - 1)] = b"%d" % max(0, int(tokens[min(place, len(tokens) - 1)]) + chance.choice([-1, 1])) if tokens[min(place, len(tokens) - 1)].isdigit() else b"5"
        elif way == 8:
            tokens += [b"caps", b"1", b"1", b"%d" % chance.randrange(4)]
    joined = chance.choice([b" ", b"\n", b"\r\n", b"\t", b"  "]).join(tokens) + chance.choice([b"", b"\n", b" \n\n"])
    if joined and chance.randrange(8) == 0:
        place = chance.randrange(len(joined))
        joined = joined[:place] + bytes([chance.randrange(256)]) + joined[place + 1:]
    return joined


SOLUTIONS = [b"Z1 2\nF2 2.0\nF5 2\n", b"Z1 3\nF2 2\nF3 1\nF5 2\n", b"# none\n\nZ1\t2 \r\nF2 2\nF5 2", b"Z1 4\nF2 4\nF5 4", b"Z1 2"]
PIECES = [b"Z1", b"F1", b"F2", b"F3", b"F4", b"F5", b"F6", b"Z01", b"0", b"1", b"2", b"2.0", b"2.", b"3.000", b"1.5", b"-0", b"-1", b"+1", b"4611686018427387904",
          b"4611686018427387905", b"#", b"\r", b"\n", b"\r\n", b"\n\n", b" ", b"\t"]

BOUND_SIX = b"1 1 2 3 -1 1 1 3 1\n"
CERTIFICATES = [
    (BOUND_SIX, b"vpack-certificate 1\nclaim bound 6\nsplit 1 1\nleaf 0 1 1 1 1 1 -2\nleaf 1 0 1 1 3\nend\n"),
    (BOUND_SIX, b"vpack-certificate 2\nclaim bound 6 goal 6\nneed 1 1 2 3 1 3 2 3 5 3\nleaf 0 1 1 1 1 1 -2\nleaf 1 0 1 1 3\nend\n"),
    (BOUND_SIX, b"vpack-certificate 3\nclaim bound 5 goal 6\nneed 1 1 2 3 1 3 2 3 5 3\nleaf 0 1 1 1 1 1 -2\nstep 1 0\nend\n"),
    (b"1 1 10 1 -1 1 1 3 6\n", b"vpack-certificate 3\nclaim bound 3 goal 3\nstep 1 5\nend\n"),
    (b"1 1 10 1 -1 1 1 3 6\n", b"vpack-certificate 1\nclaim bound 3\nleaf 1 1 1 1 0\nend\n"),
    (b"1 1 10 1 -1 0\n", b"vpack-certificate 1\nclaim bound 0\nleaf 1 0 0\nend\n"),
    (b"1 1 10 1 -1 1 1 1 11\n", b"vpack-certificate 2\nclaim empty\nleaf 0 1 1 1 0\nend\n"),
]
NUMBERS = [b"0", b"1", b"2", b"3", b"-1", b"-0", b"-2", b"+1", b"01", b"1.0", b"", b"32", b"33", b"1001", b"2147483648", b"4294967295", b"4294967296",
           b"4611686018427387904", b"4611686018427387905", b"-4611686018427387904", b"99999999999999999999999"]
LINES = [b"end", b"leaf 1 0 0", b"split 1 0", b"split 2 1", b"step 1 0", b"need 1 1 2 3 1 3 2 3 5 3", b"claim empty", b"claim bound 0", b"leaf 1 1 1 1 0",
         b"vpack-certificate 2", b"leaf 0 1 1 1 0", b""]


def change_line(chance, line):
    """The line with one of its fields changed, left out or doubled."""
    fields = line.split(b" ")
    place, way = chance.randrange(len(fields)), chance.randrange(12)
    numbers = [number for number, field in enumerate(fields) if re.fullmatch(rb"-?[0-9]+", field)]
    if way <= 8 and numbers:
        place = chance.choice(numbers)
        fields[place] = b"%d" % (int(fields[place]) + chance.choice([-1, 1, 1, 7]))
    elif way <= 9:
        fields[place] = chance.choice(NUMBERS)
    elif way == 10:
        del fields[place]
    else:
        fields.insert(place, chance.choice([fields[place], chance.choice(NUMBERS)]))
    return b" ".join(fields)


def changed(chance, certificate):
    """The certificate with a leaf split, and with a few lines or bytes changed."""
    lines = certificate.split(b"\n")
    for _ in range(chance.choice([0, 0, 1, 1, 2, 3])):
        place, way = chance.randrange(len(lines)), chance.randrange(14)
        if way <= 2 and lines[place].startswith((b"leaf", b"step")):
            lines[place:place + 1] = [b"split %d %d" % (chance.randrange(1, 7), chance.randrange(4)), lines[place], lines[place]]
        elif way == 3:
            lines.insert(place, chance.choice(LINES))
        elif way == 4:
            del lines[place:place + 1]
        elif way == 5:
            lines[0] = b"vpack-certificate %d" % chance.randrange(5)
        elif lines[place:]:
            lines[place] = change_line(chance, lines[place])
    joined = chance.choice([b"\n"] * 30 + [b"\r\n", b" \n"]).join(lines or [b""])
    if joined and chance.randrange(12) == 0:
        place = chance.randrange(len(joined))
        joined = joined[:place] + chance.choice([b"", bytes([chance.randrange(256)])]) + joined[place + 1:]
    return joined


def as_mvp(text, mvp):
    """The text in the layout with types; a text that is none stays as it is."""
    tokens = text.split()
    try:
        instance = Instance(text, mvp)
    except Refused:
        return text
    if mvp:
        return text
    caps = tokens[tokens.index(b"caps"):] if b"caps" in tokens else []
    head = [instance.dims, 1] + instance.types[0][0] + [1, -1, len(instance.items)]
    items = [number for demand, forms in instance.items for number in [1, demand] + forms[0]]
    return b" ".join([b"%d" % number for number in head + items] + caps) + b"\n"


def generated(seed, size):
    """The text of a generated list, its units, and what they weigh."""
    state, items = seed, []
    for _ in range(size):
        state = (6364136223846793005 * state + 1442695040888963407) % (1 << 64)
        items.append((500 + (state >> 33) % 4501, 1 + (state >> 33) // 4501 % 40))
    text = "1 10000 %d " % size + " ".join("%d %d" % item for item in items) + "\n"
    return text.encode(), sum(demand for _, demand in items), sum(weight * demand for weight, demand in items)
