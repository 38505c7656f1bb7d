"""The reports of check and bound, found once more from an exported model and from the weights, for bench/fuzz.

It shares nothing with the program: a certificate is judged line by line over plain lists of whole boxes, in Python's numbers.
"""
import re

PRICE, WORD, ARCS, ITEMS, DIMS, VALUE = 1 << 62, (1 << 32) - 1, 1000064, 1000, 32, 2147483647


class Fault(Exception):
    """What the program is to say of a line of a certificate."""


# --- the graph, from the exported model --------------------------------------------------------------------------------------


class Arc:
    """An arc between two nodes of a type; the bin arc of a type goes from its last node to its first."""

    def __init__(self, column, entries, upper):
        self.is_bin, self.upper, self.item, self.tail, self.head = column.startswith("Z"), upper, None, None, None
        for row, entry in entries:
            if row.startswith("D"):
                self.item = int(row[1:])
            elif row.startswith("N"):
                node = int(row.split("_")[1])
                self.tail, self.head = (node, self.head) if entry < 0 else (self.tail, node)


class Graph:
    """The numbered arcs of a model; arc 0 is none."""

    def __init__(self, model):
        _, columns, _, bounds = model
        self.arcs = [None] + [Arc(column, entries, bounds[column][1]) for column, entries in columns.items()]
        self.starts = [number for number, arc in enumerate(self.arcs) if arc and arc.is_bin]

    def arcs_of(self, bin_type):
        ends = self.starts[bin_type + 1:bin_type + 2] or [len(self.arcs)]
        return range(self.starts[bin_type] + 1, ends[0])

    def gain(self, bin_type, items, arcs):
        """The price of the bin arc and the greatest price of a path; each arc goes from a node to one of a higher number."""
        best, last = {1: 0}, self.arcs[self.starts[bin_type]].tail or 1
        for number in self.arcs_of(bin_type):
            arc = self.arcs[number]
            price = best[arc.tail] + arcs.get(number, 0) + items.get(arc.item, 0)
            best[arc.head] = max(price, best.get(arc.head, price))
        return best[last] + arcs.get(self.starts[bin_type], 0)


# --- the text of a line ------------------------------------------------------------------------------------------------------


class Fields:
    """The fields of a line, taken from left to right; raises Fault where the line is none of a certificate."""

    def __init__(self, line):
        self.left = line.split(b" ")

    def word(self):
        if not self.left:
            raise Fault("bad text")
        return self.left.pop(0)

    def number(self, least, most, signed=False):
        field = self.word()
        if not re.fullmatch(rb"-?[1-9][0-9]{0,18}" if signed else rb"0|[1-9][0-9]{0,18}", field) or not least <= int(field) <= most:
            raise Fault("bad text")
        return int(field)

    def pairs(self, most, key, least, signed=False):
        found, before = {}, 0
        for _ in range(self.number(0, most)):
            before = self.number(before + 1, key)
            found[before] = self.number(least, PRICE, signed)
        return found

    def end(self):
        if self.left:
            raise Fault("bad text")


def tree_line(fields, version):
    """A line of the tree as a tuple that begins with its word."""
    word = fields.word()
    if word == b"end":
        line = (word,)
    elif word == b"split" or (word == b"need" and version >= 2):
        line = (word, fields.number(1, WORD), fields.number(0, WORD))
        if word == b"need":
            line += (fields.number(1, PRICE), fields.pairs(ARCS, WORD, 1))
    elif word == b"leaf":
        line = (word, fields.number(0, PRICE), fields.pairs(ITEMS, WORD, 1), fields.pairs(ARCS, WORD, -PRICE, signed=True))
    elif word == b"step" and version == 3:
        line = (word, fields.number(1, DIMS), fields.number(0, VALUE))
    else:
        raise Fault("bad text")
    fields.end()
    return line


# --- a certificate, line by line ---------------------------------------------------------------------------------------------


class Judge:
    """Judges the lines of a certificate; the open boxes stand in `boxes`, the first of them last."""

    def __init__(self, instance, graph):
        self.instance, self.graph, self.version, self.bound, self.goal = instance, graph, 0, None, None
        self.boxes, self.ended = [[(0, arc.upper) if arc else (0, 0) for arc in graph.arcs]], False

    def take(self, number, line):
        if self.ended:
            raise Fault("past the end")
        fields = Fields(line)
        if number == 1:
            self.take_head(fields)
        elif number == 2:
            self.take_claim(fields)
        else:
            self.take_tree(tree_line(fields, self.version))

    def take_head(self, fields):
        if fields.word() != b"vpack-certificate":
            raise Fault("bad text")
        self.version = fields.number(1, 3)
        fields.end()

    def take_claim(self, fields):
        kind = (fields.word(), fields.word())
        if kind == (b"claim", b"bound"):
            self.bound = self.goal = fields.number(0, PRICE)
            if self.version > 1:
                if fields.word() != b"goal":
                    raise Fault("bad text")
                self.goal = fields.number(self.bound, self.bound + 1)
        elif kind != (b"claim", b"empty"):
            raise Fault("bad text")
        fields.end()

    def take_tree(self, line):
        if line[0] == b"end":
            if self.boxes:
                raise Fault("places left")
            self.ended = True
            return
        if not self.boxes:
            raise Fault("past the end")
        {b"leaf": self.leaf, b"step": self.step, b"split": self.split, b"need": self.split}[line[0]](*line[1:])

    def know_arcs(self, arcs):
        if any(arc >= len(self.graph.arcs) for arc in arcs):
            raise Fault("no such arc")

    def split(self, arc, value, scale=None, parts=None):
        self.know_arcs([arc] + list(parts or ()))
        box = self.boxes.pop()
        low, high = box[arc]
        if not low <= value < high:
            raise Fault("not a split")
        if scale is not None and not self.needed(box, scale, parts):
            raise Fault("not needed")
        self.boxes.append(box[:arc] + [(value + 1, high)] + box[arc + 1:])
        self.boxes.append(box[:arc] + [(low, value)] + box[arc + 1:])

    def needed(self, box, scale, parts):
        """Whether the parts are a flow in the box that meets each demand and costs less than the goal, all times the scale."""
        rest, got, cost, bin_type = {}, {}, 0, -1
        for number, arc in enumerate(self.graph.arcs[1:], 1):
            bin_type += arc.is_bin
            part = parts.get(number, 0)
            if not scale * box[number][0] <= part <= scale * box[number][1]:
                return False
            rest[bin_type, arc.tail] = rest.get((bin_type, arc.tail), 0) - part
            rest[bin_type, arc.head] = rest.get((bin_type, arc.head), 0) + part
            got[arc.item] = got.get(arc.item, 0) + part
            cost += part * self.instance.types[bin_type][1] if arc.is_bin else 0
        met = all(got.get(item, 0) >= scale * demand for item, (demand, _) in enumerate(self.instance.items, 1))
        return met and not any(rest.values()) and (self.goal is None or cost <= scale * (self.goal - 1))

    def step(self, dim, step):
        value = step_value(self.instance, dim, step)
        if value is None:
            raise Fault("not a step")
        if self.bound is None or self.bound > value:
            raise Fault("does not close")
        self.boxes.pop()

    def leaf(self, scale, items, arcs):
        if any(item > len(self.instance.items) for item in items):
            raise Fault("no such item")
        self.know_arcs(arcs)
        for bin_type, (_, cost, _) in enumerate(self.instance.types):
            if self.graph.gain(bin_type, items, arcs) > scale * cost:
                raise Fault("type %d gains too much" % (bin_type + 1))
        box = self.boxes.pop()
        value = sum(self.instance.items[item - 1][0] * price for item, price in items.items())
        value += sum(price * box[arc][0 if price > 0 else 1] for arc, price in arcs.items())
        if not (value > 0 if scale == 0 else self.bound is not None and value > scale * (self.bound - 1)):
            raise Fault("does not close")


def verdict(instance, graph, text):
    """What the program is to print of a certificate, and whether it accepts it."""
    judge, lines, number = Judge(instance, graph), text.split(b"\n"), 0
    rest = lines.pop()
    try:
        for number, line in enumerate(lines, 1):
            judge.take(number, line)
        number = len(lines) + 1
        if rest:
            raise Fault("past the end" if judge.ended else "bad text")
        if not judge.ended:
            raise Fault("places left")
    except Fault as fault:
        return False, "line %d: %s" % (number, fault)
    return True, "accepted empty" if judge.bound is None else "accepted bound %d" % judge.bound


# --- bounds from the weights alone -------------------------------------------------------------------------------------------


def material(instance):
    """The material bound, and the leaf that shows it."""
    best, leaf = 0, "leaf 1 0 0"
    for dim in range(instance.dims):
        least = [min(form[dim] for form in forms) for _, forms in instance.items]
        rooms = [(capacity[dim], cost) for capacity, cost, _ in instance.types if capacity[dim]]
        if not rooms or any(cost == 0 for _, cost in rooms):
            continue
        room, cost = rooms[0]
        for other in rooms[1:]:
            room, cost = other if other[0] * cost > room * other[1] else (room, cost)
        value = -(-sum(demand * weight for (demand, _), weight in zip(instance.items, least)) * cost // room)
        if value > best:
            prices = [(item, weight * cost) for item, weight in enumerate(least, 1) if weight]
            best, leaf = value, "leaf %d %d%s 0" % (room, len(prices), "".join(" %d %d" % price for price in prices))
    return best, leaf


def step_value(instance, dim, step):
    """The value of a step in a dimension, numbered from 1; None where it is no step."""
    if len(instance.types) != 1 or dim > instance.dims or 2 * step > instance.types[0][0][dim - 1]:
        return None
    capacity, cost = instance.types[0][0][dim - 1], instance.types[0][1]
    if capacity == 0:
        return 0
    seen = lambda weight: capacity if weight > capacity - step else weight if weight >= step else 0
    return cost * -(-sum(demand * min(seen(form[dim - 1]) for form in forms) for demand, forms in instance.items) // capacity)


def greatest_step(instance):
    """The greatest value with its dimension and step, the first of these: of every step where they are few."""
    best = (-1, 0, 0)
    for dim in range(1, instance.dims + 1 if len(instance.types) == 1 else 1):
        half = instance.types[0][0][dim - 1] // 2
        weights = {instance.types[0][0][dim - 1] - form[dim - 1] + 1 for _, forms in instance.items for form in forms}
        steps = range(half + 1) if half < 300 else sorted({0} | {step for step in weights if 0 <= step <= half})
        for step in steps:
            value = step_value(instance, dim, step)
            best = (value, dim, step) if value > best[0] else best
    return best


def bound_of(instance):
    """The line that bound is to print, and the text of its certificate."""
    (least, line), (value, dim, step) = material(instance), greatest_step(instance)
    if value >= least:
        bound, kind, line = value, "step %d %d" % (dim, step), "step %d %d" % (dim, step)
    else:
        bound, kind = min(least, PRICE), "material"
    return "bound %d %s" % (bound, kind), "vpack-certificate 3\nclaim bound %d goal %d\n%s\nend\n" % (bound, bound, line)
