"""The two layouts of an instance, read once more by a reader that shares nothing with the program, for bench/fuzz."""
import re

VALUE, DEMAND, ITEMS, TYPES, FORMS, ALL_FORMS, DIMS, CAP = 2147483647, 1000000, 1000, 64, 64, 8000, 32, 1000000


class Broken(Exception):
    """An answer that is not as it has to be."""


def expect(holds, text):
    if not holds:
        raise Broken(text)


class Refused(Exception):
    """The first faulty token, as the program names it."""


class Instance:
    """An instance read from a text, token by token; raises Refused with the line that the program is to print."""

    def __init__(self, text, mvp):
        self.tokens, self.place = re.findall(rb"[^ \t\r\n]+", text), 0
        self.dims = self.number(1, DIMS)
        self.types = self.read_types() if mvp else [(self.vector(), 1, None)]
        self.items, self.forms = [], 0
        for _ in range(self.number(0, ITEMS)):
            self.items.append(self.read_item(len(self.items) + 1, mvp))
        self.caps = self.read_caps()
        if self.place < len(self.tokens):
            self.place += 1
            self.refuse("one token too many")
        self.units = sum(demand for demand, _ in self.items)

    def refuse(self, cause):
        raise Refused("token %d: %s" % (self.place, cause))

    def number(self, least, most, none=False):
        self.place += 1
        if self.place > len(self.tokens):
            self.refuse("missing")
        token = self.tokens[self.place - 1]
        if none and token == b"-1":
            return None
        if not re.fullmatch(rb"[0-9]+", token):
            self.refuse("not a number")
        value = int(token.lstrip(b"0")[:30] or b"0")
        if not least <= value <= most:
            self.refuse("out of range")
        return value

    def vector(self):
        return [self.number(0, VALUE) for _ in range(self.dims)]

    def read_types(self):
        return [(self.vector(), self.number(0, VALUE), self.number(0, VALUE, none=True)) for _ in range(self.number(1, TYPES))]

    def form(self, item, number):
        weights = self.vector()
        if not any(weights):
            self.refuse("item %d form %d has no weight" % (item, number))
        return weights

    def read_item(self, item, mvp):
        if not mvp:
            weights = self.form(item, 1)
            return self.number(0, DEMAND), [weights]
        count = self.number(1, FORMS)
        self.forms += count
        if self.forms > ALL_FORMS:
            self.refuse("too many forms")
        demand = self.number(0, DEMAND)
        return demand, [self.form(item, number + 1) for number in range(count)]

    def read_caps(self):
        if self.tokens[self.place:self.place + 1] != [b"caps"]:
            return {}
        self.place += 1
        caps, last = {}, 0
        for _ in range(self.number(0, min(len(self.items), DIMS - self.dims))):
            last = self.number(last + 1, len(self.items))
            caps[last] = self.number(1, CAP)
        return caps
