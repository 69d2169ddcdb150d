"""A second reader of shapes, written from docs/TEXT.md alone, to compare the proved one with.

read(text) answers a list of records (kind, number, parts, place, length), or a Refusal.
It goes by recursive descent, with the grammar as data, where the proved reader keeps a stack of needs.
"""

import re

KINDS = ["symbol", "any", "concat", "exact", "atleast", "atmost", "in",
         "precisely", "noless", "nomore", "and", "or", "inorder"]

SHAPE = {"any", "concat", "exact", "atleast", "atmost", "in"}
COUNT = {"precisely", "noless", "nomore", "and", "or"}
WINDOW = COUNT | {"inorder"}

# what stands in the parentheses behind an operator word: a number or none, which operators its parts may be
# (a name is a shape too), and how many parts there may be
FORMS = {
    "any": (None, SHAPE, 0, None),
    "concat": (None, SHAPE, 1, None),
    "exact": ("k", SHAPE, 1, 1),
    "atleast": ("k", SHAPE, 1, 1),
    "atmost": ("k", SHAPE, 1, 1),
    "in": ("L", WINDOW, 1, 1),
    "precisely": ("k", SHAPE, 1, 1),
    "noless": ("k", SHAPE, 1, 1),
    "nomore": ("k", SHAPE, 1, 1),
    "and": (None, COUNT, 1, None),
    "or": (None, COUNT, 1, None),
    "inorder": (None, SHAPE, 1, None),
}

WORD = re.compile(rb"[ \t\r\n]*(?:([A-Za-z]+)|([0-9]+)|([()]))")
BLANK = re.compile(rb"[ \t\r\n]*")


class Refusal(Exception):
    def __init__(self, number, place):
        super().__init__(number, place)
        self.number = number
        self.place = place

    def __str__(self):
        return f"refused {self.number} {self.place}"


class Reader:
    def __init__(self, text):
        self.text = text
        self.at = 0
        self.records = []

    def peek(self):
        """The next word as (sort, bytes, place); sort is 'end' where there is none."""
        m = WORD.match(self.text, self.at)
        if m:
            sort = ("name", "number", "paren")[m.lastindex - 1]
            return sort, m.group(m.lastindex), m.start(m.lastindex)
        place = BLANK.match(self.text, self.at).end()
        if place < len(self.text):
            raise Refusal(2, place)
        return "end", b"", place

    def take(self):
        sort, word, place = self.peek()
        self.at = place + len(word)
        return sort, word, place

    def record(self, kind, number, word, place, level):
        if len(self.records) == 64 or level > 16:
            raise Refusal(5, place)
        self.records.append([KINDS.index(kind), number, 0, place, len(word)])
        return len(self.records) - 1

    def part(self, allowed, level):
        """One part: a name where shapes are allowed, or a parenthesis with one of the allowed operators."""
        sort, word, place = self.take()
        if sort == "name" and "any" in allowed and word.decode() not in FORMS:
            self.record("symbol", 255, word, place, level)
        elif word == b"(":
            self.operator(allowed, level)
        else:
            raise Refusal(3, place)

    def operator(self, allowed, level):
        sort, word, place = self.take()
        name = word.decode("ascii")
        if sort != "name" or name not in allowed:
            raise Refusal(3, place)
        index = self.record(name, 0, word, place, level)
        number, inner, least, most = FORMS[name]
        if number:
            self.records[index][1] = self.number(number)
        parts = 0
        while True:
            sort, word, place = self.peek()
            if parts >= least and word == b")":
                self.take()
                self.records[index][2] = parts
                return
            if most is not None and parts == most:
                raise Refusal(3, place)
            self.part(inner, level + 1)
            parts += 1

    def number(self, what):
        sort, word, place = self.take()
        if sort != "number":
            raise Refusal(3, place)
        plain = word == b"0" or not word.startswith(b"0")
        if not plain or len(word) > 3 or int(word) > 255 or (what == "L" and int(word) == 0):
            raise Refusal(4, place)
        return int(word)


def read(text):
    if len(text) > 4096:
        return Refusal(1, 4096)
    reader = Reader(text)
    try:
        reader.part(SHAPE, 1)
        sort, word, place = reader.take()
        if sort != "end":
            raise Refusal(3, place)
        return [tuple(r) for r in reader.records]
    except Refusal as refusal:
        return refusal


def shown(answer):
    """One line: the refusal, or the records."""
    if isinstance(answer, Refusal):
        return str(answer)
    return "read " + " ".join(",".join(map(str, r)) for r in answer)


if __name__ == "__main__":
    import sys
    for text in sys.argv[1:]:
        print(shown(read(text.encode())))
