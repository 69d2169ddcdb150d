"""Made texts of shapes: valid ones, damaged ones and random ones, the same for the same seed."""

import random

from reader import FORMS, SHAPE

NAMES = [b"up", b"Up", b"down", b"Down", b"appears", b"disappears", b"stable", b"zero", b"sideways", b"x", b"Any", b"inn"]
NUMBERS = [b"0", b"1", b"2", b"7", b"9", b"10", b"99", b"100", b"254", b"255"]
BAD_NUMBERS = [b"256", b"999", b"1000", b"00", b"01", b"007", b"0" * 40, b"9" * 40]
BLANKS = [b" ", b"\t", b"\r", b"\n", b"  ", b" \n"]


class Maker:
    def __init__(self, rng, size, depth):
        self.rng = rng
        self.left = size
        self.depth = depth
        self.words = []

    def number(self, low):
        if self.rng.random() < 0.02:
            return self.rng.choice(BAD_NUMBERS)
        n = self.rng.choice(NUMBERS)
        return b"1" if low and n == b"0" and self.rng.random() < 0.9 else n

    def part(self, allowed, level):
        self.left -= 1
        shapes = "any" in allowed
        if shapes and (level >= self.depth or self.left <= 0 or self.rng.random() < 0.3):
            self.words.append(self.rng.choice(NAMES))
            return
        name = self.rng.choice(sorted(allowed))
        what, inner, least, most = FORMS[name]
        self.words += [b"(", name.encode()]
        if what:
            self.words.append(self.number(what == "L"))
        count = 1 if most == 1 else least + min(self.left, self.rng.choice([0, 1, 1, 2, 3, 5])) if self.left > 0 else least
        for _ in range(max(count, least)):
            self.part(inner, level + 1)
        self.words.append(b")")


def joined(rng, words, loose):
    """The words as a text: blanks where two would grow together, and elsewhere as it comes."""
    out = bytearray(rng.choice(BLANKS) if loose and rng.random() < 0.2 else b"")
    for i, word in enumerate(words):
        if i:
            a, b = words[i - 1][-1:], word[:1]
            together = (a.isalpha() and b.isalpha()) or (a.isdigit() and b.isdigit())
            if together or (not loose and not (a == b"(" or b == b")")) or (loose and rng.random() < 0.4):
                out += rng.choice(BLANKS) if loose else b" "
        out += word
    if loose and rng.random() < 0.2:
        out += rng.choice(BLANKS)
    return bytes(out)


def valid(rng):
    maker = Maker(rng, rng.choice([1, 3, 8, 20, 62, 70]), rng.choice([2, 4, 8, 15, 16, 17, 18]))
    maker.part(SHAPE, 1)
    return joined(rng, maker.words, rng.random() < 0.6)


def nested(rng):
    """As deep as a text goes, and one deeper."""
    depth = rng.choice([14, 15, 16, 17])
    return b"(any " * depth + rng.choice([b"up", b"", b"(any)", b"#", b"any"]) + b")" * rng.choice([depth, depth - 1, depth + 1])


def wide(rng):
    """As many records as a query has, and one more."""
    return b"(any" + b" up" * rng.choice([61, 62, 63, 64, 65]) + rng.choice([b")", b"", b" (any))", b" any)", b"#"])


def long(rng):
    """Around 4,096 bytes."""
    return b"up" + b" " * rng.choice([4093, 4094, 4095]) + rng.choice([b"", b")", b"#"])


def damaged(rng):
    text = bytearray(valid(rng))
    for _ in range(rng.choice([1, 1, 2, 3])):
        i = rng.randrange(len(text) + 1)
        what = rng.random()
        if what < 0.4 and i < len(text):
            del text[i]
        elif what < 0.7:
            text[i:i] = rng.choice([b"(", b")", b"any", b"1", b" ", b"in", bytes([rng.randrange(256)])])
        elif i < len(text):
            text[i] = rng.choice(b"()19az #_\x00\xff")
    return bytes(text)


def loose_words(rng):
    words = [w.encode() for w in FORMS] + NAMES[:4] + NUMBERS[:4] + BAD_NUMBERS[:2] + [b"(", b"(", b")", b")"]
    return b" ".join(rng.choice(words) for _ in range(rng.randrange(8)))


def random_bytes(rng):
    return bytes(rng.randrange(256) for _ in range(rng.randrange(12)))


def whole(name, part):
    """An operator around one part, with its number if it has one."""
    what = FORMS[name][0]
    return b"(" + name.encode() + (b" 3 " if what else b" ") + part + b")"


def every_operator():
    """Each operator bare, opened and whole, by itself and as the part of every operator: in every place, right or wrong."""
    for name in FORMS:
        inner = b"(precisely 1 up)" if name in ("in", "and", "or") else b"up"
        for part in (name.encode(), b"(" + name.encode() + b")", whole(name, inner)):
            yield part
            for around in FORMS:
                yield whole(around, part)
                if around in ("precisely", "noless", "nomore", "and", "or", "inorder"):
                    yield b"(in 4 " + whole(around, part) + b")"


def at_limits():
    """Numbers at their limits, one of 4,000 digits, and texts of 4,096 and 4,097 bytes."""
    for number in (b"0", b"1", b"254", b"255", b"256", b"00", b"01", b"1" * 4000, b"0" * 4000):
        yield b"(exact " + number + b" up)"
        yield b"(in " + number + b" (precisely 1 up))"
    for size in (4095, 4096, 4097):
        yield b"up" + b" " * (size - 2)
        yield b"a" * size


def texts(seed, count):
    rng = random.Random(seed)
    yield b""
    for b in range(256):
        yield bytes([b])
    yield from every_operator()
    yield from at_limits()
    makers = [valid] * 6 + [damaged] * 6 + [loose_words] * 3 + [nested, wide, long, random_bytes]
    for _ in range(count):
        yield rng.choice(makers)(rng)
