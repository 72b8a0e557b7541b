#!/usr/bin/env python3
"""A second compiler of filter expressions, written from docs/EXPRESSIONS.md alone and sharing nothing with the proved one.

    python3 reference.py <stdin            for each line, `accepted TERMS BYTES` or `refused NUMBER at PLACE (PART)`
    python3 reference.py --why <stdin      the same with the words of each refusal: the expected output of the table
    python3 reference.py --check           the worked examples, and forms compared with samples

A line is any bytes but a newline. Bytes are printed in hexadecimal. A form here is a sorted list of numbers of 63 bits.
"""

import itertools
import random
import re
import sys

MOST_BYTES = 1024
MOST_DEEP = 16
MOST_TERMS = 256
ROWS, COLUMNS = range(-4, 5), range(-3, 4)

PARTS = {1: "grammar", 2: "letters", 3: "grammar", 4: "grammar", 5: "grammar", 6: "grammar", 7: "grammar",
         8: "forms", 9: "forms"}

# The words that the compiler under comparison prints for each refusal.
WHY = {
    1: "the text is longer than 1,024 bytes; write a shorter one",
    2: "no word, number or sign of the language; numbers have one to three digits and no zero in front",
    3: "this may not stand here; an argument, a comma or a bracket is missing or too many",
    4: "no word of the language; it has max, min, after, erode, dilate, open, close, rank, med and weight",
    5: "the number is outside its range",
    6: "calls nest at most 16 deep",
    7: "a median has an odd number of cells, a rank or median at most nine, weights one to nine different cells, "
       "and a rank is at most what they count",
    8: "the form would have too many terms",
    9: "a cell of one form plus a cell of the other lies outside the window",
}


class Refused(Exception):
    def __init__(self, number, place):
        super().__init__(number, place)
        self.number, self.place = number, place


# Reading: tokens are found as the reader comes to them, so that the first fault from the left is the one met.

TOKEN = re.compile(rb"(?P<word>[a-z]+)|(?P<number>-?[0-9]+)|(?P<sign>[\[\](),*])")
NUMERAL = re.compile(rb"0|-?[1-9][0-9]{0,2}")


class Reader:
    def __init__(self, text):
        self.text, self.at = text, 0

    def next(self):
        """The kind, the bytes and the place of the next token, which is passed."""
        while self.text[self.at:self.at + 1] == b" ":
            self.at += 1
        place = self.at
        if place == len(self.text):
            return "end", b"", place
        found = TOKEN.match(self.text, place)
        if not found:
            raise Refused(2, place)
        kind, spelled = found.lastgroup, found.group()
        if kind == "number" and not NUMERAL.fullmatch(spelled):
            raise Refused(2, place)
        self.at = found.end()
        return kind, spelled, place

    def sign(self, *allowed):
        kind, spelled, place = self.next()
        if kind != "sign" or spelled not in allowed:
            raise Refused(3, place)
        return spelled

    def number(self, low, high):
        kind, spelled, place = self.next()
        if kind != "number":
            raise Refused(3, place)
        if not low <= int(spelled) <= high:
            raise Refused(5, place)
        return int(spelled)

    def offsets(self):
        """Row and column of a cell whose bracket was passed."""
        row = self.number(-4, 4)
        self.sign(b",")
        column = self.number(-3, 3)
        self.sign(b"]")
        return row, column

    def sides(self):
        height = self.number(1, 9)
        self.sign(b",")
        return height, self.number(1, 7)

    def expression(self, deep):
        kind, spelled, place = self.next()
        if (kind, spelled) == ("sign", b"["):
            return "cell", place, self.offsets()
        if kind != "word":
            raise Refused(3, place)
        word = spelled.decode()
        if word not in WORDS:
            raise Refused(4, place)
        if deep > MOST_DEEP:
            raise Refused(6, place)
        self.sign(b"(")
        return word, place, WORDS[word](self, place, deep)

    def joined(self, place, deep):
        arguments = [self.expression(deep + 1)]
        self.sign(b",")
        arguments.append(self.expression(deep + 1))
        while self.sign(b",", b")") == b",":
            arguments.append(self.expression(deep + 1))
        return arguments

    def composed(self, place, deep):
        outer = self.expression(deep + 1)
        self.sign(b",")
        inner = self.expression(deep + 1)
        self.sign(b")")
        return outer, inner

    def boxed(self, place, deep):
        sides = self.sides()
        self.sign(b")")
        return sides

    def median(self, place, deep):
        height, width = self.boxed(place, deep)
        if height * width % 2 == 0 or height * width > 9:
            raise Refused(7, place)
        return height, width

    def ranked(self, place, deep):
        height, width = self.sides()
        self.sign(b",")
        k = self.number(1, 9)
        self.sign(b")")
        if height * width > 9 or k > height * width:
            raise Refused(7, place)
        return height, width, k

    def weighted(self, place, deep):
        k = self.number(1, 891)
        cells = []
        self.sign(b",")
        while True:
            self.sign(b"[")
            where = self.offsets()
            self.sign(b"*")
            cells.append((where, self.number(1, 99)))
            if self.sign(b",", b")") == b")":
                break
        if len(cells) > 9 or len({where for where, _ in cells}) < len(cells) or k > sum(m for _, m in cells):
            raise Refused(7, place)
        return k, cells


WORDS = {
    "max": Reader.joined, "min": Reader.joined, "after": Reader.composed,
    "erode": Reader.boxed, "dilate": Reader.boxed, "open": Reader.boxed, "close": Reader.boxed,
    "rank": Reader.ranked, "med": Reader.median, "weight": Reader.weighted,
}


def read(text):
    """The expression that a text spells: its word or `cell`, its place and its arguments."""
    if len(text) > MOST_BYTES:
        raise Refused(1, MOST_BYTES)
    reader = Reader(text)
    found = reader.expression(1)
    kind, _, place = reader.next()
    if kind != "end":
        raise Refused(3, place)
    return found


# Working out.

def number_of(row, column):
    return (row + 4) * 7 + column + 3


def single(row, column):
    return 1 << (62 - number_of(row, column))


def cells_of(term):
    """Rows and columns of a term's cells, by ascending cell number."""
    return [(n // 7 - 4, n % 7 - 3) for n in range(63) if term >> (62 - n) & 1]


def box(height, width):
    return [(row - height // 2, column - width // 2) for row in range(height) for column in range(width)]


def union_of(cells):
    term = 0
    for row, column in cells:
        term |= single(row, column)
    return term


def enter(form, term, place):
    if any(old & term == old for old in form):
        return form
    form = sorted([old for old in form if term & old != term] + [term])
    if len(form) > MOST_TERMS:
        raise Refused(8, place)
    return form


def greater(first, second, place):
    for term in second:
        first = enter(first, term, place)
    return first


def lesser(first, second, place):
    form = []
    for left in first:
        for right in second:
            form = enter(form, left | right, place)
    return form


def moved(form, by):
    terms = []
    for term in form:
        terms.append(union_of([(row + by[0], column + by[1]) for row, column in cells_of(term)]))
    return sorted(terms)


def compose(outer, inner, place):
    used_outer = {cell for term in outer for cell in cells_of(term)}
    used_inner = {cell for term in inner for cell in cells_of(term)}
    for row, column in used_outer:
        for more_rows, more_columns in used_inner:
            if row + more_rows not in ROWS or column + more_columns not in COLUMNS:
                raise Refused(9, place)
    form = []
    for term in outer:
        joined = None
        for cell in cells_of(term):
            shifted = moved(inner, cell)
            joined = shifted if joined is None else lesser(joined, shifted, place)
        form = greater(form, joined, place)
    return form


def reaching(k, weights):
    """The minimal sets of cells whose weights reach k, found among all sets."""
    sets = []
    for size in range(1, len(weights) + 1):
        for chosen in itertools.combinations(weights, size):
            total = sum(m for _, m in chosen)
            if total >= k and all(total - m < k for _, m in chosen):
                sets.append(union_of([cell for cell, _ in chosen]))
    return sorted(sets)


def erosion(height, width):
    return [union_of(box(height, width))]


def dilation(height, width):
    return sorted(single(-row, -column) for row, column in box(height, width))


def work_out(expression):
    word, place, arguments = expression
    if word == "cell":
        return [single(*arguments)]
    if word in ("max", "min"):
        join = greater if word == "max" else lesser
        form = work_out(arguments[0])
        for argument in arguments[1:]:
            form = join(form, work_out(argument), place)
        return form
    if word == "after":
        outer = work_out(arguments[0])
        return compose(outer, work_out(arguments[1]), place)
    if word == "erode":
        return erosion(*arguments)
    if word == "dilate":
        return dilation(*arguments)
    if word == "open":
        return compose(dilation(*arguments), erosion(*arguments), place)
    if word == "close":
        return compose(erosion(*arguments), dilation(*arguments), place)
    if word == "weight":
        return reaching(*arguments)
    height, width = arguments[:2]
    k = arguments[2] if word == "rank" else (height * width + 1) // 2
    return reaching(k, [(cell, 1) for cell in box(height, width)])


def stored(form):
    bits = "0001" + format(len(form) - 1, "08b") + "".join(format(term, "063b") for term in form)
    bits += "0" * (-len(bits) % 8)
    return bytes(int(bits[i:i + 8], 2) for i in range(0, len(bits), 8))


def report(text, why=False):
    try:
        form = work_out(read(text))
    except Refused as fault:
        words = ": " + WHY[fault.number] if why else ""
        return f"refused {fault.number} at {fault.place} ({PARTS[fault.number]}){words}"
    return f"accepted {len(form)} {stored(form).hex()}"


# Checking this compiler: samples are worked out from the expression alone, with no form.

def kth_greatest(k, samples):
    return sorted(samples, reverse=True)[k - 1]


def sample(expression, element, row, column):
    word, _, arguments = expression
    if word == "cell":
        return element(row + arguments[0], column + arguments[1])
    if word in ("max", "min"):
        return (max if word == "max" else min)(sample(e, element, row, column) for e in arguments)
    if word == "after":
        outer, inner = arguments
        return sample(outer, lambda r, c: sample(inner, element, r, c), row, column)
    if word == "weight":
        k, cells = arguments
        return kth_greatest(k, [element(row + r, column + c) for (r, c), m in cells for _ in range(m)])
    places = box(*arguments[:2])
    if word == "erode":
        return min(element(row + r, column + c) for r, c in places)
    if word == "dilate":
        return max(element(row - r, column - c) for r, c in places)
    if word in ("open", "close"):
        first, second = ("dilate", "erode") if word == "open" else ("erode", "dilate")
        return sample(("after", 0, ((first, 0, arguments), (second, 0, arguments))), element, row, column)
    k = arguments[2] if word == "rank" else (len(places) + 1) // 2
    return kth_greatest(k, [element(row + r, column + c) for r, c in places])


def value(form, element):
    return max(min(element(r, c) for r, c in cells_of(term)) for term in form)


def random_text(deep, chance):
    def of(low, high):
        return chance.randint(low, high)

    def small():
        return f"[{of(-2, 2)},{of(-1, 1)}]"

    word = chance.choice(["cell", "cell", "max", "min", "after", "erode", "dilate", "open", "close", "rank", "med", "weight"])
    if word == "cell" or deep == 0:
        return small()
    if word in ("max", "min"):
        return f"{word}({','.join(random_text(deep - 1, chance) for _ in range(of(2, 3)))})"
    if word == "after":
        return f"after({random_text(deep - 1, chance)},{random_text(deep - 1, chance)})"
    if word == "weight":
        return f"weight({of(1, 6)},{','.join(small() + '*' + str(of(1, 3)) for _ in range(of(1, 4)))})"
    if word == "rank":
        return f"rank({of(1, 3)},{of(1, 3)},{of(1, 4)})"
    return f"{word}({of(1, 3)},{of(1, 3)})"


def terms_of(text):
    form = work_out(read(text))
    return [[number_of(*cell) for cell in cells_of(term)] for term in form]


def check():
    centre = "accepted 1 10000000001000000000"
    assert report(b"[0,0]") == report(b"min([0,0],max([0,0],[1,0]))") == centre
    assert report(b"max([0,0],[1,0])") == "accepted 2 101000000000200000000000002000000000"
    assert terms_of(b"weight(3,[-1,0]*1,[0,0]*3,[1,0]*1)") == terms_of(b"after([-1,0],[1,0])") == [[31]]
    assert terms_of(b"open(2,1)") == [[31, 38], [24, 31]]
    column = [3, 9, 4, 4, 1]
    opened = [value(work_out(read(b"open(2,1)")), lambda r, c: column[min(max(row + r, 0), 4)]) for row in range(5)]
    assert opened == [3, 4, 4, 4, 1]
    assert len(terms_of(b"open(5,4)")) == 20
    assert report(b"open(6,1)") == "refused 9 at 0 (forms)"
    assert report(b"med(3,5)") == "refused 7 at 0 (grammar)"
    assert report(b"erode(10,1)") == "refused 5 at 6 (grammar)"
    pairs = [f"max([{row},-1],[{row},1])" for row in range(-4, 5)]
    assert len(terms_of(f"min({','.join(pairs[:8])})".encode())) == 256
    assert report(f"min({','.join(pairs)})".encode()) == "refused 8 at 0 (forms)"
    chance, compared = random.Random(7), 0
    for _ in range(4000):
        text = random_text(3, chance).encode()
        try:
            expression = read(text)
            form = work_out(expression)
        except Refused:
            continue
        compared += 1
        for high in (1, 2, 9):
            window = {place: chance.randint(0, high) for place in itertools.product(range(-4, 5), range(-3, 4))}
            element = lambda r, c: window[r, c]
            assert value(form, element) == sample(expression, element, 0, 0), text
    print(f"the worked examples hold; {compared} random expressions have the samples of their forms")


def main():
    if "--check" in sys.argv[1:]:
        return check()
    lines = sys.stdin.buffer.read().split(b"\n")
    if lines[-1] == b"":
        lines.pop()
    for line in lines:
        print(report(line, why="--why" in sys.argv[1:]))


if __name__ == "__main__":
    main()
