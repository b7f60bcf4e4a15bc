#!/usr/bin/env python3
"""Says what the command `check` has to print, worked out by plain sums from the rules of a tree file.

usage: verdict.py FOLDER TREE

It reads orders.csv, offers.csv and terms.csv of FOLDER, as jobs.py makes them, and the file TREE in either format. It
shares no code with the program: docs/DEFINITIONS.md and the manual have the rules. A line is taken to be one where it
has at most 65,536 bytes.
"""

import re
import sys

import model

SLOTS = 64
LARGEST_PRICE = 4 * 10**15
LONGEST_LINE = 65_536
COUNT = re.compile(rb"(0|[1-9][0-9]{0,22})\Z")
SIGNED = re.compile(rb"(0|-?[1-9][0-9]{0,22})\Z")


def millionths(text):
    whole, _, rest = text.partition(".")
    return int(whole) * 10**6 + int(rest.ljust(6, "0"))


class Numbers:
    """The numbers of a job: goods and suppliers by number, segments from 1."""

    def __init__(self, folder):
        job = model.Job(folder)
        goods = list(job.need)
        self.need = [job.need[good] for good in goods]
        self.most = [job.most(good) for good in goods]
        self.stock = [[job.stock_of(supplier, good) for good in goods] for supplier in job.suppliers]
        self.cap = [list(map(min, stocks, self.most)) for stocks in self.stock]
        self.segments = [[None] for _ in job.suppliers]  # low, high and prices of each segment from 1
        for own, supplier in zip(self.segments, job.suppliers):
            for low, high, prices in job.segments(supplier):
                own.append((low, high, [millionths(prices.get(good, "0")) for good in goods]))
        self.fee = [millionths(job.fee.get(supplier, "0")) for supplier in job.suppliers]
        self.winners = job.winners

    def root(self):
        return [(0, len(segments) - 1) for segments in self.segments]

    def pick(self, i, total):
        if total == 0:
            return 0
        fits = (j for j, segment in enumerate(self.segments[i]) if segment and segment[0] <= total <= segment[1])
        return next(fits, None)

    def standing(self, plan):
        """The real cost of a plan, or the text of the first thing that is wrong with it."""
        for k, need in enumerate(self.need):
            units = sum(row[k] for row in plan)
            if not need <= units <= self.most[k]:
                return f"good {k} gets {units}"
        for i, row in enumerate(plan):
            for k, units in enumerate(row):
                if units > self.stock[i][k]:
                    return f"supplier {i} good {k} above stock"
        cost = bought = 0
        for i, row in enumerate(plan):
            j = self.pick(i, sum(row))
            if j is None:
                return f"supplier {i} total {sum(row)} in no segment"
            if j:
                bought += 1
                cost += self.fee[i] + sum(map(int.__mul__, row, self.segments[i][j][2]))
        if not self.winners[0] <= bought <= self.winners[1]:
            return f"{bought} winners"
        return cost

    def least_part(self, i, box, good_prices, row, free):
        """The least W of supplier i over the segments of its range."""
        least = None
        for j in range(box[i][0], box[i][1] + 1):
            part = 0
            if j:
                low, high, prices = self.segments[i][j]
                own = row[i, j]
                part = 0 if free else self.fee[i]
                for k, cap in enumerate(self.cap[i]):
                    part += cap * min(0, (0 if free else prices[k]) - good_prices[k] - own)
                part += own * (low if own >= 0 else high)
            least = part if least is None else min(least, part)
        return least

    def value(self, box, row, free=False):
        """The value of a row for a box, or its free value."""
        good_prices, segment_prices = row
        value = sum(price * (self.need[k] if price >= 0 else self.most[k]) for k, price in enumerate(good_prices))
        return value + sum(self.least_part(i, box, good_prices, segment_prices, free) for i in range(len(box)))

    def can_be_met(self, box):
        """Whether the limits of winners leave the box a purchase."""
        used = sum(low > 0 for low, _ in box)
        usable = sum(high > 0 for _, high in box)
        return used <= self.winners[1] and usable >= self.winners[0]


class Rejected(Exception):
    pass


class Reader:
    """The lines of a tree, one after the other."""

    def __init__(self, text):
        self.text, self.at, self.line = text, 0, 0

    def next_words(self):
        """The words of the next line, or a word that is of no form."""
        self.line += 1
        end = self.text.find(b"\n", self.at)
        if end < 0:
            self.reject("ends early")
        line, self.at = self.text[self.at : end], end + 1
        return line.split(b" ") if len(line) <= LONGEST_LINE else [b""]

    def reject(self, reason, line=None):
        raise Rejected(f"rejected\t{line or self.line}\t{reason}\n")


def counts(words):
    """The numbers that the words write, or None."""
    return [int(word) for word in words] if all(map(COUNT.match, words)) else None


def read_plan(job, reader):
    """The cost of the plan, or None where there is none; the plan is tested."""
    words = reader.next_words()
    if words == [b"none"]:
        return None
    numbers = counts(words[1:]) if words[0] == b"plan" and len(words) == 3 else None
    suppliers, goods = len(job.segments), len(job.need)
    if numbers is None or numbers[1] > suppliers * goods:
        reader.reject("bad plan line")
    cost, count = numbers
    plan, before = [[0] * goods for _ in range(suppliers)], (-1, -1)
    for _ in range(count):
        words = reader.next_words()
        numbers = counts(words[1:]) if words[0] == b"buy" and len(words) == 4 else None
        if numbers is None:
            reader.reject("bad plan line")
        i, k, units = numbers
        if i >= suppliers or k >= goods or not 1 <= units <= model.LARGEST or (i, k) <= before:
            reader.reject("bad plan line")
        plan[i][k], before = units, (i, k)
    real = job.standing(plan)
    if isinstance(real, str):
        reader.reject(real, 2)
    if real != cost:
        reader.reject(f"cost said {cost}, is {real}", 2)
    return cost


def read_row(job, box, words, reader):
    """The prices of the goods, and those of the segments of a box from 1, by supplier and segment."""
    if not all(map(SIGNED.match, words)):
        reader.reject("bad line")
    places = [(i, j) for i, (low, high) in enumerate(box) for j in range(max(low, 1), high + 1)]
    goods = len(job.need)
    if len(words) != goods + len(places):
        reader.reject(f"{len(words)} prices, wanted {goods + len(places)}")
    prices = list(map(int, words))
    if any(abs(price) > LARGEST_PRICE for price in prices):
        reader.reject("price out of range")
    return prices[:goods], dict(zip(places, prices[goods:]))


def test_leaf(job, box, word, row, cost, reader):
    if word == b"bound":
        if cost is None:
            reader.reject("bound without a plan")
        value = job.value(box, row)
        if value < cost:
            reader.reject(f"value {value} below cost {cost}")
    else:
        value = job.value(box, row, free=True)
        if value <= 0:
            reader.reject(f"free value {value} is not above 0")


def leaf_row(job, box, words, slots, reader):
    """The row of a leaf: its own in format 1, that of its slot in format 2."""
    if slots is None:
        return read_row(job, box, words[1:], reader)
    numbers = counts(words[1:]) if len(words) == 2 else None
    if numbers is None:
        reader.reject("bad line")
    if numbers[0] not in slots:
        reader.reject(f"bad row slot {numbers[0]}")
    return slots[numbers[0]]


def set_slot(job, words, slots, reader):
    if len(words) < 2 or not COUNT.match(words[1]) or not all(map(SIGNED.match, words[2:])):
        reader.reject("bad line")
    if int(words[1]) >= SLOTS:
        reader.reject(f"bad row slot {int(words[1])}")
    slots[int(words[1])] = read_row(job, job.root(), words[2:], reader)


def halves(box, words, reader):
    numbers = counts(words[1:]) if len(words) == 3 else None
    if numbers is None:
        reader.reject("bad line")
    i, s = numbers
    if i >= len(box) or not box[i][0] <= s < box[i][1]:
        reader.reject("bad split")
    low, high = list(box), list(box)
    low[i], high[i] = (box[i][0], s), (s + 1, box[i][1])
    return low, high


def read_nodes(job, cost, slots, reader):
    boxes = [job.root()]
    while boxes:
        words = reader.next_words()
        if words[0] == b"row" and slots is not None:
            set_slot(job, words, slots, reader)
            continue
        box = boxes.pop()
        if words[0] == b"split":
            low, high = halves(box, words, reader)
            boxes += [high, low]
        elif words[0] in (b"bound", b"empty"):
            test_leaf(job, box, words[0], leaf_row(job, box, words, slots, reader), cost, reader)
        elif words != [b"winners"]:
            reader.reject("bad line")
        elif job.can_be_met(box):
            reader.reject("winner limits can be met")


def verdict(job, text):
    """What `check` has to print of these bytes."""
    reader = Reader(text)
    try:
        head = reader.next_words()
        if head not in ([b"tqd-tree", b"1"], [b"tqd-tree", b"2"]):
            reader.reject("bad header")
        cost = read_plan(job, reader)
        read_nodes(job, cost, {} if head[1] == b"2" else None, reader)
        if reader.at < len(text):
            reader.reject("text after the tree", reader.line + 1)
    except Rejected as rejected:
        return str(rejected)
    return "accepted\tnone\n" if cost is None else f"accepted\t{cost // 10**6}.{cost % 10**6:06}\n"


def main(words):
    if len(words) != 2:
        sys.exit(__doc__)
    with open(words[1], "rb") as tree:
        sys.stdout.write(verdict(Numbers(words[0]), tree.read()))


if __name__ == "__main__":
    main(sys.argv[1:])
