#!/usr/bin/env python3
"""Draws a tree that `tqd solve` or `tqd requote` wrote, of either format, as a graph for Graphviz.

usage: tree_graph.py ORDERS BILL OFFERS TERMS TREE > tree.dot
       dot -Tsvg tree.dot > tree.svg

The words are those of `tqd check`, which should have accepted the tree: this script tests nothing. A split has the name of
its supplier, and its branches the totals that are left to it there. A leaf says how it ends: by a bound, with the bound
and how far it is above the cost of the plan; as a part without a feasible purchase; by the limits on winners.
"""

import csv
import sys
from fractions import Fraction

LARGEST = 100_000_000
MILLION = 1_000_000


def rows(name):
    """The rows of a file without its header; none of the file `-`."""
    if name == "-":
        return []
    with open(name, newline="", encoding="utf-8-sig") as file:
        return [row for row in csv.reader(file) if row][1:]


def needs_of(orders, bill):
    """The units to buy of each good, in the order in which the names appear."""
    units = {}
    for product, quantity in rows(orders):
        units[product] = int(quantity)
    lines = {}
    for assembly, part, quantity in rows(bill):
        units.setdefault(assembly, 0)
        units.setdefault(part, 0)
        lines.setdefault(assembly, []).append((part, int(quantity)))
    above = {name: 0 for name in units}
    for parts in lines.values():
        for part, _ in parts:
            above[part] += 1
    ready = [name for name, count in above.items() if count == 0]
    while ready:
        name = ready.pop()
        for part, quantity in lines.get(name, []):
            units[part] += units[name] * quantity
            above[part] -= 1
            if above[part] == 0:
                ready.append(part)
    return {name: count for name, count in units.items() if count > 0 and name not in lines}


def millionths(price):
    return int(Fraction(price) * MILLION)


class Job:
    """The numbers of a job: goods and suppliers by their numbers, segments from 1, money in millionths."""

    def __init__(self, orders, bill, offers, terms):
        needs = needs_of(orders, bill)
        self.goods, self.needs = list(needs), list(needs.values())
        prices = {}
        for supplier, start, part, price in rows(offers):
            if part in needs:
                prices.setdefault(supplier, {}).setdefault(int(start), {})[part] = millionths(price)
        terms = {tuple(row[:3]): (row[3], row[4]) for row in rows(terms)}
        self.suppliers = list(prices)
        self.segments = [self.segments_of(name, prices[name], terms) for name in self.suppliers]
        self.fees = [millionths(terms.get(("fee", name, ""), ("", "0"))[1]) for name in self.suppliers]
        stocks = [[self.stock_of(name, prices[name], good, terms) for good in self.goods] for name in self.suppliers]
        most = [self.most_of(k, terms, sum(stock[k] for stock in stocks)) for k in range(len(self.goods))]
        self.caps = [[min(own[k], most[k]) for k in range(len(self.goods))] for own in stocks]
        self.most = most

    def segments_of(self, name, prices, terms):
        """Low, high and prices of each segment: the intervals, cut to the supplier's limits; those left empty go."""
        units = sum(self.needs)
        low, high = terms.get(("share", name, ""), ("", ""))
        least = -(-int(low or 0) * units // 1000)
        most = min(int(high) * units // 1000 if high else LARGEST, int(terms.get(("total", name, ""), ("", LARGEST))[1]))
        starts = sorted(prices)
        cut = [(max(start, least), min(after - 1, most), prices[start])
               for start, after in zip(starts, starts[1:] + [LARGEST + 1])]
        return [segment for segment in cut if segment[0] <= segment[1]]

    @staticmethod
    def stock_of(name, prices, good, terms):
        offered = any(good in of for of in prices.values())
        return int(terms.get(("stock", name, good), ("", LARGEST))[1]) if offered else 0

    def most_of(self, k, terms, stocks):
        over = terms.get(("over", "", self.goods[k]), terms.get(("over", "", ""), ("", "0")))[1]
        return max(self.needs[k], stocks) if over == "any" else self.needs[k] + self.needs[k] * int(over) // 100

    def segment_value(self, i, j, goods, place, free):
        """What supplier i adds to a value with its total in segment j, or None of a value that no price has a part in."""
        if j == 0:
            return 0
        low, high, prices = self.segments[i][j - 1]
        value = 0 if free else self.fees[i]
        for k, good in enumerate(self.goods):
            price = 0 if free else prices.get(good, 0)
            value += self.caps[i][k] * min(0, price - goods[k] - place)
        return value + place * (low if place >= 0 else high)

    def value(self, box, goods, places, free):
        """The value of a row in a box, or its free value: all purchases in the box cost at least that."""
        total = sum(price * (self.needs[k] if price >= 0 else self.most[k]) for k, price in enumerate(goods))
        for i, (first, last) in enumerate(box):
            total += min(self.segment_value(i, j, goods, places.get((i, j), 0), free) for j in range(first, last + 1))
        return total


class Drawing:
    """The nodes of a tree, read line by line and written as they come."""

    def __init__(self, job, tree):
        self.job, self.slots, self.count = job, {}, 0
        lines = [line.split() for line in open(tree, encoding="ascii")]
        self.format, plan = int(lines[0][1]), lines[1]
        self.cost = int(plan[1]) if plan[0] == "plan" else None
        self.lines = iter(lines[2 + (int(plan[2]) if plan[0] == "plan" else 0):])

    def row_of(self, box, numbers):
        """A row of the prices behind a word: of the goods, then of the segments that are left in the box."""
        places = [(i, j) for i, (first, last) in enumerate(box) for j in range(max(first, 1), last + 1)]
        goods = len(self.job.goods)
        return numbers[:goods], dict(zip(places, numbers[goods:]))

    def leaf(self, box, word, numbers):
        if word == "winners":
            return "winners", "number of winners", "lightgray"
        row = self.row_of(box, numbers) if self.format == 1 else self.slots[numbers[0]]
        value = self.job.value(box, *row, free=word == "empty")
        if word == "empty":
            return "empty", "no feasible purchase", "lightgray"
        return "bound", f"{value / MILLION:.2f}\\n{(value - self.cost) / MILLION:.2f} above the cost", "white"

    def totals(self, i, first, last):
        """The totals at a supplier that a range of segments has, in words."""
        segments = self.job.segments[i]
        if last == 0:
            return "nothing"
        below = "" if first else "nothing, or "
        return f"{below}{segments[max(first, 1) - 1][0]} to {segments[last - 1][1]}"

    def draw(self):
        print("digraph tree {\n  node [shape=box, style=filled, fillcolor=white, fontname=Helvetica, fontsize=11];")
        print("  edge [fontname=Helvetica, fontsize=10];")
        due = [([(0, len(segments)) for segments in self.job.segments], None, "")]
        root = due[0][0]
        while due:
            word, *rest = next(self.lines)
            numbers = [int(text) for text in rest]
            if word == "row":
                self.slots[numbers[0]] = self.row_of(root, numbers[1:])
                continue
            box, above, branch = due.pop()
            self.node(box, word, numbers, due)
            if above is not None:
                print(f'  n{above} -> n{self.count} [label="{branch}"];')
            self.count += 1
        print("}")

    def node(self, box, word, numbers, due):
        if word != "split":
            kind, text, color = self.leaf(box, word, numbers)
            print(f'  n{self.count} [label="{kind}\\n{text}", fillcolor={color}];')
            return
        i, s = numbers
        name = self.job.suppliers[i].replace("\\", "\\\\").replace('"', '\\"')
        print(f'  n{self.count} [label="{name}", shape=ellipse];')
        for first, last in [(s + 1, box[i][1]), (box[i][0], s)]:
            half = box[:i] + [(first, last)] + box[i + 1:]
            due.append((half, self.count, self.totals(i, first, last)))


if __name__ == "__main__":
    if len(sys.argv) != 6:
        sys.exit(__doc__)
    Drawing(Job(*sys.argv[1:5]), sys.argv[5]).draw()
