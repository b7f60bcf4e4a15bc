#!/usr/bin/env python3
"""Writes a job as a mixed integer program in LP form, for other solvers.

usage: model.py FOLDER MODEL

It reads orders.csv, offers.csv and terms.csv of FOLDER, as jobs.py makes them (a job without a bill, with each offer and
term given once), and writes the file MODEL. For each supplier i and segment j there is a binary y(i,j), which says that
the total of i lies in j, and for each good k that i sells the units x(i,j,k) that are bought of it there. Costs are in
units of the currency.
"""

import csv
import os
import sys
from collections import defaultdict

LARGEST = 100_000_000


class Job:
    """The numbers of a job, by the names of its suppliers and goods."""

    def __init__(self, folder):
        def rows(name):
            with open(os.path.join(folder, name), newline="", encoding="utf-8") as file:
                return list(csv.DictReader(file))

        self.need = {row["product"]: int(row["quantity"]) for row in rows("orders.csv") if int(row["quantity"]) > 0}
        self.price = defaultdict(dict)  # supplier, from: good: price as text
        for row in rows("offers.csv"):
            if row["part"] in self.need:
                self.price[row["supplier"], int(row["from"])][row["part"]] = row["price"]
        self.suppliers = list(dict.fromkeys(supplier for supplier, _ in self.price))
        self.stock, self.total, self.share, self.fee, self.over = {}, {}, {}, {}, {}
        self.winners = (0, 64)
        for row in rows("terms.csv"):
            self.add_term(**row)

    def add_term(self, kind, supplier, part, low, high):
        if kind == "stock":
            self.stock[supplier, part] = int(high)
        elif kind == "total":
            self.total[supplier] = int(high)
        elif kind == "share":
            self.share[supplier] = (int(low or 0), int(high) if high else None)
        elif kind == "fee":
            self.fee[supplier] = high
        elif kind == "winners":
            self.winners = (int(low or 0), int(high or 64))
        elif kind == "over":
            self.over[part] = high
        else:
            sys.exit(f"model.py: unknown kind {kind}")

    def segments(self, supplier):
        """Low, high and prices of each segment: the intervals, cut to the supplier's limits."""
        units = sum(self.need.values())
        low_share, high_share = self.share.get(supplier, (0, None))
        least = -(-low_share * units // 1000)
        most = min(self.total.get(supplier, LARGEST), LARGEST if high_share is None else high_share * units // 1000)
        starts = sorted(start for name, start in self.price if name == supplier)
        for start, after in zip(starts, starts[1:] + [LARGEST + 1]):
            low, high = max(start, least), min(after - 1, most)
            if low <= high:
                yield low, high, self.price[supplier, start]

    def sells(self, supplier):
        return next(prices for (name, _), prices in self.price.items() if name == supplier)

    def stock_of(self, supplier, good):
        if good not in self.sells(supplier):
            return 0
        return self.stock.get((supplier, good), LARGEST)

    def most(self, good):
        over = self.over.get(good, self.over.get("", "0"))
        if over == "any":
            return max(self.need[good], sum(self.stock_of(supplier, good) for supplier in self.suppliers))
        return self.need[good] + self.need[good] * int(over) // 100


def write_sum(file, name, terms, relation):
    """A row of the program, in lines that no reader of the form finds too long."""
    file.write(f" {name}:")
    for at, term in enumerate(terms):
        file.write(f"{' ' if at % 6 else chr(10) + '  '}{term}")
    file.write(f"\n  {relation}\n")


def write_model(job, file):
    good_of = {good: k for k, good in enumerate(job.need)}
    sums = defaultdict(list)
    costs, ranges, picks, used, units, binaries = [], [], [], [], [], []
    for i, supplier in enumerate(job.suppliers):
        own = []
        for j, (low, high, prices) in enumerate(job.segments(supplier), 1):
            pick = f"y_{i}_{j}"
            binaries.append(pick)
            own.append(pick)
            costs.append(f"+ {job.fee.get(supplier, '0')} {pick}")
            bought = []
            for good, price in prices.items():
                name = f"x_{i}_{j}_{good_of[good]}"
                cap = min(job.stock_of(supplier, good), job.most(good))
                units.append((name, cap))
                costs.append(f"+ {price} {name}")
                sums[good].append(f"+ {name}")
                bought.append(f"+ {name}")
            ranges.append((bought, pick, low, high))
        picks.append(own)
        used += own
    file.write("Minimize\n")
    write_sum(file, "cost", costs or ["0 none"], "")
    file.write("Subject To\n")
    for good, k in good_of.items():
        terms = sums[good] or ["0 none"]
        write_sum(file, f"need_{k}", terms, f">= {job.need[good]}")
        write_sum(file, f"most_{k}", terms, f"<= {job.most(good)}")
    for at, (bought, pick, low, high) in enumerate(ranges):
        write_sum(file, f"low_{at}", bought + [f"- {low} {pick}"], ">= 0")
        write_sum(file, f"high_{at}", bought + [f"- {high} {pick}"], "<= 0")
    for i, own in enumerate(picks):
        if own:
            write_sum(file, f"one_{i}", [f"+ {pick}" for pick in own], "<= 1")
    if used:
        write_sum(file, "fewest", [f"+ {pick}" for pick in used], f">= {job.winners[0]}")
        write_sum(file, "greatest", [f"+ {pick}" for pick in used], f"<= {job.winners[1]}")
    file.write("Bounds\n")
    for name, cap in units:
        file.write(f" 0 <= {name} <= {cap}\n")
    file.write("Generals\n")
    for name, _ in units:
        file.write(f" {name}\n")
    file.write("Binaries\n")
    for name in binaries:
        file.write(f" {name}\n")
    file.write("End\n")


if __name__ == "__main__":
    if len(sys.argv) != 3:
        sys.exit(__doc__)
    with open(sys.argv[2], "w", encoding="ascii") as model:
        write_model(Job(sys.argv[1]), model)
