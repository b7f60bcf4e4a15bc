#!/usr/bin/env python3
"""Makes a job in which one thing has changed, for the command `requote`.

usage: changes.py FOLDER CHANGED KIND PLAN

It reads the files of FOLDER, as jobs.py makes them, and PLAN, what `solve` printed of them, and writes the files of the
changed job into CHANGED, which it makes where it is not there. KIND is

  dearer    the price of the dearest entry of the plan rises by 1 %
  cheaper   a price that the plan does not pay falls by 1 %, drawn by a fixed seed
  supplier  all prices of the supplier that sells most in the plan rise by 1 %
  need      one unit more is needed of the good of the dearest entry of the plan
"""

import csv
import os
import sys

import jobs
import verdict


def read_rows(folder, name):
    with open(os.path.join(folder, name), newline="", encoding="utf-8") as file:
        return list(csv.reader(file))


def write_rows(folder, name, rows):
    with open(os.path.join(folder, name), "w", newline="", encoding="utf-8") as file:
        csv.writer(file, lineterminator="\n").writerows(rows)


def entries_of(path):
    """Supplier, low of the segment, part and cost of each entry of a plan; and the units of each supplier."""
    entries, units = [], {}
    with open(path, encoding="utf-8") as file:
        for line in file:
            words = line.rstrip("\n").split("\t")
            if words[0] == "supplier":
                supplier, low = words[1], int(words[3])
                units[supplier] = int(words[2])
            elif words[0] == "buy":
                entries.append((verdict.millionths(words[4]), supplier, low, words[1]))
    if not entries:
        sys.exit("changes.py: the plan has no entry")
    return entries, units


def start_of(offers, supplier, low):
    """The `from` of the interval in which a segment with this low lies."""
    return max(int(row[1]) for row in offers[1:] if row[0] == supplier and int(row[1]) <= low)


def changed_price(row, hundredths):
    price = verdict.millionths(row[3])
    return row[:3] + [jobs.money(max(0, price * hundredths // 100))]


def change(kind, orders, offers, plan):
    entries, units = entries_of(plan)
    _, supplier, low, part = max(entries, key=lambda entry: entry[0])
    if kind == "dearer":
        start = start_of(offers, supplier, low)
        dearest = [supplier, str(start), part]
        offers = [changed_price(row, 101) if row[:3] == dearest else row for row in offers]
    elif kind == "cheaper":
        paid = {(supplier, str(start_of(offers, supplier, low)), part) for _, supplier, low, part in entries}
        others = [at for at, row in enumerate(offers) if at and tuple(row[:3]) not in paid]
        at = others[jobs.Draws(1).below(len(others))]
        offers[at] = changed_price(offers[at], 99)
    elif kind == "supplier":
        most = max(units, key=units.get)
        offers = [changed_price(row, 101) if row[0] == most else row for row in offers]
    elif kind == "need":
        orders = [[row[0], str(int(row[1]) + 1)] if row[0] == part else row for row in orders]
    else:
        sys.exit(__doc__)
    return orders, offers


def main(words):
    if len(words) != 4:
        sys.exit(__doc__)
    folder, changed, kind, plan = words
    orders, offers = change(kind, read_rows(folder, "orders.csv"), read_rows(folder, "offers.csv"), plan)
    os.makedirs(changed, exist_ok=True)
    write_rows(changed, "orders.csv", orders)
    write_rows(changed, "offers.csv", offers)
    write_rows(changed, "terms.csv", read_rows(folder, "terms.csv"))


if __name__ == "__main__":
    main(sys.argv[1:])
