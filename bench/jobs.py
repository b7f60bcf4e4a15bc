#!/usr/bin/env python3
"""Makes a job as files, always the same from the same words.

usage: jobs.py FOLDER real GOODS SUPPLIERS INTERVALS SEED TERMS
       jobs.py FOLDER make SEED GOODS SUPPLIERS

It writes orders.csv, offers.csv and terms.csv into FOLDER, which it makes where it is not there.

`real` draws offers as buyers get them: each supplier sells about 60 % of the goods, at 85 to 115 % of a good's base
price, in INTERVALS intervals of which the last has a discount of 2 to 12 %. TERMS is `none`, or letters, each for terms:

  s  a share of each supplier, its high from 20 to 40 % of all units, its low 0 or 2 %
  w  at most a third of the suppliers, and at least two
  t  a stock for two of five offers, of 30 to 100 % of the good's need
  o  up to 10 % more of each good than is needed
  f  a fee of each supplier, of 0.06 to 0.4 % of what the needs cost at base prices
  F  the same, of 0.25 to 1.5 %
  l  the first interval begins at 3 to 12 % of all units
  v  an exact number of winners, a third of the suppliers

`make` writes the job of the command `make SEED GOODS SUPPLIERS`, so that it can be solved with a tree and by several
workers.
"""

import os
import sys


class Draws:
    """Numbers from a seed: splitmix64 (Steele, Lea and Flood, 2014)."""

    def __init__(self, seed):
        self.state = seed

    def below(self, bound):
        """A number from 0 to bound - 1."""
        self.state = (self.state + 0x9E3779B97F4A7C15) % 2**64
        mixed = self.state
        mixed = (mixed ^ mixed >> 30) * 0xBF58476D1CE4E5B9 % 2**64
        mixed = (mixed ^ mixed >> 27) * 0x94D049BB133111EB % 2**64
        return (mixed ^ mixed >> 31) % bound

    def between(self, low, high):
        """A number from low to high, both of them included."""
        return low + self.below(high - low + 1)


def money(millionths):
    """A price or a fee as the files have it."""
    return f"{millionths // 10**6}.{millionths % 10**6:06}"


def cents(millionths):
    """The price rounded down to whole cents, and at least one."""
    return max(10**4, millionths // 10**4 * 10**4)


def real_job(goods, suppliers, intervals, seed, terms):
    """Needs, offers (supplier, from, good, price) and rows of terms."""
    draws = Draws(seed)
    needs = [draws.between(1, 1000) for _ in range(goods)]
    base = [draws.between(200, 10_000) * 10**4 for _ in range(goods)]
    units = sum(needs)
    worth = sum(need * price for need, price in zip(needs, base))
    offers, rows = [], []
    for supplier in range(suppliers):
        sold = [good for good in range(goods) if draws.below(10) < 6]
        first = units * draws.between(30, 120) // 1000 if "l" in terms else 1
        starts = {max(1, first)}
        while len(starts) < intervals:
            starts.add(first + 1 + draws.below(max(units * 2 // 5, intervals)))
        discount = draws.between(20, 120)
        own = {good: base[good] * draws.between(850, 1150) // 1000 for good in sold}
        for step, start in enumerate(sorted(starts)):
            off = discount * step // max(1, intervals - 1)
            offers += [(supplier, start, good, cents(own[good] * (1000 - off) // 1000)) for good in sold]
        if "t" in terms:
            for good in sold:
                if draws.below(5) < 2:
                    rows.append(f"stock,s{supplier},g{good},,{needs[good] * draws.between(300, 1000) // 1000}")
        if "s" in terms:
            rows.append(f"share,s{supplier},,{20 * (draws.below(4) == 0)},{draws.between(2, 4) * 100}")
        if "f" in terms or "F" in terms:
            thousandths = draws.between(60, 400) if "f" in terms else draws.between(250, 1500)
            rows.append(f"fee,s{supplier},,,{money(cents(worth * thousandths // 10**5))}")
    third = max(2, suppliers // 3)
    if "v" in terms:
        rows.append(f"winners,,,{third},{third}")
    elif "w" in terms:
        rows.append(f"winners,,,2,{third}")
    if "o" in terms:
        rows.append("over,,,,10")
    return needs, offers, rows


def made_job(seed, goods, suppliers):
    """The job of the program's own generator."""
    state = seed % 2**31

    def draw(bound):
        nonlocal state
        state = (state * 1103515245 + 12345) % 2**31
        return state // 65536 % bound

    needs = [1 + draw(1000) for _ in range(goods)]
    units = sum(needs)
    starts = [1, units // (2 * suppliers) + 2, units // suppliers + 3]
    offers = []
    for supplier in range(suppliers):
        second = 1 + draw(5)
        third = second + 1 + draw(5)
        bases = [10_000 + draw(10_000) for _ in range(goods)]
        for start, off in zip(starts, (0, second, third)):
            offers += [(supplier, start, good, 100 * base - base * off) for good, base in enumerate(bases)]
    return needs, offers, []


def write(folder, needs, offers, rows):
    os.makedirs(folder, exist_ok=True)
    files = {
        "orders.csv": ["product,quantity"] + [f"g{good},{need}" for good, need in enumerate(needs)],
        "offers.csv": ["supplier,from,part,price"]
        + [f"s{supplier},{start},g{good},{money(price)}" for supplier, start, good, price in offers],
        "terms.csv": ["kind,supplier,part,low,high"] + rows,
    }
    for name, lines in files.items():
        with open(os.path.join(folder, name), "w", encoding="ascii", newline="\n") as file:
            file.write("\n".join(lines) + "\n")


def main(words):
    if len(words) == 7 and words[1] == "real":
        job = real_job(*map(int, words[2:6]), terms="" if words[6] == "none" else words[6])
    elif len(words) == 5 and words[1] == "make":
        job = made_job(*map(int, words[2:5]))
    else:
        sys.exit(__doc__)
    write(words[0], *job)


if __name__ == "__main__":
    main(sys.argv[1:])
