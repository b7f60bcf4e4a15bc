#!/usr/bin/env python3
"""Makes files whose names all have one hash, and files of the same form with plain names.

usage: colliding_names.py FOLDER

It writes into FOLDER, which it makes where it is not there, for each KIND of `colliding` and `plain`:

  KIND_orders.csv   20,000 names, one unit of each
  KIND_offers.csv   16 MB of offers, each row with a seller and a part of its own
  part.csv          an order of one part, which has an offer in either file

The hash is that of the toolchain's tables, whose seed is fixed: it multiplies 16 bytes at a time, joined with what came
before, and folds the product. Where the first factor is 0 the rest of the bytes are lost. So names of 32 bytes have one
hash if the 8 bytes after the first 16 are the hash of these. The program keeps names in order, without hashes: a command
should take about as long on the files of one kind as on those of the other.
"""

import os
import sys

WORD = 2**64 - 1
SEED = 0x243F6A8885A308D3
MULTIPLIER = 0x9E3779B97F4A7C15
LENGTH = 32
LETTERS = b"abcdefghijklmnopqrstuvwxyz"


def folded(left, right):
    """The two halves of a product, joined."""
    product = left * right
    return product & WORD ^ product >> 64


def number(data):
    return int.from_bytes(data, "little")


def is_plain(data):
    """Whether the bytes can stand in a field without quotes."""
    return all(32 < byte < 127 and byte not in b'",' for byte in data)


def lettered(n, length):
    """The text of a number in so many small letters."""
    text = bytearray()
    for _ in range(length):
        n, digit = divmod(n, len(LETTERS))
        text.append(LETTERS[digit])
    return bytes(text)


def colliding_front():
    """24 bytes after which no further byte changes the hash."""
    for n in range(1, 10**6):
        front = lettered(n, 16)
        state = folded(number(front[:8]) ^ (SEED + LENGTH & WORD), number(front[8:]) ^ MULTIPLIER)
        rest = state.to_bytes(8, "little")
        if is_plain(rest):
            return front + rest
    raise SystemExit("no such front")


def write(folder, kind, front):
    def name(n):
        return (front + lettered(n, LENGTH - len(front))).decode()

    with open(os.path.join(folder, f"{kind}_orders.csv"), "w", encoding="ascii") as file:
        file.write("product,quantity\n")
        file.writelines(f"{name(n)},1\n" for n in range(20_000))
    with open(os.path.join(folder, f"{kind}_offers.csv"), "w", encoding="ascii") as file:
        left = 16 * 10**6 - file.write("supplier,from,part,price\nseller,1,part,1\n")
        n = 0
        while left > 0:
            left -= file.write(f"{name(2 * n)},1,{name(2 * n + 1)},1\n")
            n += 1


def main(words):
    if len(words) != 1:
        raise SystemExit(__doc__)
    folder = words[0]
    os.makedirs(folder, exist_ok=True)
    with open(os.path.join(folder, "part.csv"), "w", encoding="ascii") as file:
        file.write("product,quantity\npart,1\n")
    write(folder, "colliding", colliding_front())
    write(folder, "plain", b"a" * 24)


main(sys.argv[1:])
