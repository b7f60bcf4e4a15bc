#!/usr/bin/env python3
"""Changes a tree and tries whether `check` says of each changed tree what verdict.py says of it.

usage: mutate_tree.py FOLDER TREE [RANDOM]

FOLDER has the files of a job as jobs.py makes them. The file TREE is changed at every byte: the byte becomes each of a
few others, is dropped, and is doubled; the text is cut before it; and each line is dropped, doubled and moved behind
the next. RANDOM texts, 200 if it is left out, are drawn of the bytes and of the words of trees. It prints each text of
which the two do not say the same, with WRONGLY ACCEPTED where check accepts what is no valid tree; then how many were
tried, and how many of them were accepted. Its status is 1 where the two differ.
"""

import collections
import os
import subprocess
import sys
import tempfile

import jobs
import verdict

HOME = os.path.join(os.path.dirname(os.path.abspath(__file__)), "..")
OTHERS = b"0159- \nb\xff"
WORDS = [b"tqd-tree 1", b"tqd-tree 2", b"none", b"plan 0 0", b"winners", b"row 0 0", b"bound", b"bound 0", b"empty 1"]


def changed_bytes(text):
    for at, byte in enumerate(text):
        head, tail = text[:at], text[at + 1 :]
        for other in OTHERS:
            if other != byte:
                yield head + bytes([other]) + tail
        yield head + tail
        yield head + bytes([byte, byte]) + tail
        yield head


def changed_lines(text):
    lines = text.splitlines(keepends=True)
    for at, line in enumerate(lines):
        head, tail = lines[:at], lines[at + 1 :]
        yield b"".join(head + tail)
        yield b"".join(head + [line, line] + tail)
        yield b"".join(head + tail[:1] + [line] + tail[1:])


def random_texts(text, count):
    draws = jobs.Draws(1)
    lines = text.splitlines()
    for at in range(count):
        if at % 2:
            yield bytes(draws.below(256) for _ in range(draws.below(200)))
        else:
            some = WORDS + lines
            drawn = [some[draws.below(len(some))] for _ in range(draws.below(9))]
            yield b"\n".join(lines[:1] + drawn) + b"\n"


def said_by_check(folder, tree):
    files = [os.path.join(folder, name) for name in ("orders.csv", "offers.csv", "terms.csv")]
    words = ["check", files[0], "-", files[1], files[2], tree]
    done = subprocess.run([os.path.join(HOME, "tqd"), *words], stdout=subprocess.PIPE, check=False)
    return done.stdout, done.returncode


def status_of(text):
    if text == "accepted\tnone\n":
        return 1
    return 0 if text.startswith("accepted") else 4


def main(words):
    if len(words) not in (2, 3):
        sys.exit(__doc__)
    folder, count = words[0], int(words[2]) if len(words) == 3 else 200
    with open(words[1], "rb") as file:
        text = file.read()
    job = verdict.Numbers(folder)
    tried = collections.Counter()
    texts = dict.fromkeys([text, *changed_bytes(text), *changed_lines(text), *random_texts(text, count)])
    with tempfile.TemporaryDirectory() as scratch:
        tree = os.path.join(scratch, "tree")
        for changed in texts:
            with open(tree, "wb") as file:
                file.write(changed)
            said, status = said_by_check(folder, tree)
            right = verdict.verdict(job, changed)
            same = said == right.encode() and status == status_of(right)
            tried["the same" if same else "other"] += 1
            tried["accepted"] += said.startswith(b"accepted")
            if not same:
                wrong = "WRONGLY ACCEPTED" if said.startswith(b"accepted") and status_of(right) == 4 else "OTHER"
                print(f"{wrong}: {changed!r}: check says {said!r} with {status}, by the rules {right!r}")
    print(f"{len(texts)} texts, {tried['accepted']} accepted, {tried['other']} of which the two say another thing")
    sys.exit(1 if tried["other"] else 0)


if __name__ == "__main__":
    main(sys.argv[1:])
