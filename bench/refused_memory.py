#!/usr/bin/env python3
"""Refuses the program's requests for memory one after the other, and tries how each run ends.

usage: refused_memory.py [COMMAND..]

Small jobs are given to each command, with one worker and, where it takes them, with two. In the first run the first
request is refused, in the second the second one, and so on, until a run makes all its requests; and once more with all
requests from there on refused. A run has to end with status 7, for want of memory, or with the answer of a run that
nothing is refused to. After status 7 the output is a beginning of that answer, and the tree was not made or ends early;
else the tree is valid. verdict.py says so of a tree. Which thread makes the nth request is not the same in each run.

It prints a line for each command and way to refuse: how many requests there are, and how many runs ended with 7; and a
line for each run that ended otherwise. Its status is 1 where there was one. It needs a C compiler, cc, for the library
that stands between the program and malloc.
"""

import os
import subprocess
import sys
import tempfile

import verdict

HOME = os.path.join(os.path.dirname(os.path.abspath(__file__)), "..")
PROGRAM = os.path.join(HOME, "crates", "tqd", "out", "tqd")
MEMORY = 7

LIBRARY = r"""
#define _GNU_SOURCE
#include <dlfcn.h>
#include <errno.h>
#include <fcntl.h>
#include <stdatomic.h>
#include <stdlib.h>
#include <unistd.h>

static atomic_long made;
static long nth, onward;
static void *(*real_malloc)(size_t), *(*real_realloc)(void *, size_t);
static int (*real_memalign)(void **, size_t, size_t);

__attribute__((constructor)) static void begin(void) {
    real_malloc = dlsym(RTLD_NEXT, "malloc");
    real_realloc = dlsym(RTLD_NEXT, "realloc");
    real_memalign = dlsym(RTLD_NEXT, "posix_memalign");
    onward = getenv("REFUSE_ONWARD") != NULL;
    nth = atol(getenv("REFUSE"));
}

static int refused(void) {
    if (nth == 0) return 0;
    long number = atomic_fetch_add(&made, 1) + 1;
    if (number != nth && !(onward && number > nth)) return 0;
    int file = open(getenv("REFUSED"), O_CREAT | O_WRONLY, 0600);
    if (file >= 0) close(file);
    errno = ENOMEM;
    return 1;
}

void *malloc(size_t size) {
    if (!real_malloc) real_malloc = dlsym(RTLD_NEXT, "malloc");
    return refused() ? NULL : real_malloc(size);
}

void *realloc(void *old, size_t size) {
    if (!real_realloc) real_realloc = dlsym(RTLD_NEXT, "realloc");
    return refused() ? NULL : real_realloc(old, size);
}

int posix_memalign(void **place, size_t alignment, size_t size) {
    if (!real_memalign) real_memalign = dlsym(RTLD_NEXT, "posix_memalign");
    return refused() ? ENOMEM : real_memalign(place, alignment, size);
}
"""

FILES = {
    "orders.csv": "product,quantity\nx,100\ny,50\n",
    "offers.csv": "supplier,from,part,price\nA,1,x,1.00\nA,1,y,2.00\nA,150,x,0.90\nA,150,y,1.50\n"
    "B,1,x,0.95\nB,1,y,1.60\n",
    "terms.csv": "kind,supplier,part,low,high\nwinners,,,2,\n",
    "stock.csv": "kind,supplier,part,low,high\nstock,A,x,,60\n",
    "bill.csv": "assembly,part,quantity\nx,z,2\ny,z,1\n",
    "right": "tqd-tree 1\nplan 165000000 2\nbuy 0 0 100\nbuy 0 1 50\nbound 900000 1500000 0 0 0\n",
}

COMMANDS = {
    "solve": "solve orders.csv - offers.csv terms.csv tree",
    "solve by 2": "solve orders.csv - offers.csv terms.csv tree --workers 2",
    "check": "check orders.csv - offers.csv - right",
    "needs": "needs orders.csv bill.csv",
    "make": "make 1 2 2",
    "requote": "requote orders.csv - offers.csv terms.csv right tree",
    "scenarios": "scenarios orders.csv - offers.csv terms.csv stock.csv -",
    "scenarios by 2": "scenarios orders.csv - offers.csv terms.csv stock.csv - --workers 2",
    "winners": "winners orders.csv - offers.csv -",
    "winners by 2": "winners orders.csv - offers.csv - --workers 2",
    "break-even": "break-even orders.csv - offers.csv - B",
}


class Runs:
    def __init__(self, folder):
        self.folder = folder
        self.refused = os.path.join(folder, "refused")
        for name, text in FILES.items():
            with open(os.path.join(folder, name), "w", encoding="ascii", newline="\n") as file:
                file.write(text)
        self.job = verdict.Numbers(folder)
        self.library = os.path.join(folder, "refuse.so")
        subprocess.run(
            ["cc", "-shared", "-fPIC", "-O1", "-x", "c", "-", "-o", self.library, "-ldl"],
            input=LIBRARY.encode(),
            check=True,
        )

    def run(self, words, nth, onward):
        """The status of a run, what it printed, its tree or None, and whether a request was refused."""
        for name in ("tree", "refused"):
            if os.path.exists(os.path.join(self.folder, name)):
                os.remove(os.path.join(self.folder, name))
        given = {"LD_PRELOAD": self.library, "REFUSE": str(nth), "REFUSED": self.refused}
        if onward:
            given["REFUSE_ONWARD"] = "1"
        try:
            done = subprocess.run(
                [PROGRAM, *words.split()], cwd=self.folder, env=given, capture_output=True, timeout=60, check=False
            )
        except subprocess.TimeoutExpired:
            return None, b"", None, True
        tree = None
        if os.path.exists(os.path.join(self.folder, "tree")):
            with open(os.path.join(self.folder, "tree"), "rb") as file:
                tree = file.read()
        return done.returncode, done.stdout, tree, os.path.exists(self.refused)

    def fault(self, right, status, printed, tree):
        """What is wrong with the end of a run, or None."""
        right_status, right_text, _, _ = right
        said = None if tree is None else verdict.verdict(self.job, tree)
        if status == MEMORY:
            if not right_text.startswith(printed):
                return f"prints {printed!r}"
            if said is not None and not said.endswith("\tends early\n") and not said.startswith("accepted"):
                return f"has a tree of which the rules say {said!r}"
            return None
        if (status, printed) != (right_status, right_text):
            return f"ends with {status} and {printed!r}"
        if said is not None and not said.startswith("accepted"):
            return f"has a tree of which the rules say {said!r}"
        return None

    def refuse_each(self, name, onward):
        """Refuses each request of a command, and says whether each run ended as it has to."""
        words = COMMANDS[name]
        right = self.run(words, 0, False)
        nth = ended = faults = 0
        while True:
            nth += 1
            status, printed, tree, refused = self.run(words, nth, onward)
            wrong = self.fault(right, status, printed, tree)
            if wrong is not None:
                faults += 1
                print(f"{name}: where request {nth} {'and all later ones are' if onward else 'is'} refused it {wrong}")
            if not refused:
                break
            ended += status == MEMORY
        way = "all from one on" if onward else "one at a time"
        print(f"{name:15} {way:16} {nth - 1:6} requests, {ended:6} runs ended with 7, {faults} otherwise", flush=True)
        return faults


def main(names):
    if any(name not in COMMANDS for name in names):
        sys.exit(__doc__)
    # The first call builds the program where it is not built yet.
    subprocess.run([os.path.join(HOME, "tqd"), "make", "1", "1", "1"], stdout=subprocess.DEVNULL, check=True)
    with tempfile.TemporaryDirectory() as folder:
        runs = Runs(folder)
        faults = sum(runs.refuse_each(name, onward) for name in names or COMMANDS for onward in (False, True))
    sys.exit(1 if faults else 0)


if __name__ == "__main__":
    main(sys.argv[1:])
