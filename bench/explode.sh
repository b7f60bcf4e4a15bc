#!/usr/bin/env bash
# Times the command `needs` on a bill of 100,000 lines over 20,000 names: a chain of 10,000 assemblies, one below the
# other, each with parts among 10,000 leaves. It prints how many goods there are, and the time to standard error.

home=$(CDPATH='' cd -- "$(dirname -- "$0")/.." && pwd -P) || exit 1
folder=$(mktemp -d) || exit 1
trap 'rm -rf "$folder"' EXIT

printf 'product,quantity\na0,1\n' >"$folder/orders.csv"
awk 'BEGIN {
    print "assembly,part,quantity"
    for (i = 0; i < 10000; i++) {
        if (i < 9999) printf "a%d,a%d,1\n", i, i + 1
        for (k = 0; k < 9; k++) printf "a%d,leaf%d,%d\n", i, (i * 7 + k * 1111) % 10000, k + 1
    }
    print "a9999,leaf9999,1"
}' >"$folder/bill.csv"

# The first run builds the program where it is not built yet.
"$home/tqd" needs "$folder/orders.csv" "$folder/bill.csv" >"$folder/needs" || exit 1
time "$home/tqd" needs "$folder/orders.csv" "$folder/bill.csv" >"$folder/needs"
wc -l <"$folder/needs"
