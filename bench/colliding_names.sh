#!/usr/bin/env bash
# Times `needs` on 20,000 orders and `solve` on 16 MB of offers, with plain names and with names of one hash as
# colliding_names.py makes them. The times of the two kinds should be about the same.

home=$(CDPATH='' cd -- "$(dirname -- "$0")/.." && pwd -P) || exit 1
folder=$(mktemp -d) || exit 1
trap 'rm -rf "$folder"' EXIT
TIMEFORMAT='%2R s'

"$home/bench/colliding_names.py" "$folder" || exit 1
# The first run builds the program where it is not built yet.
"$home/tqd" needs "$folder/part.csv" - >"$folder/text" || exit 1
for kind in plain colliding; do
    echo "$kind names: needs of 20,000 orders, solve with 16 MB of offers"
    time "$home/tqd" needs "$folder/${kind}_orders.csv" - >"$folder/text"
    time "$home/tqd" solve "$folder/part.csv" - "$folder/${kind}_offers.csv" - - >"$folder/text"
    head -n 1 "$folder/text"
done
