#!/usr/bin/env bash
# Measures the memory of `needs` on the largest file of orders with the smallest rows: 16,777,216 bytes of which each row is
# a comma and a line end. All rows are read before the first is refused, for its name. It prints the answer, the most
# memory that the command had, in kilobytes, and its seconds.

home=$(CDPATH='' cd -- "$(dirname -- "$0")/.." && pwd -P) || exit 1
folder=$(mktemp -d) || exit 1
trap 'rm -rf "$folder"' EXIT

(echo 'product,quantity' && yes ',') | head -c 16777216 >"$folder/orders.csv"

# The first run builds the program where it is not built yet.
printf 'product,quantity\na,1\n' >"$folder/one.csv"
"$home/tqd" needs "$folder/one.csv" - >"$folder/text" || exit 1
/usr/bin/time -f '%M kilobytes, %e s' "$home/tqd" needs "$folder/orders.csv" - >"$folder/text"
cat "$folder/text"
