#!/usr/bin/env bash
# Solves made jobs by `tqd` and, where they are installed, by cbc and glpsol (Debian's packages coinor-cbc and
# glpk-utils), and prints for each job the cost that each found and its seconds. A user sees that the costs agree.
#
# usage: peers.sh          the usual table
#        peers.sh WORDS    one line of it, for the words of a job as jobs.py takes them
#
# A solver is ended after SECONDS_EACH seconds, 60 if that is not set, and then has no cost here.

home=$(CDPATH='' cd -- "$(dirname -- "$0")/.." && pwd -P) || exit 1
folder=$(mktemp -d) || exit 1
trap 'rm -rf "$folder"' EXIT
limit=${SECONDS_EACH:-60}

# Runs a command, whose words are those of the function, for at most `limit` seconds, and sets `took`.
timed() {
    local start end
    start=$(date +%s.%N)
    timeout "$limit" "$@" >"$folder/log" 2>&1
    end=$(date +%s.%N)
    took=$(awk -v start="$start" -v end="$end" 'BEGIN { printf "%.2f", end - start }')
}

# What each solver found: a cost, `infeasible`, or `none` where its time was over.
found_by_tqd() {
    timed "$home/tqd" solve "$folder/job/orders.csv" - "$folder/job/offers.csv" "$folder/job/terms.csv" -
    found=$(awk 'NR == 1 { print $1 == "solved" ? $2 : $1 }' "$folder/log")
}

found_by_cbc() {
    command -v cbc >/dev/null || { found='-' took='-'; return; }
    timed cbc "$folder/model.lp" ratioGap 0 allowableGap 0 solve
    found=$(awk '/^Result - Optimal solution found/ { optimal = 1 }
        /infeasible/ { none = 1 }
        /^Objective value:/ && optimal { printf "%.6f", $3; done = 1 }
        END { if (!done && none && !optimal) print "infeasible" }' "$folder/log")
}

found_by_glpsol() {
    command -v glpsol >/dev/null || { found='-' took='-'; return; }
    timed glpsol --lp "$folder/model.lp" --mipgap 0 -o "$folder/solution"
    found=
    grep -q 'INTEGER OPTIMAL SOLUTION FOUND' "$folder/log" &&
        found=$(awk '/^Objective:/ { printf "%.6f", $4 }' "$folder/solution")
    grep -qE 'NO (PRIMAL|INTEGER) FEASIBLE SOLUTION' "$folder/log" && found=infeasible
}

one_line() {
    "$home/bench/jobs.py" "$folder/job" "$@" || exit 1
    "$home/bench/model.py" "$folder/job" "$folder/model.lp" || exit 1
    printf '%-24s' "$*"
    local solver
    for solver in tqd cbc glpsol; do
        "found_by_$solver"
        printf ' %7s %7s s %18s' "$solver" "$took" "${found:-none}"
    done
    printf '\n'
}

# The first call builds the program where it is not built yet.
"$home/tqd" make 1 1 1 >/dev/null || exit 1
if [ $# != 0 ]; then
    one_line "$@"
    exit
fi
while read -r words; do
    # shellcheck disable=SC2086
    one_line $words
done <<'END'
make 1 40 10
make 1 100 20
real 40 10 5 1 none
real 40 10 5 2 f
real 40 20 5 3 s
real 40 20 5 4 w
real 40 20 5 5 t
real 40 20 5 6 o
END
