#!/usr/bin/env bash
# Makes jobs by jobs.py, runs `solve` and `check` on each, and prints a line for each: the words of the job, the nodes of
# its tree (each is one box), the bytes of the tree, the seconds of `check`, and for each number of workers the seconds of
# `solve` and the nodes of the tree that so many workers wrote.
#
# usage: solve.sh [-w WORKERS]          the usual table
#        solve.sh [-w WORKERS] WORDS    one line of it, for the words of a job as jobs.py takes them
#
# WORKERS is a list such as 1,2,4, and 1 if it is left out. A command is ended after SECONDS_EACH seconds, 120 if that
# is not set. Times are those of the whole command on this machine, with its files.

home=$(CDPATH='' cd -- "$(dirname -- "$0")/.." && pwd -P) || exit 1
folder=$(mktemp -d) || exit 1
trap 'rm -rf "$folder"' EXIT
limit=${SECONDS_EACH:-120}

workers=1
if [ "$1" = -w ]; then
    workers=$2
    shift 2
fi

# Seconds of a command of the program, whose words are those of the function; its text goes to a file.
seconds() {
    local start end
    start=$(date +%s.%N)
    timeout "$limit" "$home/tqd" "$@" >"$folder/text"
    end=$(date +%s.%N)
    awk -v start="$start" -v end="$end" 'BEGIN { printf "%.2f", end - start }'
}

nodes() {
    grep -cE '^(split|bound|empty|winners)' "$folder/tree"
}

# The line of a job: solved by each number of workers, and the last tree checked.
one_line() {
    "$home/bench/jobs.py" "$folder/job" "$@" || exit 1
    local files=("$folder/job/orders.csv" - "$folder/job/offers.csv" "$folder/job/terms.csv" "$folder/tree")
    local count took answer times=
    for count in ${workers//,/ }; do
        rm -f "$folder/tree"
        took=$(seconds solve "${files[@]}" --workers "$count")
        answer=$(head -n 1 "$folder/text")
        if [ -f "$folder/tree" ]; then
            times+=$(printf '  %s: %7s s %7s' "$count" "$took" "$(nodes)")
        else
            times+=$(printf '  %s: none in %s s' "$count" "$took")
        fi
    done
    if [ -f "$folder/tree" ]; then
        took=$(seconds check "${files[@]}")
        printf '%-28s %10s bytes, check %5s s; solve%s; %s; %s\n' "$*" "$(wc -c <"$folder/tree")" "$took" \
            "$times" "$answer" "$(head -n 1 "$folder/text")"
    else
        printf '%-28s solve%s\n' "$*" "$times"
    fi
}

# The first call builds the program where it is not built yet.
"$home/tqd" make 1 1 1 >/dev/null || exit 1
if [ $# != 0 ]; then
    one_line "$@"
    exit
fi
while read -r words; do
    # shellcheck disable=SC2086
    one_line $words
done <<'END'
make 1 100 20
make 1 200 40
real 40 10 5 1 none
real 40 10 5 2 f
real 40 20 5 3 s
real 40 20 5 4 w
real 40 20 5 5 t
real 40 20 5 6 o
real 40 20 5 7 tf
real 100 20 5 8 none
END
