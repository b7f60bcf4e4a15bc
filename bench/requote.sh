#!/usr/bin/env bash
# Solves jobs that jobs.py makes, changes each by changes.py, and prints for each change the seconds and the boxes of
# `solve`, of the changed job from nothing, and of `requote`, from the tree of the job as it was. A box is a node of the
# tree that was written; the boxes of `requote` are those that its tree has more than the old one, and the others of its
# tree are kept from it. It says where the two costs differ, and where `check` does not accept the requoted tree.
#
# usage: requote.sh          the usual table
#        requote.sh WORDS    the lines of one job, for the words of a job as jobs.py takes them
#
# A command is ended after SECONDS_EACH seconds, 120 if that is not set. Times are those of the whole command.

home=$(CDPATH='' cd -- "$(dirname -- "$0")/.." && pwd -P) || exit 1
folder=$(mktemp -d) || exit 1
trap 'rm -rf "$folder"' EXIT
limit=${SECONDS_EACH:-120}

# Runs a command of the program, whose words are those of the function, and sets `took` and `answer`, its first line.
timed() {
    local start end
    start=$(date +%s.%N)
    timeout "$limit" "$home/tqd" "$@" >"$folder/text"
    end=$(date +%s.%N)
    took=$(awk -v start="$start" -v end="$end" 'BEGIN { printf "%.2f", end - start }')
    answer=$(head -n 1 "$folder/text")
}

nodes() {
    grep -cE '^(split|bound|empty|winners)' "$1"
}

# The words of a job's files.
files() {
    echo "$1/orders.csv" - "$1/offers.csv" "$1/terms.csv"
}

# The line of one change of the job, whose tree lies in `old` and whose plan in `plan`.
one_change() {
    "$home/bench/changes.py" "$folder/job" "$folder/changed" "$1" "$folder/plan" || exit 1
    local solved solve_took solve_nodes requoted requote_took
    # shellcheck disable=SC2046
    timed solve $(files "$folder/changed") "$folder/tree"
    solved=$answer solve_took=$took solve_nodes=$(nodes "$folder/tree")
    # shellcheck disable=SC2046
    timed requote $(files "$folder/changed") "$folder/old" "$folder/new"
    requoted=$answer requote_took=$took
    printf '  %-8s  solve %7s s %7s boxes  requote %7s s %7s boxes  %s\n' "$1" "$solve_took" "$solve_nodes" \
        "$requote_took" "$(($(nodes "$folder/new") - old_nodes))" "$requoted"
    [ "$solved" = "$requoted" ] || printf '  THE COSTS DIFFER: %s and %s\n' "$solved" "$requoted"
    # shellcheck disable=SC2046
    timed check $(files "$folder/changed") "$folder/new"
    case $requoted in
    infeasible) [ "$answer" = accepted$'\t'none ] ;;
    *) [ "${answer#accepted}" = "${requoted#solved}" ] ;;
    esac || printf '  check of the requoted tree: %s\n' "$answer"
}

# The lines of a job.
one_job() {
    local old_nodes change
    "$home/bench/jobs.py" "$folder/job" "$@" || exit 1
    # shellcheck disable=SC2046
    timed solve $(files "$folder/job") "$folder/old"
    cp "$folder/text" "$folder/plan"
    old_nodes=$(nodes "$folder/old")
    printf '%s: solve %s s, %s boxes, %s\n' "$*" "$took" "$old_nodes" "$answer"
    case $answer in
    solved*) ;;
    *) return ;;
    esac
    for change in dearer cheaper supplier need; do
        one_change "$change"
    done
}

# The first call builds the program where it is not built yet.
"$home/tqd" make 1 1 1 >/dev/null || exit 1
if [ $# != 0 ]; then
    one_job "$@"
    exit
fi
while read -r words; do
    # shellcheck disable=SC2086
    one_job $words
done <<'END'
make 1 200 40
make 1 400 64
real 40 20 5 1 w
real 40 20 5 1 t
real 40 20 5 4 w
real 100 20 5 1 stwof
real 1000 64 5 1 none
END
