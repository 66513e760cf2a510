#!/usr/bin/env bash
# Compares a program with the reference on many journals, and the single-pass program with it too.
#
#   reference/compare.sh [COUNT [SEED]] -- PROGRAM
#   PROGRAM=path reference/compare.sh [COUNT [SEED]]
#
# PROGRAM is the path of a built executable that reads a journal from standard input. The word
# `reference` in its place stands for the reference itself, which tests this script alone. COUNT is
# how many journals there are, 2000 if it is left out; 1000 are enough to meet all that is asked
# for below. SEED is a number, and each has journals of its own.
#
# It builds the reference, the single-pass program and the generator of journals, runs the
# reference's tests, and runs the three programs on each journal. It fails where what they print or
# their status differs on a journal, where a status is not 0, where the journals are fewer than
# COUNT, and where a refusal that a journal can meet in this book, or a field that 26 can tell, was
# not met by any journal. A run that fails keeps its folder and prints its path. A program has ten
# seconds for a journal.
set -euo pipefail

readonly refusals=(11 12 13 14 15 16 17 18 19 24 25 26 27)
readonly fields=(1 2 3 4 5 6 7)

fail() {
    echo "compare.sh: $1" >&2
    exit 1
}

# Reads the arguments into COUNT, SEED and PROGRAM.
count=2000
seed=2024
program=${PROGRAM:-}
place=0
while (($# > 0)); do
    if [[ $1 == -- ]]; then
        (($# == 2)) || fail "one program is to follow --"
        program=$2
        break
    fi
    [[ $1 =~ ^(0|[1-9][0-9]{0,8})$ ]] || fail "'$1' is no number"
    case $place in
        0) count=$1 ;;
        1) seed=$1 ;;
        *) fail "there are more than a count and a seed" ;;
    esac
    place=$((place + 1))
    shift
done
((count > 0)) || fail "there are no journals to compare"
[[ -n $program ]] || fail "there is no program; see the head of this script"

here=$(cd "$(dirname "${BASH_SOURCE[0]}")" && pwd)
work=$(mktemp -d -t compare.XXXXXX)
trap 'echo "compare.sh: what was made is kept in $work" >&2' EXIT

# Builds one of the Rust files beside this script: source, name, and further arguments.
build() {
    "${RUSTC:-rustc}" --edition 2024 "${@:3}" -o "$work/$2" "$here/$1"
}
build settle_two.rs tests --test
build settle_two.rs reference -O
build single_pass.rs single_pass -O
build journals.rs journals -O

if [[ $program == reference ]]; then
    program=$work/reference
fi
[[ -f $program && -x $program ]] || fail "$program is no executable"
program=$(realpath "$program")

"$work/tests" --quiet >"$work/tests.txt" 2>&1 || {
    cat "$work/tests.txt" >&2
    fail "the tests of the reference fail"
}
"$work/journals" "$seed" "$count" "$work/in" 2>"$work/classes.txt" || {
    cat "$work/classes.txt" >&2
    fail "the journals could not be written"
}
cat "$work/classes.txt"

# Runs a program on each journal, and writes what it prints, and then its status, into a folder.
run_all() {
    local journal status
    mkdir "$2"
    for journal in "$work"/in/*.journal; do
        status=0
        timeout 10 "$1" <"$journal" >"$2/${journal##*/}" || status=$?
        echo "status $status" >>"$2/${journal##*/}"
    done
}
run_all "$work/reference" "$work/expected" &
first=$!
run_all "$program" "$work/printed" &
second=$!
run_all "$work/single_pass" "$work/passed" &
third=$!
wait "$first" || fail "the reference could not be run"
wait "$second" || fail "$program could not be run"
wait "$third" || fail "the single-pass program could not be run"

# Every journal has to have been compared.
for folder in in expected printed passed; do
    files=$(find "$work/$folder" -type f -name '*.journal' | wc -l)
    ((files == count)) || fail "$folder has $files journals and not $count"
done

# What the programs printed has to be what the reference printed, and each status 0.
agree() {
    diff -rq "$work/expected" "$work/$1" >"$work/differences.txt" && return
    sed -n "s|^Files .*/\([^/ ]*\) differ\$|  $work/in/\1|p" "$work/differences.txt" >"$work/named.txt"
    head -n 20 "$work/named.txt" >&2
    fail "$2 differs on $(wc -l <"$work/named.txt") journals, the first of which are named above"
}
agree printed "$program"
agree passed "the single-pass program"
ended=$(cat "$work"/printed/*.journal | grep -acx 'status 0' || true)
((ended == count)) || fail "only $ended of $count runs end with status 0"

# Every refusal and every field has to have been met.
cat "$work"/printed/*.journal | grep -aE '^FAULT,[0-9]+,[0-7],(BOOK|TEXT),[0-9]+$' >"$work/faults.txt" ||
    fail "no journal has a fault"
met() {
    local times
    times=$(grep -cE "$1" "$work/faults.txt" || true)
    ((times > 0)) || fail "no journal has met $2"
    echo "$times journals with $2"
}
for number in "${refusals[@]}"; do
    met "^FAULT,[0-9]+,[0-7],[A-Z]+,$number\$" "refusal $number"
done
for field in "${fields[@]}"; do
    met "^FAULT,[0-9]+,$field,TEXT,26\$" "field $field wrong"
done
echo "$((count - $(wc -l <"$work/faults.txt"))) journals without a fault"

trap - EXIT
rm -rf "$work"
echo "$count journals agree"
