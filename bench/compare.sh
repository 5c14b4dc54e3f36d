#!/bin/bash
# Compares `cma` with the plain interpreter in interpreter.c.
#
#   compare.sh [CMA [ROUNDS]]
#
# CMA is the program to compare (../crates/cma/out/cma beside this folder, if not given,
# as `rt run` in crates/cma builds it), ROUNDS how often each program runs each script (7).
# Both programs must print the same bytes for each script. Then they run in turn, and
# the least and the median user time of each are printed, in seconds, with the ratio
# cma / C. The C compiler is gcc, or the one that CC names.
# Nothing is written but in a temporary folder, which is removed at the end.

set -euo pipefail
export LC_ALL=C

here=$(cd "$(dirname "${BASH_SOURCE[0]}")" && pwd)
ours=${1:-$here/../crates/cma/out/cma}
rounds=${2:-7}
compiler=${CC:-gcc}

fail() {
    echo "compare.sh: $*" >&2
    exit 1
}

[[ $rounds =~ ^[1-9][0-9]*$ ]] || fail "not a number of rounds: $rounds"
[[ -f $ours && -x $ours ]] || fail "no program at $ours"
ours=$(cd "$(dirname "$ours")" && pwd)/$(basename "$ours")

folder=$(mktemp -d)
trap 'rm -rf "$folder"' EXIT
plain=$folder/interpreter
"$compiler" -O2 -o "$plain" "$here/interpreter.c" || fail "$compiler cannot build interpreter.c"

# The user time of program $1 on script $2, in seconds.
user_time() {
    local TIMEFORMAT=%U
    { time "$1" < "$2" > "$folder/output" 2> "$folder/errors"; } 2>&1
}

least() {
    sort -n "$1" | head -n 1
}

median() {
    sort -n "$1" | awk '{ t[NR] = $1 }
        END { m = int((NR + 1) / 2); printf "%.3f\n", NR % 2 ? t[m] : (t[m] + t[m + 1]) / 2 }'
}

ratio() {
    awk -v ours="$1" -v plain="$2" \
        'BEGIN { if (plain > 0) printf "%.2f\n", ours / plain; else print "-" }'
}

for script in loop calls; do
    "$plain" < "$here/$script.cma" > "$folder/plain" || fail "C refuses $script.cma"
    "$ours" < "$here/$script.cma" > "$folder/ours" || fail "cma refuses $script.cma"
    cmp "$folder/plain" "$folder/ours" || fail "the outputs for $script.cma differ"
    echo "$script.cma: same output; $(tail -n 1 "$folder/plain")"
done

echo
echo "$("$compiler" --version | head -n 1), -O2; $rounds rounds; user time in seconds"
printf '%-10s %11s %11s %11s\n' '' C cma 'cma / C'
for script in loop calls; do
    : > "$folder/plain.times"
    : > "$folder/ours.times"
    for ((round = 0; round < rounds; round++)); do
        user_time "$plain" "$here/$script.cma" >> "$folder/plain.times"
        user_time "$ours" "$here/$script.cma" >> "$folder/ours.times"
    done
    for measure in least median; do
        c=$($measure "$folder/plain.times")
        o=$($measure "$folder/ours.times")
        printf '%-10s %11s %11s %11s  %s\n' "$script.cma" "$c" "$o" "$(ratio "$o" "$c")" "$measure"
    done
done
