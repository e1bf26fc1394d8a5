#!/usr/bin/env bash
# A scope of the default sequence decides on one million candidates: the microseconds of one decision, in processor time, of
# the best of several runs, with 100, 1,000 and 10,000 SURT prefixes and no pattern. It fails where a decision with 1,000
# prefixes takes more than 3 microseconds, or where one with 10,000 takes more than twice as long as one with 100, which is
# what the logarithm of their number does. Then a page of 1,000 links with five patterns, which makes one set of matchers:
# it fails where a page takes more than 3 milliseconds.
#
#   bench/scope.sh [RUNS]
set -euo pipefail
. "$(dirname "$0")/build.sh"

runs=${1:-5}

# processor seconds of the best run, which other work on the machine disturbs little: PREFIXES PATTERNS ROUNDS
best() {
    local TIMEFORMAT='%U' run
    for ((run = 0; run < runs; run++)); do
        { time "$program" scope "$1" "$2" "$3" >/dev/null; } 2>&1
    done | sort -n | head -n 1
}

# seconds of so many rounds more, so that what is made once does not count: PREFIXES PATTERNS ROUNDS
rounds_alone() {
    awk -v long="$(best "$1" "$2" "$(($3 + 1))")" -v short="$(best "$1" "$2" 1)" 'BEGIN { print long - short }'
}

echo "processors $(nproc), load $(cut -d ' ' -f 1-3 /proc/loadavg), best of $runs runs"
printf '%9s %10s %9s %14s\n' prefixes decisions processor 'us a decision'
declare -A seconds
for prefixes in 100 1000 10000; do
    seconds[$prefixes]=$(rounds_alone "$prefixes" 0 1000)
    awk -v p="$prefixes" -v s="${seconds[$prefixes]}" 'BEGIN { printf "%9d %10d %9.2f %14.3f\n", p, 1000000, s, s }'
done
page=$(rounds_alone 1000 5 200)
awk -v s="$page" 'BEGIN { printf "a page of 1,000 links with 5 patterns: %.3f ms\n", s * 1000 / 200 }'
awk -v a="${seconds[100]}" -v b="${seconds[1000]}" -v c="${seconds[10000]}" -v p="$page" \
    'BEGIN { exit (b > 3 || c > 2 * a || p * 1000 / 200 > 3) ? 1 : 0 }'
