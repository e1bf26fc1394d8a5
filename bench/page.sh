#!/usr/bin/env bash
# What a page costs from the response's bytes in memory to the bytes of its WARC record: it is fetched over a link in
# memory, whose own copy of the bytes is part of it, and the digests of its payload and of the whole block are made.
# Milliseconds of processor time a page and a megabyte, of the best of several runs. It fails where a page of 1 MB costs
# over 40 ms, or where one of 8 MB costs more than 9 times as much.
#
#   bench/page.sh [RUNS]
set -euo pipefail
. "$(dirname "$0")/build.sh"

runs=${1:-5}
limit=40

# user and system milliseconds of the best run, which other work on the machine disturbs little: BYTES ROUNDS
best() {
    local TIMEFORMAT='%U %S' run
    for ((run = 0; run < runs; run++)); do
        { time "$program" page "$1" "$2" >/dev/null; } 2>&1
    done | awk '{ print ($1 + $2) * 1000 }' | sort -n | head -n 1
}

echo "processors $(nproc), load $(cut -d ' ' -f 1-3 /proc/loadavg), best of $runs runs"
printf '%9s %7s %12s %11s %9s\n' bytes rounds 'processor ms' 'ms a page' 'ms a MB'
declare -A page
for size in "100000 800" "1000000 80" "8000000 10"; do
    read -r bytes rounds <<<"$size"
    # a run without rounds is the making of the response, which is no part of a page
    none=$(best "$bytes" 0)
    whole=$(best "$bytes" "$rounds")
    page[$bytes]=$(awk -v w="$whole" -v n="$none" -v r="$rounds" 'BEGIN { print (w - n) / r }')
    awk -v b="$bytes" -v r="$rounds" -v w="$whole" -v p="${page[$bytes]}" \
        'BEGIN { printf "%9d %7d %12d %11.2f %9.2f\n", b, r, w, p, p * 1e6 / b }'
done
awk -v one="${page[1000000]}" -v eight="${page[8000000]}" -v l="$limit" \
    'BEGIN { exit (one > l || eight > 9 * one) ? 1 : 0 }'
