#!/usr/bin/env bash
# One million addresses of about 100 bytes are read, and the key, the class and the SURT form of each made: the microseconds
# of one call, in processor time, of the best of several runs. The same for addresses of about 200 and of about 2,000 bytes,
# whose times should be as their lengths. It fails where a call at 100 bytes takes more than 4 microseconds, or where a byte
# costs half as much again at 2,000 bytes as at 200.
#
#   bench/addresses.sh [RUNS]
set -euo pipefail
. "$(dirname "$0")/build.sh"

runs=${1:-3}
limit=4
folder=$(mktemp -d)
trap 'rm -rf "$folder"' EXIT

# 100 addresses of so many bytes: FILE BYTES
addresses() {
    local i path
    for ((i = 100; i < 200; i++)); do
        path="http://www$i.example-host.test:8080/path$i/a;jsessionid=0123456789abcdef0123456789abcdef?q=$i"
        while [ ${#path} -lt "$2" ]; do
            path+="&member=$i/value"
        done
        echo "${path:0:$2}"
    done >"$1"
}

# processor seconds of the best run, which other work on the machine disturbs little: FILE ROUNDS
best() {
    local TIMEFORMAT='%U' run
    for ((run = 0; run < runs; run++)); do
        { time "$program" addresses "$1" "$2" >/dev/null; } 2>&1
    done | sort -n | head -n 1
}

echo "processors $(nproc), load $(cut -d ' ' -f 1-3 /proc/loadavg), best of $runs runs"
printf '%6s %10s %9s %10s\n' bytes addresses processor 'us a call'
declare -A seconds
for size in "100 10000" "200 5000" "2000 500"; do
    read -r bytes rounds <<<"$size"
    addresses "$folder/$bytes" "$bytes"
    seconds[$bytes]=$(best "$folder/$bytes" "$rounds")
    # reading, key, class and SURT form: four calls an address
    awk -v b="$bytes" -v n=$((rounds * 100)) -v s="${seconds[$bytes]}" 'BEGIN { printf "%6d %10d %9.2f %10.2f\n", b, n, s, s * 1e6 / n / 4 }'
done
awk -v s="${seconds[100]}" -v a="${seconds[200]}" -v z="${seconds[2000]}" -v l="$limit" \
    'BEGIN { exit (s / 4 > l || z > 1.5 * a) ? 1 : 0 }'
