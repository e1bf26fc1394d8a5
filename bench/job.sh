#!/usr/bin/env bash
# A job text of one megabyte with about 45,000 seed lines is read: the seconds of processor time of one reading, of the best
# of several runs, in an address space of 300 MB. The same for half the text, whose time should be about half. It fails where
# the whole text takes a second or more, or more than three times what the half takes. The example jobs of the program are
# those of examples/jobs.
#
#   bench/job.sh [RUNS]
set -euo pipefail
. "$(dirname "$0")/build.sh"

runs=${1:-3}
diff -r -x addresses.txt "$bench/data" "$bench/../../examples/jobs"
folder=$(mktemp -d)
trap 'rm -rf "$folder"' EXIT

# a job with so many seed lines of 23 bytes: FILE LINES
job() {
    {
        printf 'name = "bench"\nagent = "sampler"\ncontact = "http://example.org/bot"\nseeds = """\n'
        seq -f 'http://h%06.0f.test/ab' 100000 $((99999 + $2))
        printf '"""\n'
    } >"$1"
}

# processor seconds of the best run in 300 MB, which other work on the machine disturbs little: FILE
best() {
    local TIMEFORMAT='%U' run
    for ((run = 0; run < runs; run++)); do
        { time (ulimit -v 300000 && "$program" job 1 "$1" >/dev/null); } 2>&1
    done | sort -n | head -n 1
}

echo "processors $(nproc), load $(cut -d ' ' -f 1-3 /proc/loadavg), best of $runs runs"
printf '%8s %8s %10s\n' bytes seeds seconds
declare -A seconds
for lines in 22500 45000; do
    job "$folder/$lines.toml" "$lines"
    seconds[$lines]=$(best "$folder/$lines.toml")
    printf '%8d %8d %10.3f\n' "$(wc -c <"$folder/$lines.toml")" "$lines" "${seconds[$lines]}"
done
awk -v half="${seconds[22500]}" -v whole="${seconds[45000]}" 'BEGIN { exit (whole >= 1 || whole > 3 * half) ? 1 : 0 }'
