# Sourced by each script of this folder: proves and builds the program of the benches, unless it was built since its sources
# changed. `program` is its path.
bench=$(cd "$(dirname "${BASH_SOURCE[0]}")/../crates/crawl_bench" && pwd)
program=$bench/out/crawl_bench

# whether a source, or what crates stand on, is newer than the program
is_stale() {
    [ ! -x "$program" ] || [ -n "$(find "$bench/../../crates.txt" "$bench/.." -name out -prune -o -type f \
        \( -name '*.rt' -o -name '*.antt' -o -name crates.txt \) -newer "$program" -print -quit)" ]
}

if is_stale; then
    echo "bench: proving and building the program .." >&2
    if ! (cd "$bench" && rt run -- turn turn 1 1) >/dev/null 2>&1 || [ ! -x "$program" ]; then
        echo "bench: the program was not proved and built" >&2
        exit 70
    fi
    touch "$program"
fi
