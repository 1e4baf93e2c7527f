#!/usr/bin/env bash
# Prints the rate of appends to a journal over a real file, and its ratio to that of a plain C loop which
# writes and syncs the same bytes in the same order: a line for entries of 64 bytes, and one for 6,000.
#
#     bench/journal.sh [COUNT [ROUNDS]]
#
# It builds both in a folder beside the repository, so on the same file system, and runs them one after the
# other, ROUNDS times. The ratio is the middle one of the rounds' ratios, and the rate that of the shortest
# time. It wants a machine that does nothing else.
set -eu
top=$(git -C "$(dirname "$0")" rev-parse --show-toplevel)
count=${1:-1000}
rounds=${2:-15}
work=$(mktemp -d "$top/../journal-bench.XXXXXX")
trap 'rm -rf "$work"' EXIT
mkdir -p "$work/crates/appends/src"
for crate in mark_base project_journal; do
    mkdir "$work/crates/$crate"
    cp -r "$top/crates/$crate/src" "$top/crates/$crate/specs" "$top/crates/$crate/proofs" "$work/crates/$crate/"
done
cp "$top/bench/journal/appends.txt" "$work/crates/appends/src/main.rt"
printf 'mark_base:\nproject_journal: mark_base\nappends: project_journal\n' >"$work/crates.txt"

${CC:-cc} -O2 -o "$work/plain" "$top/bench/journal/plain.c"
(cd "$work/crates/appends" && rt run -- 64 1 "$work/first") >"$work/build.out" 2>&1 ||
    { tail -20 "$work/build.out"; exit 1; }
journal="$work/crates/appends/out/appends"

for size in 64 6000; do
    : >"$work/times"
    for round in $(seq "$rounds"); do
        # Each is first in every second round.
        if [ $((round % 2)) -eq 0 ]; then
            took=$("$journal" "$size" "$count" "$work/journal.file")
            plain=$("$work/plain" "$size" "$count" "$work/plain.file")
        else
            plain=$("$work/plain" "$size" "$count" "$work/plain.file")
            took=$("$journal" "$size" "$count" "$work/journal.file")
        fi
        cmp "$work/journal.file" "$work/plain.file"
        rm "$work/journal.file" "$work/plain.file"
        echo "$took $plain" >>"$work/times"
    done
    ratio=$(awk '{ print $2 / $1 }' "$work/times" | sort -n | sed -n "$(((rounds + 1) / 2))p")
    awk -v size="$size" -v count="$count" -v ratio="$ratio" -v took="$(sort -n "$work/times" | head -1 | cut -d" " -f1)" \
        'BEGIN { printf "%d bytes: %.0f appends a second, ratio %.3f\n", size, count / took * 1e9, ratio }'
done
