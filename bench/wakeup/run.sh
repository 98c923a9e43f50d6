#!/bin/sh
# Times processes beside plain Rust: round trips of two that wake each other, a wakeup of nobody and
# a sleep whose condition holds. Both sides run in turn, a few rounds each; medians, with the least
# and the most. What it builds lies in bench/out/wakeup, outside the repository's crates.
set -eu
here=$(cd "$(dirname "$0")" && pwd)
top=$(cd "$here/../.." && pwd)
work=$top/bench/out/wakeup
rounds=${1:-5}

. "$top/bench/repo.sh"
lay_out "sync_base sleep_core rendez_words sleep_wakeup" "wakeup_bench: sync_base sleep_wakeup"
cp "$here/processes.rattle" "$bench/src/main.rt"

rustc -O -o "$work/plain" "$here/plain.rs"
build

: > "$work/figures"
round=0
while [ "$round" -lt "$rounds" ]; do
    out/wakeup_bench >> "$work/figures"
    "$work/plain" >> "$work/figures"
    round=$((round + 1))
done

python3 "$here/table.py" "$work/figures" "$rounds"
