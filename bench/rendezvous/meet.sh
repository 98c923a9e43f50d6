#!/bin/sh
# Times rendezvous beside plain Rust: exchanges of two threads on one tag, and of four pairs on four
# tags. Both sides run in turn, a few rounds each; medians, with the least and the most. What it
# builds lies in bench/out/meet, outside the repository's crates.
set -eu
here=$(cd "$(dirname "$0")" && pwd)
top=$(cd "$here/../.." && pwd)
work=$top/bench/out/meet
rounds=${1:-5}

. "$top/bench/repo.sh"
lay_out "sync_base histories kernel_lock sleep_core rendez_words sleep_wakeup waiting timer_list tag_space" \
    "meet_bench: sync_base sleep_wakeup tag_space"
mkdir -p "$bench/proofs/exchange" "$bench/proofs/jobs_of"
cp "$here/exchange.invariants" "$bench/proofs/exchange/Invariants.antt"
cp "$here/jobs_of.invariants" "$bench/proofs/jobs_of/Invariants.antt"
cp "$here/meet.rattle" "$bench/src/main.rt"

rustc -O -o "$work/plain" "$here/plain.rs"
build

: > "$work/figures"
round=0
while [ "$round" -lt "$rounds" ]; do
    out/meet_bench >> "$work/figures"
    "$work/plain" >> "$work/figures"
    round=$((round + 1))
done

python3 "$here/table.py" "$work/figures" "$rounds"
