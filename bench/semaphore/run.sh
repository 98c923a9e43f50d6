#!/bin/sh
# Times a semaphore beside Rust's Mutex with a Condvar and beside POSIX semaphores: acquires and
# releases that nobody contends, and one unit that four threads pass round. The sides run in turn, a
# few rounds each; medians, with the least and the most. usage: run.sh [ROUNDS]. What it builds lies
# in bench/out/semaphore, outside the repository's crates.
set -eu
here=$(cd "$(dirname "$0")" && pwd)
top=$(cd "$here/../.." && pwd)
work=$top/bench/out/semaphore
rounds=${1:-5}

. "$top/bench/repo.sh"
lay_out "sync_base histories sleep_core kernel_lock rendez_words sleep_wakeup waiting timer_list semaphore" \
    "semaphore_bench: sync_base sleep_wakeup semaphore"
cp "$here/units.rattle" "$bench/src/main.rt"

rustc -O -o "$work/plain" "$here/plain.rs"
cc -O2 -pthread -o "$work/posix" "$here/posix.c"
build

: > "$work/figures"
round=0
while [ "$round" -lt "$rounds" ]; do
    out/semaphore_bench >> "$work/figures"
    "$work/plain" >> "$work/figures"
    "$work/posix" >> "$work/figures"
    round=$((round + 1))
done

python3 "$here/table.py" "$work/figures" "$rounds"
