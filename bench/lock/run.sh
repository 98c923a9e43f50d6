#!/bin/sh
# Prints the speed of the kernel lock over a counter beside that of Rust's Mutex, on 1, 2, 4 and 8 threads.
# usage: run.sh [ROUNDS [CALLS]]. `race.py` says how it is measured. What is built lies in bench/out/lock.
set -eu
here=$(CDPATH= cd -- "$(dirname -- "$0")" && pwd)
top=$here/../..
work=$top/bench/out/lock
rounds=${1:-15}
calls=${2:-20000000}

. "$top/bench/repo.sh"
lay_out "sync_base histories kernel_lock" "lock_bench: sync_base kernel_lock"
mkdir -p "$bench/proofs/one"
cp "$here/one.invariants" "$bench/proofs/one/Invariants.antt"
cp "$here/counter.rattle" "$bench/src/main.rt"

rustc -O -o "$work/mutex" "$here/mutex.rs"
build
exec python3 "$here/race.py" "$rounds" "$calls" "$bench/out/lock_bench" "$work/mutex"
