#!/bin/sh
# Counts the instructions of an acquire, a release, a write and a read by the calls of `plan9`, beside those of the crates that
# they stand for. `count.py` says how. usage: run.sh. What is built lies in bench/out/facade; the first build proves the crates
# below, or uses what they kept.
set -eu
here=$(CDPATH= cd -- "$(dirname -- "$0")" && pwd)
top=$here/../..
work=$top/bench/out/facade

. "$top/bench/repo.sh"
lay_out "$(below plan9) plan9" "facade_bench: sync_base sleep_wakeup semaphore plan9"
cp "$here/facade.rattle" "$bench/src/main.rt"

build 1 1 1
exec python3 -B "$here/count.py" "$bench/out/facade_bench"
