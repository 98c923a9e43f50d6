#!/bin/sh
# Prints the speed of a direction in stream mode beside a pipe of the system with the same writes and the same buffer,
# and Rust's sync_channel(1024). usage: run.sh [ROUNDS]. `race.py` says how it is measured. What is built lies in
# bench/out/stream; the first build proves the crates below, or uses what they kept. `run.sh 0` builds, and measures
# nothing.
set -eu
here=$(CDPATH= cd -- "$(dirname -- "$0")" && pwd)
top=$here/../..
work=$top/bench/out/stream

. "$top/bench/repo.sh"
lay_out "sync_base histories sleep_core kernel_lock rendez_words sleep_wakeup waiting timer_list block_queue pipe_dev" \
    "stream_bench: sync_base sleep_wakeup pipe_dev"
cp "$here/stream.rattle" "$bench/src/main.rt"

cc -O2 -pthread -o "$work/plain" "$here/plain.c"
rustc --edition 2021 -O -o "$work/channel" "$here/channel.rs"
build 1 1 16
[ "${1:-9}" != 0 ] || exit 0
exec python3 "$here/race.py" "${1:-9}" "$bench/out/stream_bench" "$work/plain" "$work/channel"
