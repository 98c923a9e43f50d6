#!/bin/sh
# Prints the speed of the ring beside that of the kit's ArrayQueue and bounded channel, and of Rust's sync_channel.
# usage: run.sh [ROUNDS [MESSAGES]]. `race.py` says how it is measured. What is built lies in bench/out/queue.
set -eu
here=$(CDPATH= cd -- "$(dirname -- "$0")" && pwd)
top=$here/../..
work=$top/bench/out/queue
rounds=${1:-5}
messages=${2:-2000000}

. "$top/bench/repo.sh"
lay_out "sync_base histories kernel_lock block_queue" "queue_bench: sync_base block_queue crossbeam_queue crossbeam_channel"
mkdir -p "$bench/proofs/ring" "$bench/proofs/ring_jobs"
cp "$here/ring.answers" "$bench/proofs/ring/Answers.antt"
cp "$here/ring_jobs.answers" "$bench/proofs/ring_jobs/Answers.antt"
cp "$here/ring_jobs.invariants" "$bench/proofs/ring_jobs/Invariants.antt"
cp "$here/queues.rattle" "$bench/src/main.rt"

rustc -O -o "$work/sync_channel" "$here/sync_channel.rs"
build
exec python3 "$here/race.py" "$rounds" "$messages" "$bench/out/queue_bench" "$work/sync_channel"
