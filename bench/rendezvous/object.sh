#!/bin/sh
# Times the object of a tag space, for one thread: a Call among 1,023 that wait beside one among two.
# Each side runs often, a thousand rounds at a time, and its quickest thousand counts, so that it is
# the same beside other work of the machine. What it builds lies in bench/out/rendezvous, outside the
# repository's crates.
set -eu
here=$(cd "$(dirname "$0")" && pwd)
top=$(cd "$here/../.." && pwd)
work=$top/bench/out/rendezvous
rounds=${1:-5}

. "$top/bench/repo.sh"
lay_out "sync_base histories kernel_lock sleep_core rendez_words sleep_wakeup waiting timer_list tag_space" "object_bench: sync_base tag_space"
cp "$here/object.rattle" "$bench/src/main.rt"

build

: > "$work/times"
round=0
while [ "$round" -lt "$rounds" ]; do
    out/object_bench >> "$work/times"
    round=$((round + 1))
done

# A line: how many wait, how many calls left, their nanoseconds, how many met, their nanoseconds.
awk '
    !($1 in alone) || $3 / $2 < alone[$1] { alone[$1] = $3 / $2 }
    !($1 in met) || $5 / $4 < met[$1] { met[$1] = $5 / $4 }
    END {
        printf "a Call that waits, and its Leave: %.1f ns among 2, %.1f ns among 1,023: %.2f times\n", alone[2], alone[1023], alone[1023] / alone[2]
        printf "a Call that meets, a Collect, a Call that waits: %.1f ns among 2, %.1f ns among 1,023: %.2f times\n", met[2], met[1023], met[1023] / met[2]
    }' "$work/times"
