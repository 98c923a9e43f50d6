#!/bin/sh
# Prints the speed of p9sync threads beside plain Rust: the same steps and nothing else, std's
# sync_channel(16) and a pipe of the system. Where Go is installed its channel runs beside them, and
# where the sources of crossbeam's are (Debian's librust-crossbeam-channel-dev) so does that.
# usage: run.sh [ROUNDS]. `race.py` says how it is measured. What is built lies in bench/out/threads.
set -eu
here=$(CDPATH= cd -- "$(dirname -- "$0")" && pwd)
top=$here/../..
work=$top/bench/out/threads
crates=${CROSSBEAM:-/usr/share/cargo/registry}
mkdir -p "$work"

ways="ring apart channel pipe"
if ls "$crates"/crossbeam-channel-* >/dev/null 2>&1; then
    ways="$ways crossbeam"
    mkdir -p "$work/crossbeam"
    cat >"$work/crossbeam/Cargo.toml" <<TOML
[package]
name = "plain"
version = "0.1.0"
edition = "2021"

[[bin]]
name = "plain"
path = "$here/plain.rs"

[dependencies]
crossbeam-channel = "*"

[lints.rust]
unexpected_cfgs = "allow"
TOML
    RUSTFLAGS="--cfg crossbeam" cargo build --quiet --release --offline \
        --manifest-path "$work/crossbeam/Cargo.toml" --target-dir "$work/crossbeam" \
        --config 'source.crates-io.replace-with="here"' \
        --config "source.here.directory=\"$crates\""
    cp "$work/crossbeam/release/plain" "$work/plain"
else
    rustc --edition 2021 -O --check-cfg 'cfg(crossbeam)' -o "$work/plain" "$here/plain.rs"
fi
set -- "${1:-5}" "$top/crates/p9sync/out/p9sync"
for way in $ways; do
    set -- "$@" "$way=$work/plain"
done
if command -v go >/dev/null 2>&1; then
    GOCACHE=$work/go-cache GO111MODULE=off go build -o "$work/go-channel" "$here/plain.go"
    set -- "$@" "go=$work/go-channel"
fi
# This builds the program, where it is older than its sources.
"$top/p9sync" threads --writers 1 --writes 1 --size 16 >/dev/null
exec python3 "$here/race.py" "$@"
