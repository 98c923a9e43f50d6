#!/bin/sh
# Prints the speed of the queue of values of `plan9` beside the kit's bounded channel and Rust's sync_channel. Where Go is installed
# its channel runs beside them, and where the sources of crossbeam's are (Debian's librust-crossbeam-channel-dev) so does that.
# usage: values.sh [ROUNDS [NUMBERS]]. `values.py` says how it is measured. What is built lies in bench/out/values.
set -eu
here=$(CDPATH= cd -- "$(dirname -- "$0")" && pwd)
top=$here/../..
work=$top/bench/out/values
rounds=${1:-5}
numbers=${2:-1000000}
crates=${CROSSBEAM:-/usr/share/cargo/registry}

. "$top/bench/repo.sh"
lay_out "$(below plan9) plan9" "values_bench: plan9 messages crossbeam_channel"
cp "$here/values.rattle" "$bench/src/main.rt"

if ls "$crates"/crossbeam-channel-* >/dev/null 2>&1; then
    mkdir -p "$work/crossbeam"
    cat >"$work/crossbeam/Cargo.toml" <<TOML
[package]
name = "values"
version = "0.1.0"
edition = "2021"

[[bin]]
name = "values"
path = "$here/values.rs"

[dependencies]
crossbeam-channel = "*"

[lints.rust]
unexpected_cfgs = "allow"
TOML
    RUSTFLAGS="--cfg crossbeam" cargo build --quiet --release --offline \
        --manifest-path "$work/crossbeam/Cargo.toml" --target-dir "$work/crossbeam" \
        --config 'source.crates-io.replace-with="here"' \
        --config "source.here.directory=\"$crates\""
    cp "$work/crossbeam/release/values" "$work/values"
else
    rustc --edition 2021 -O --check-cfg 'cfg(crossbeam)' -o "$work/values" "$here/values.rs"
fi
go=
if command -v go >/dev/null 2>&1; then
    go=$work/go-values
    go build -o "$go" "$here/values.go"
fi
build queue 1 1 16 1000
exec python3 -B "$here/values.py" "$rounds" "$numbers" "$bench/out/values_bench" "$work/values" ${go:+"$go"}
