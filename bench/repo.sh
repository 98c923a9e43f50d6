# For the benchmarks that are Rattle. Each is the one crate of a repository of its own, so that the gate proves none of them,
# beside copies of those crates of the library that it stands on. All functions want $top, the top of this repository, and
# $work, the benchmark's folder under bench/out.

# below CRATE
# The crates of this repository that it stands on.
below() {
    for crate in $(sed -n "s/^$1\( [^:]*\)\{0,1\}: //p" "$top/crates.txt"); do
        [ ! -d "$top/crates/$crate" ] || printf '%s ' "$crate"
    done
}

# lay_out "LIBRARY .." "BENCHMARK: CRATE .."
# Copies these crates of the library, which the first build proves, or takes what they kept. The line is that of the benchmark's
# crate in crates.txt. Leaves its empty folder, $bench.
lay_out() {
    for crate in $1; do
        mkdir -p "$work/repo/crates/$crate"
        for part in src specs proofs; do
            rm -rf "$work/repo/crates/$crate/$part"
            [ ! -d "$top/crates/$crate/$part" ] || cp -R "$top/crates/$crate/$part" "$work/repo/crates/$crate/"
        done
        if [ -d "$top/crates/$crate/out" ] && [ ! -d "$work/repo/crates/$crate/out" ]; then
            cp -Rl "$top/crates/$crate/out" "$work/repo/crates/$crate/"
        fi
    done
    bench=$work/repo/crates/${2%%:*}
    rm -rf "$bench/src" "$bench/proofs"
    mkdir -p "$bench/src"
    cp "$top/HANDLES" "$work/repo/HANDLES"
    { for crate in $1; do grep -E "^$crate[ :]" "$top/crates.txt"; done
      echo "$2"; } > "$work/repo/crates.txt"
    [ -d "$work/repo/.git" ] || git init -q "$work/repo"
}

# build ARGUMENT ..
# Proves and builds the benchmark's crate, and runs it once.
build() {
    cd "$bench"
    rt run ${1:+--} "$@" > "$work/first" 2> "$work/build.log" || { tail -20 "$work/build.log"; exit 1; }
}
