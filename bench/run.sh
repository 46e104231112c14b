#!/usr/bin/env bash
# Over the static library of the proved crates:
#   bench/run.sh                       differential tests against the second implementation
#   bench/run.sh test [CASES] [SEED]   the same, so many cases from a seed
#   bench/run.sh hex [CASES] [SEED]    those of images as Intel HEX alone, which `test` makes too
#   bench/run.sh tools [SEED]          Intel HEX against objcopy and srec_cat, where they are installed
#   bench/run.sh print [CASES] [SEED]  the print program on random inputs against the second implementation's lines
#   bench/run.sh measure               benchmarks; writes docs/BENCHMARKS.md and docs/benchmarks.svg
#   bench/run.sh wrong [PATTERN..]     wrong versions of the code and of the rules (bench/wrong), each of which a check must refuse
#   bench/run.sh mutants [NAME..]      small changes of the definitions, tried on their worked rows alone; tells which pass
# It needs rt and cargo (wrong: rt alone), and no network; measure counts instructions where valgrind is there. It is no part of the gate.
set -eu
cd "$(dirname "$0")/.."
what=${1:-test}
[ $# -eq 0 ] || shift

# Builds a static library, and puts it under its name where the benchmarks link it.
archive() { # CRATE NAME
    (cd "crates/$1" && rt lib)
    mkdir -p target/staticlib
    cp "crates/$1/out/lib$1.a" "target/staticlib/lib$2.a"
}

libraries() {
    archive abi_c abi
    archive abi_scheduler abi_scheduler
    archive abi_serial abi_serial
    archive abi_hex abi_hex
}

build() {
    cargo build --release --offline --quiet --manifest-path bench/Cargo.toml "$@"
}

case "$what" in
test)
    libraries
    build
    cargo test --release --lib --offline --quiet --manifest-path bench/Cargo.toml
    bench/target/release/differ "$@"
    exec bench/target/release/hexes "$@"
    ;;
hex)
    archive abi_hex abi_hex
    build --bin hexes
    cargo test --release --lib --offline --quiet --manifest-path bench/Cargo.toml hex
    exec bench/target/release/hexes "$@"
    ;;
tools)
    archive abi_hex abi_hex
    build --bin tools
    exec bench/target/release/tools "$@"
    ;;
print)
    (cd crates/print && rt run <stdin >/dev/null)
    build --bin prints
    exec bench/target/release/prints crates/print/out/print "$@"
    ;;
measure)
    libraries
    build
    exec bench/target/release/measure docs
    ;;
wrong)
    exec bench/wrong.sh "$@"
    ;;
mutants)
    build --bin mutants
    exec bench/target/release/mutants . "$@"
    ;;
*)
    echo "usage: bench/run.sh [test [CASES] [SEED] | hex [CASES] [SEED] | tools [SEED] | print [CASES] [SEED] | measure | wrong [PATTERN..] | mutants [NAME..]]" >&2
    exit 2
    ;;
esac
