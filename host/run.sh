#!/usr/bin/env bash
# Builds the C library and the programs `page`, `explain` and `listing`, and tests them as their users see them: the
# library by its symbols, its header, a C program, the Rust wrapper and the comparison with reference/, which has tests
# of its own; the programs on files, on input in pieces and on what cannot be read or written.
#   host/run.sh
# LATENCY_MONITOR_LIB may name the folder of a liblatency_monitor.a, and LATENCY_MONITOR_PAGE, LATENCY_MONITOR_EXPLAIN
# and LATENCY_MONITOR_LISTING a program, to test in place of the repository's own.
set -euo pipefail
top=$(cd "$(dirname "$0")/.." && pwd)
export CARGO_TARGET_DIR=$top/target/host
mkdir -p "$CARGO_TARGET_DIR"

# program NAME: proves and builds it, as `rt run` does before it runs it, here on no input.
program() {
    (cd "$top/crates/$1" && rt run < /dev/null > /dev/null)
}

if [ -z "${LATENCY_MONITOR_LIB:-}" ]; then
    (cd "$top/crates/latency_monitor" && rt lib)
fi
if [ -z "${LATENCY_MONITOR_PAGE:-}" ]; then
    program page
fi
if [ -z "${LATENCY_MONITOR_EXPLAIN:-}" ]; then
    program explain
fi
if [ -z "${LATENCY_MONITOR_LISTING:-}" ]; then
    program listing
fi
LATENCY_MONITOR_LIB=$(realpath "${LATENCY_MONITOR_LIB:-$top/crates/latency_monitor/out}")
LATENCY_MONITOR_PAGE=$(realpath "${LATENCY_MONITOR_PAGE:-$top/crates/page/out/page}")
LATENCY_MONITOR_EXPLAIN=$(realpath "${LATENCY_MONITOR_EXPLAIN:-$top/crates/explain/out/explain}")
LATENCY_MONITOR_LISTING=$(realpath "${LATENCY_MONITOR_LISTING:-$top/crates/listing/out/listing}")
export LATENCY_MONITOR_LIB LATENCY_MONITOR_PAGE LATENCY_MONITOR_EXPLAIN LATENCY_MONITOR_LISTING
archive=$LATENCY_MONITOR_LIB/liblatency_monitor.a
header=$top/include/latency_monitor.h

# none WHAT: fails if there are lines to read.
none() {
    local lines
    lines=$(cat)
    if [ -n "$lines" ]; then
        printf 'host: %s:\n%s\n' "$1" "$lines" >&2
        exit 1
    fi
}

# in_cargo test|run WORDS..: with the versions of the lock file, and without a network.
in_cargo() {
    cargo "$1" --release --quiet --locked --offline "${@:2}"
}

echo "host: symbols and sections"
comm -3 <(nm -P --extern-only --defined-only "$archive" | awk '!/:$/ { print $1 }' | sort) \
    <(grep -o 'latency_monitor_[a-z_]*(' "$header" | tr -d '(' | sort) |
    none "a name of the archive or the header alone"
nm -P --undefined-only "$archive" |
    awk '!/:$/ && $1 !~ /^mem(cpy|set)$/' | none "a name that the header does not ask for"
objdump --section-headers --wide "$archive" |
    awk '/ALLOC/ && !/READONLY/ && $3 !~ /^0+$/' | none "writable data, which is state between calls"

echo "host: header and example"
checks=(-Wall -Wextra -Werror -pedantic -I "$top/include")
g++ -std=c++11 "${checks[@]}" -fsyntax-only -x c++ "$header"
g++ -std=c++17 "${checks[@]}" -fsyntax-only -x c++ "$header"
gcc -std=c11 "${checks[@]}" -fsyntax-only -x c "$header"
# 32 bits, with 64-bit numbers aligned as on Arm and RISC-V.
gcc -std=c11 "${checks[@]}" -fsyntax-only -m32 -malign-double -ffreestanding -x c "$header"
gcc -std=c99 "${checks[@]}" -O2 -o "$CARGO_TARGET_DIR/example" "$top/host/c/example.c" "$archive"
"$CARGO_TARGET_DIR/example" | cmp - "$top/samples/example.page"

echo "host: the reference"
in_cargo test --manifest-path "$top/reference/Cargo.toml"

echo "host: wrapper and comparison with the reference"
cd "$top/host"
in_cargo test --package latency_monitor
in_cargo run --package differential

echo "host: the programs"
in_cargo test --package program

echo "host: all passed"
