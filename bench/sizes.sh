#!/usr/bin/env bash
# Measures code, constants and data: of the product's archive beside the monitor in C, and of the programs. Then it
# shows the product's constants.
#   bench/sizes.sh
# Fails if the archive has data of its own.
set -euo pipefail
top=$(cd "$(dirname "$0")/.." && pwd)
archive=$top/crates/latency_monitor/out/liblatency_monitor.a
programs=("$top"/crates/{page/out/page,listing/out/listing,explain/out/explain,vectors/out/vectors})

folder=$(mktemp -d)
trap 'rm -rf "$folder"' EXIT
cd "$folder"

# built: proves and builds the archive and the programs, which `rt run` also runs, here on no input.
built() {
    local program
    (cd "$top/crates/latency_monitor" && rt lib) || return
    for program in "${programs[@]##*/}"; do
        (cd "$top/crates/$program" && rt run < /dev/null) || return
    done
}
built > say 2>&1 || { cat say >&2; exit 1; }
for level in O2 O3; do
    gcc "-$level" -I "$top/include" -c -o "in_place_$level.o" "$top/bench/in_place.c"
done

# bytes PATTERN FILE: of the sections whose names match.
bytes() {
    size -A "$2" | awk -v pattern="$1" '$1 ~ pattern { sum += $2 } END { print sum + 0 }'
}

# row NAME PATTERN: their bytes in each file.
row() {
    local file
    printf '| %-9s |' "$1"
    for file in "$archive" in_place_O2.o in_place_O3.o "${programs[@]}"; do
        printf ' %7d |' "$(bytes "$2" "$file")"
    done
    echo
}

# constants FILE: the bytes themselves.
constants() {
    echo
    echo "Constants of ${1##*/}:"
    size -A "$1" | awk '$1 ~ /^[.]rodata/ { print "-j", $1 }' | xargs objdump --full-contents "$1" | grep '^ '
}

printf '| Bytes     | archive |   C -O2 |   C -O3 |'
printf ' %7s |' "${programs[@]##*/}"
printf '\n|---|---|---|---|---|---|---|---|\n'
row code '^[.]text'
row constants '^[.]rodata'
row data '^[.]t?(data|bss)'
for file in "$archive" "${programs[@]}"; do
    constants "$file"
done
[ "$(bytes '^[.]t?(data|bss)' "$archive")" -eq 0 ] || { echo 'sizes: the archive has data of its own' >&2; exit 1; }
