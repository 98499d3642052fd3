#!/usr/bin/env bash
# Measures the page program against the same job in C, and `explain`, asked about the last record, against the page
# program: on 400 MB of mixed events; and on 192 MB each of Reads that all load the stamp of one counter, of elapsed
# time that always ends the window, and of records that are all refused; each with a completion at the end. The files
# are long because times are whole ms.
#   bench/page.sh [ROUNDS]
# In a short first pass over every C the fastest of each form is found, for each file; these take turns with the
# programs. Prints the median processor times, the ratio of throughputs (the page program's to C's) and the ratio of
# times (explain's to the page program's). Fails if a C and the page program print different texts, there or for an
# event file of the vectors, or if `explain` gives another answer than reference/ on files of the same kind that are
# shorter.
set -euo pipefail
top=$(cd "$(dirname "$0")/.." && pwd)
bench=$top/bench
ROUNDS=${1:-31}
FIRST_PASS=5
MIXED=${MIXED:-400000000}
OTHER=${OTHER:-192000000}
SHORT=500000 # the reference takes longer by the square
. "$bench/sides.sh"

folder=$(mktemp -d)
trap 'rm -rf "$folder"' EXIT
cd "$folder"

(cd "$top/crates/page" && rt run && cd ../explain && rt run) < /dev/null > say 2>&1 || { cat say >&2; exit 1; }
cargo build --release --quiet --offline --manifest-path "$top/reference/Cargo.toml" --target-dir target
declare -A programs=([page]=$top/crates/page/out/page [explain]=$top/crates/explain/out/explain) titles

# Each compiler sees the whole program. Without its linker clang has no -flto, and page.c is one unit with the monitor.
declare -A whole=([gcc]=-flto [clang]=)
if command -v ld.lld > /dev/null; then
    whole[clang]='-flto -fuse-ld=lld'
fi

# c_program NAME TITLE COMPILER FLAG..: the page program in C.
c_program() {
    compile "${@:3}" ${whole[$3]} -o "c_$1" "$bench/page.c"
    in_c+=("c_$1")
    programs[c_$1]=./c_$1
    titles[c_$1]=$2
    of_form["form ${*:5}"]+=" c_$1"
}
in_c=()
declare -A of_form
each_c c_program

# lowest_first NUMBER: its four bytes, for printf's %b.
lowest_first() {
    printf '%08x' "$1" | sed -E 's/(..)(..)(..)(..)/\\x\4\\x\3\\x\2\\x\1/'
}

# asked BYTES: the last record's number in 4 bytes, and so many bytes of events: standard input's, and as
# the last record a Read that is slow enough to need every test.
asked() {
    printf '%b' "$(lowest_first "$(($1 / 16 - 1))")"
    head -c "$(($1 - 16))"
    printf '\x02\x02\0\0\xFF\xFF\xFF\xFF\0\0\0\0\0\0\0\0'
}

# loads: settings with mode largest, and for ever: Reads that are each 1 ms slower, and a window's end.
loads() {
    local block='' i
    printf '\x01\x01\0\0\x01\x03\x09\xFF\x0F\0\0\0\0\x01\0\0'
    for ((i = 50; i < 1000; i++)); do
        block+="\\x02\\x02\\0\\0$(lowest_first $((1000 * i)))\\0\\0\\0\\0\\0\\0\\0\\0"
    done
    block+="\\x03\\0\\0\\0$(lowest_first 300000)\\0\\0\\0\\0\\0\\0\\0\\0"
    while printf '%b' "$block"; do :; done 2> /dev/null
}

# ends: settings with a timer threshold of 1, and for ever: five minutes.
ends() {
    local record block='' i
    printf '\x01\x01\0\0\x01\x03\x09\0\0\0\0\0\0\x01\0\0'
    record="\\x03\\0\\0\\0$(lowest_first 300000)\\0\\0\\0\\0\\0\\0\\0\\0"
    for ((i = 0; i < 1000; i++)); do
        block+=$record
    done
    while printf '%b' "$block"; do :; done 2> /dev/null
}

target/release/reference mixed "$MIXED" > events
asked "$MIXED" < events > mixed
asked "$SHORT" < events > mixed_short
asked "$OTHER" < <(loads) > loads
asked "$SHORT" < <(loads) > loads_short
asked "$OTHER" < <(ends) > ends
asked "$SHORT" < <(ends) > ends_short
asked "$OTHER" < /dev/zero > refused # no record is of kind 0
asked "$SHORT" < /dev/zero > refused_short

target/release/reference files vectors
for events in {mixed,loads,ends,refused}_short; do
    cmp <(target/release/reference explain < "$events") <("${programs[explain]}" < "$events") ||
        { echo "explain: $events" >&2; exit 1; }
done

# run NAME EVENTS: runs a program once, and adds the milliseconds of processor time that it took to a file. All read the
# same file, since two of the same length take different times to read; the number is for `explain` alone.
run() {
    local TIMEFORMAT='%3U %3S'
    {
        if [ "$1" != explain ]; then
            head -c 4 > number
        fi
        { time "${programs[$1]}" > "$1.$2.text"; } 2>&1
    } < "$2" | awk '{ print 1000 * ($1 + $2) }' >> "$1.$2.ms"
    if [ "$1" != explain ]; then
        cmp "$1.$2.text" "page.$2.text" >&2
    fi
}

# measure EVENTS ROUNDS NAME..: the programs take turns, and every second round goes back the same way.
measure() {
    local round name
    local there=("${@:3}") back=()
    for name in "${there[@]}"; do
        back=("$name" "${back[@]}")
    done
    rm -f ./*."$1".ms
    for ((round = 0; round < $2; round += 2)); do
        for name in "${there[@]}"; do
            run "$name" "$1"
        done
        if ((round + 1 < $2)); then
            for name in "${back[@]}"; do
                run "$name" "$1"
            done
        fi
    done
}

# middle FILE: the median of its numbers.
middle() {
    sort -n "$1" | awk '{ v[NR] = $1 } END { print (v[int((NR + 1) / 2)] + v[int(NR / 2) + 1]) / 2 }'
}

# fastest EVENTS NAME..: the one with the smallest median.
fastest() {
    local name
    for name in "${@:2}"; do
        echo "$(middle "$name.$1.ms") $name"
    done | sort -n | awk 'NR == 1 { print $2 }'
}

# length EVENTS: in bytes.
length() {
    stat --format %s "$1"
}

# took NAME EVENTS: the median, and the bytes by it.
took() {
    awk -v ms="$(middle "$1.$2.ms")" -v bytes="$(length "$2")" \
        'BEGIN { printf "%.0f ms, %.0f MB/s", ms, bytes / ms / 1e3 }'
}

# ratios NAME TO EVENTS: of the medians, and the smallest and the largest of a round.
ratios() {
    paste "$1.$3.ms" "$2.$3.ms" | awk '{ print $1 / $2 }' | sort -n > ratios
    awk -v ratio="$(middle "$1.$3.ms") $(middle "$2.$3.ms")" 'BEGIN { split(ratio, ms); printf "%.2f", ms[1] / ms[2] }
        NR == 1 { smallest = $1 } END { printf "\t%.2f\t%.2f", smallest, $1 }' ratios
}

# named EVENTS: with the length.
named() {
    echo "$1, $(($(length "$1") / 1000000)) MB"
}

# medians EVENTS NAME..: in ms, a field each.
medians() {
    local name
    for name in "${@:2}"; do
        printf '\t%.0f' "$(middle "$name.$1.ms")"
    done
}

# first_pass: finds the fastest of each form, and prints a line for the page program and for each C.
first_pass() {
    local events name form
    for events in "${files[@]}"; do
        measure "$events" "$FIRST_PASS" page "${in_c[@]}"
        for form in "${!of_form[@]}"; do
            chosen[$events]+=" $(fastest "$events" ${of_form[$form]})"
        done
    done
    for name in page "${in_c[@]}"; do
        printf '%s%s\n' "${titles[$name]}" "$(for events in "${files[@]}"; do medians "$events" "$name"; done)"
    done
}

# check_vectors NAME..: all print what the page program does.
check_vectors() {
    local events name
    for events in vectors/*.events; do
        "${programs[page]}" < "$events" > text
        for name in "$@"; do
            "${programs[$name]}" < "$events" | cmp - text || { echo "page: $events, $name" >&2; exit 1; }
        done
    done
}

files=(mixed loads ends refused)
declare -A chosen
titles[page]='page program'
first_pass > passed
table "ms in $FIRST_PASS rounds" "${files[@]}" < passed
check_vectors "${in_c[@]}"
for events in "${files[@]}"; do
    measure "$events" "$ROUNDS" ${chosen[$events]} page explain
done
for events in "${files[@]}"; do
    for c in ${chosen[$events]}; do
        printf '%s\t%s\t%s\t%s\t%s\n' "$(named "$events")" "${titles[$c]}" "$(took "$c" "$events")" \
            "$(took page "$events")" "$(ratios "$c" page "$events")"
    done
done | table 'Events' 'which C' 'C' 'page program' 'ratio of throughputs' 'smallest' 'largest'
for events in "${files[@]}"; do
    printf '%s\t%s\t%s\t%s\t%s\n' "$(named "$events")" "$(took page "$events")" "$(took explain "$events")" \
        "$(ratios explain page "$events")" "$(cat "explain.$events.text")"
done | table 'Events' 'page program' 'explain' 'ratio of times' 'smallest' 'largest' 'answer'
