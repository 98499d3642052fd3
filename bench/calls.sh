#!/usr/bin/env bash
# Measures the calls of the product's archive beside the monitor in C: time, instructions, record and stack. Times are
# taken over one lap of calls that is repeated, whose order the processor learns, and over laps in 64 orders.
#   bench/calls.sh [ROUNDS]
# Fails if answers, reasons, pages, what is read of them, or settings given back differ.
set -euo pipefail
top=$(cd "$(dirname "$0")/.." && pwd)
bench=$top/bench
archive=$top/crates/latency_monitor/out/liblatency_monitor.a
ROUNDS=${1:-31}
. "$bench/sides.sh"

folder=$(mktemp -d)
trap 'rm -rf "$folder"' EXIT
cd "$folder"

(cd "$top/crates/latency_monitor" && rt lib) > say 2>&1 || { cat say >&2; exit 1; }

# loops SIDE TITLE FLAG..: a side's loops, placed alike in memory for all sides.
loops() {
    compile gcc -O2 -falign-functions=64 -D "SIDE=$1" -D "TITLE=\"$2\"" "${@:3}" -c -o "$1.o" "$bench/side.c"
}

# c_side SIDE TITLE COMPILER FLAG..: the monitor in C with its loops, which shows no name but its own.
c_side() {
    compile "${@:3}" -c -o in_place.o "$bench/in_place.c"
    loops "$1" "$2" -D IN_PLACE "${@:5}"
    ld -r -o whole.o "$1.o" in_place.o
    objcopy --keep-global-symbol="$1" whole.o "$1.o"
    sides+=("$1") titles+=("$2")
}

sides=(product) titles=()
loops product product
each_c c_side
# Bound at the start, so that no call spends its stack on looking for memcpy.
compile gcc -O2 -Wl,-z,now -D "EACH_SIDE(x)=$(printf 'x(%s) ' "${sides[@]}")" \
    -o calls "$bench/calls.c" "$bench/stack.c" "${sides[@]/%/.o}" "$archive"

# counted ORDERS SIDE CASE LAPS: the instructions of a whole run, and its calls.
counted() {
    local calls
    calls=$(valgrind --tool=callgrind --callgrind-out-file=/dev/null ./calls count "$@" 2> callgrind)
    awk -v calls="$calls" '/Collected/ { print $NF, calls }' callgrind
}

# instructions ORDERS SIDE CASE: of a call and its turn of the loop; what a run does before them cancels out.
instructions() {
    echo "$(counted "$@" 8)" "$(counted "$@" 16)" | awk '{ printf "%.0f", ($3 - $1) / ($4 - $2) }'
}

# with_instructions ORDERS: in place of a case's and a side's number, puts the instructions of the product and of that
# side at the end of the line, with their ratio.
with_instructions() {
    local number side times product c
    while IFS=$'\t' read -r number side times; do
        product=$(instructions "$1" 0 "$number") c=$(instructions "$1" "$side" "$number")
        printf '%s\t%d\t%d\t%s\n' "$times" "$product" "$c" "$(awk "BEGIN { printf \"%.2f\", $product / $c }")"
    done
}

# times ORDERS HEAD: the product beside the fastest C, and the times of every C.
times() {
    ./calls times "$1" "$ROUNDS" > "measured.$1"
    cut -f -10 "measured.$1" | with_instructions "$1" | table "$2" 'ns' "C's best" 'which C' 'ratio' 'smallest' \
        'largest' 'net' 'instr.' "C's" 'ratio'
    cut -f 3,11- "measured.$1" | table "$2: C's ns" "${titles[@]}"
}

# frame CALL: what its code takes of the stack, by objdump: return address, pushes, and steps of the stack pointer.
frame() {
    local line bytes=8
    while read -r line; do
        case $line in
        *push*) bytes=$((bytes + 8)) ;;
        *sub*\$0x*,%rsp) line=${line##*\$}; bytes=$((bytes + ${line%,*})) ;;
        *add*\$0xffffffff*,%rsp) line=${line##*\$}; bytes=$((bytes - ${line%,*})) ;;
        esac
    done < <(objdump -d --no-show-raw-insn --disassemble="latency_monitor_$1" "$archive")
    echo "$bytes"
}

with_frame() {
    local call depths
    while read -r call depths; do
        printf '%s\t%s\t%d\n' "$call" "$depths" "$(frame "$call")"
    done
}

# with_most: adds a line with the largest number of each column.
with_most() {
    awk -F '\t' '{ print; fields = NF; for (i = 2; i <= NF; i++) if ($i > most[i]) most[i] = $i + 0 }
        END { printf "most"; for (i = 2; i <= fields; i++) printf "\t%d", most[i]; print "" }'
}

./calls check
times 1 'Call, one lap repeated'
awk -F '\t' '{ ns[$3] = $4 }
    END { printf "read_page takes %.2f times as long as page.\n\n", ns["read_page"] / ns["page"] }' measured.1
times 64 'Call, 64 orders'
printf 'record\t%s\n' "$(./calls record)" | table 'Bytes' 'product' 'C' 'C, limits'
./calls stack | with_frame | with_most | table 'Stack, bytes' 'product' 'gcc -O2' 'gcc -O3' 'frame'
echo "The archive asks for: $(nm -u "$archive" | awk 'NF == 2 { print $2 }' | sort -u | paste -sd ' ')"
