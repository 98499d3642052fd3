# The C that the product is measured against. Sourced by the scripts beside it.

compilers=(gcc)
if command -v clang > /dev/null; then
    compilers+=(clang)
fi

# each_c COMMAND: runs it for each form of the code, compiler at hand and level, with a name, a title for tables, the
# compiler, the level, and what the form is compiled with. gcc with branches comes first.
each_c() {
    local form compiler level flag
    for form in '' 'BRANCH_FREE, no branches' 'LIMITS, limits'; do
        flag=${form%%,*}
        for compiler in "${compilers[@]}"; do
            for level in O2 O3; do
                "$1" "${compiler}_$level$flag" "$compiler -$level${form#"$flag"}" \
                    "$compiler" "-$level" ${flag:+-D "$flag"}
            done
        done
    done
}

# compile COMPILER FLAG..
compile() {
    "$1" -Wall -Wextra -Werror -pedantic -I "$top/include" "${@:2}"
}

# table HEAD..: lines of fields, separated by tabs, as a table.
table() {
    (IFS=$'\t'; echo "$*"; cat) | awk -F '\t' '
        { printf "| %-24s", $1; for (i = 2; i <= NF; i++) printf " | %8s", $i; print " |" }
        NR == 1 { printf "|---"; for (i = 2; i <= NF; i++) printf "|---"; print "|" }'
    echo
}
