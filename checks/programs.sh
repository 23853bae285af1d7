#!/bin/sh
# The programs at the edge of what `main` reads, which no contract speaks of: the last byte that is taken, one more,
# and that a fault ends with status 0. It builds the programs first.
set -eu

root=$(cd "$(dirname "$0")/.." && pwd -P)
work=$(mktemp -d)
trap 'rm -rf "$work"' EXIT
status=0

# built PROGRAM: proves and builds it, to be run as crates/PROGRAM/out/PROGRAM
built() {
    (cd "$root/crates/$1" && rt run < stdin) > "$work/built" 2>&1 || {
        cat "$work/built"
        echo "programs: $1 is not built" >&2
        exit 1
    }
}

# blank FILE BYTES: a file of one variable and no clause, filled up with line feeds
blank() {
    printf 'p cnf 1 0\n' > "$1"
    head -c $(($2 - 10)) /dev/zero | tr '\0' '\n' >> "$1"
}

# prints PROGRAM FILE TEXT: the program ends with status 0 and prints just this line
prints() {
    if said=$("$root/crates/$1/out/$1" < "$2" 2> /dev/null) && [ "$said" = "$3" ]; then
        echo "programs: $1, $(wc -c < "$2") bytes: $said"
    else
        echo "programs: $1, $(wc -c < "$2") bytes: WRONG: $said"
        status=1
    fi
}

built compact_small
built compact_large
blank "$work/most" 65536
blank "$work/more" 65537
blank "$work/large" 67108864
blank "$work/larger" 67108865
prints compact_small "$work/most" 'p cnf 1 0'
prints compact_small "$work/more" 'fault 16 text 65536'
prints compact_large "$work/more" 'p cnf 1 0'
prints compact_large "$work/large" 'p cnf 1 0'
prints compact_large "$work/larger" 'fault 16 text 67108864'

exit $status
