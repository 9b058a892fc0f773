#!/bin/sh
# Instructions of each call, by valgrind: the difference of a run with 2n calls and one with n, divided by n. A listing's,
# check's and vacuum's are also divided by the rows or pages. `count.sh original` counts aerodb's code too, where the
# harness adds little to it. Needs target/staticlib/libport.a (tools/archive).
set -eu
cd "$(dirname "$0")"
cargo build --offline --release --quiet -p bench
bench=target/release/bench
original=${1-}

counted() { # [original] CALL POOL ROWS N
    valgrind --tool=callgrind --callgrind-out-file=/dev/null "$bench" "$@" 2>&1 | sed -n 's/.*Collected : //p'
}

each() { # N [original] CALL POOL ROWS
    n=$1
    shift
    echo $((($(counted "$@" $((n * 2))) - $(counted "$@" "$n")) / n))
}

row() { # NAME CALL POOL ROWS N PER WHAT
    ours=$(each "$5" "$2" "target/bench-$3.pool" "$4")
    printf '%-18s %6d %14d' "$1" "$4" "$ours"
    [ "$6" -eq 1 ] || printf ' %8d a %s' $((ours / $6)) "$7"
    printf '\n'
}

theirs() { # CALL POOL ROWS N PER WHAT
    [ "$original" = original ] || return 0
    count=$(each "$4" original "$1" "target/bench-$2.pool" "$3")
    printf '%-18s %6s %14d' '  aerodb' '' "$count"
    [ "$5" -eq 1 ] || printf ' %8d a %s' $((count / $5)) "$6"
    printf '\n'
}

both() { # NAME CALL POOL ROWS N PER WHAT
    row "$@"
    shift
    theirs "$@"
}

for rows in 0 1000 2000 20000; do
    "$bench" make target/bench-$rows.pool $rows
done
for rows in 1000 2000; do
    cp target/bench-$rows.pool target/bench-$rows-falling.pool
    "$bench" fall target/bench-$rows-falling.pool
done
used=$(od -An -tu4 -j4 -N4 target/bench-20000.pool | tr -d ' ')

printf '%-18s %6s %14s\n' call rows instructions
row lookup lookup 20000 20000 20000 1 -
theirs lookup 20000 20000 2000 1 -
row plain plain 20000 20000 20000 1 -
row conflict conflict 20000 20000 20000 1 -
row versions versions 20000 20000 20000 1 -
row all all 20000 20000 5 20000 row
# creators 12 and 40 are active: 19,200 rows of 20,000 are listed
row visible visible 20000 20000 5 20000 row
row check check 20000 20000 5 20000 row
row numbers numbers 20000 20000 20 "$used" 'page in use'
row 'visible, falling' visible 1000-falling 1000 1 1000 row
row 'visible, falling' visible 2000-falling 2000 1 2000 row
# the tree is made: the 10,000 rows after the first 10,000
both insert insert 0 20000 10000 1 -
both 'insert version' insert-version 20000 20000 5000 1 -
both stamp stamp 20000 20000 5000 1 -
both 'plain stamp' plain-stamp 20000 20000 5000 1 -
both 'plain delete' plain-delete 20000 20000 5000 1 -
both claim claim 20000 20000 5000 1 -
both remove remove 20000 20000 5000 1 -
both vacuum vacuum 20000 20000 3 20000 row
# one creator aborted at each call: 400 rows are dropped
both 'vacuum, dropping' vacuum-dropping 20000 20000 3 20000 row
