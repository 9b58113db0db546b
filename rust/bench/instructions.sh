#!/bin/sh
# Instructions per round of a row, by callgrind: instructions.sh ROW CONTENDER.. A row is known by how its name starts; those with the
# floor ("standing loss with", "standing loss at") have no published Rust.
set -eu
here=$(cd "$(dirname "$0")" && pwd)
program=${CARGO_TARGET_DIR:-$here/../target}/measured/bench
row=$1
shift
count() {
    valgrind --tool=callgrind --callgrind-out-file=/dev/null "$program" "$row" "$1" "$2" 2>&1 |
        sed -n 's/.*Collected : //p'
}
for contender in "$@"; do
    few=$(count "$contender" 10)
    many=$(count "$contender" 110)
    echo "$row: $contender $(((many - few) / 100)) instructions per round"
done
