#!/bin/sh
# Replays new records of the oracle on the built program, file after file, and compares every answer.
#
#   tools/replay.sh [COUNT [SEED [NAME..]]]     100000 records of every function, seed 2
#
# Prints a line for each file and the disagreements. Ends with 0 where every record of every file agrees, else with 1.
set -eu
cd "$(dirname "$0")/.."
count=${1:-100000} seed=${2:-2}
[ $# -ge 1 ] && shift
[ $# -ge 1 ] && shift
[ $# -ge 1 ] || set -- finite nearly_equal max_zero min square sum2 ln truncate \
    layer_energy soc_to_temp state_of_charge energy_required new_temperature simultaneous \
    viscosity reynolds heat_transfer outlet zone_properties card substep charge_energy_demand lowest lists

SRC=$(tools/published.sh "the replay")
export SRC
(cd rust && cargo build --release --offline --quiet -p oracle)
# Proves the program and builds it; this run has no file to replay.
said=$(cd crates/vectors && rt run 2>&1) || { echo "$said" | tail -20; exit 1; }

program=$PWD/crates/vectors/out/vectors
oracle=$PWD/rust/target/release/oracle
room=$(mktemp -d)
trap 'rm -rf "$room"' EXIT
cd "$room"
failed=0
for name in "$@"; do
    "$oracle" vectors . --count "$count" --seed "$seed" --only "$name" >wrote
    "$program" "$name.vec" >said || failed=1
    sed '$d' said
    [ "$(sed -n '$p' said)" = "total: $count agree" ] || failed=1
    rm "$name.vec"
done
exit $failed
