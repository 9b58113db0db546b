#!/bin/sh
# Compares the C entries, called from C and from Rust, with the oracle's independent ones: results, lines, records, verdicts and
# every byte that must stay. The entry on the caller's own record is compared with the one on bytes: answer, zones, totals, and that
# services and floor stay, which before versions 3 and 4 hold anything; from C, a refused call gets a record that can't be written.
# The audit of any length is compared with the one that has a limit, on the stored sheets and on one of megabytes.
#
#   tools/entries.sh [COUNT [SEED]]     100,000 inputs of the entries and a tenth as many sheets, seed 1
#
# The archive is the prebuilt one, or the one in the folder that HEAT_BATTERY_LIB names. The oracle answers by the judge's steps, or
# without the published Rust by its plain ones. Ends with 0 where all agree.
set -eu
root=$(cd "$(dirname "$0")/.." && pwd)
HEAT_BATTERY_LIB=$(cd "${HEAT_BATTERY_LIB:-$root/prebuilt/x86_64-linux}" && pwd)
export HEAT_BATTERY_LIB
count=${1:-100000} seed=${2:-1}
room=$(mktemp -d)
trap 'rm -rf "$room"' EXIT

cd "$root/rust"
cargo build --release --offline --quiet -p oracle -p entries
target/release/oracle cases "$room/cases" --count "$count" --seed "$seed"
cc -std=c11 -O2 -Wall -Wextra -Werror -I../include -o "$room/replay" ../tests/c/replay.c "$HEAT_BATTERY_LIB/libheat_battery.a"
cc -std=c11 -O2 -Wall -Wextra -Werror -I../include -o "$room/whole" ../tests/c/whole.c "$HEAT_BATTERY_LIB/libheat_battery.a"
echo "from C:"
"$room/replay" "$room/cases"
"$room/whole" ../examples/*.sheet ../crates/audit_cases/data/*.sheet
echo "from Rust:"
target/release/entries entries --count "$count" --seed "$seed" --steps best
target/release/entries audit --count $((count / 10)) --seed "$seed" --steps best
echo "from Rust, on the caller's own record:"
HEAT_BATTERY_CALLS=$count HEAT_BATTERY_SEED=$seed cargo test --offline --quiet -p compared --test record -- --nocapture
