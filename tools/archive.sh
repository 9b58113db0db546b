#!/bin/sh
# Proves the C entries and all below them, and makes their archive, FOLDER/libheat_battery.a.
#
#   tools/archive.sh FOLDER
#
# It runs on every x86-64 processor; what the kit makes by itself asks for SSE4.2. What the prover says goes to standard output.
set -eu
[ $# -eq 1 ] || { sed -n 's/^# *\(tools.*\)/\1/p' "$0" >&2; exit 2; }
folder=$(cd "$1" && pwd)
cd "$(dirname "$0")/../crates/heat_battery_c"
command -v rt >/dev/null || { echo "no rt: install the Rattle kit, or use the prebuilt archive" >&2; exit 1; }
rt lib --cpu=x86-64
cp out/libheat_battery_c.a "$folder/libheat_battery.a"
