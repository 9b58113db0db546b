#!/bin/sh
# Builds the command with the prebuilt archive, or as HEAT_BATTERY_LIB or HEAT_BATTERY_PROVE say (rust/heat-battery/README.md); runs
# the winter day on the example's card, compares the sheet with the stored one, which is of version 1, and audits it.
set -eu
here=$(cd "$(dirname "$0")" && pwd)
cargo build --release --offline --quiet --manifest-path "$here/../rust/heat-battery/Cargo.toml"
cd "$here"
command=../rust/target/release/heat-battery
room=$(mktemp -d)
trap 'rm -rf "$room"' EXIT
$command run salt-battery.card winter-day.calls --version 1 -o "$room/sheet"
cmp "$room/sheet" winter-day.sheet
$command audit "$room/sheet"
