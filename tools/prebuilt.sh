#!/bin/sh
# Makes prebuilt/x86_64-linux from the proofs: the archive, its checksum and the kit's identity.
#
#   tools/prebuilt.sh             writes it anew
#   tools/prebuilt.sh --check     makes the archive and compares it byte for byte; ends with 1 where another one is stored
set -eu
cd "$(dirname "$0")/.."
stored=prebuilt/x86_64-linux
kit=$(rt version) kit_of_stored=$(cat $stored/KIT)
[ "$kit" = "$kit_of_stored" ] || echo "the kit at hand is $kit; $stored/libheat_battery.a was made with $kit_of_stored"

room=$(mktemp -d)
trap 'rm -rf "$room"' EXIT
made=$room/libheat_battery.a
echo "proving the library, which takes minutes where it isn't proved yet"
begun=$(date +%s)
tools/archive.sh "$room" >"$room/said" 2>&1 || { tail -20 "$room/said"; exit 1; }
echo "proved and made in $(($(date +%s) - begun)) s"

if [ "${1-}" != --check ]; then
    cp "$made" $stored/
    echo "$kit" >$stored/KIT
    (cd $stored && sha256sum libheat_battery.a >SHA256SUMS)
    cat $stored/SHA256SUMS
elif cmp -s "$made" $stored/libheat_battery.a; then
    (cd $stored && sha256sum --check --quiet SHA256SUMS)
    echo "$stored/libheat_battery.a is what the proofs give, byte for byte"
elif [ "$kit" != "$kit_of_stored" ]; then
    echo "skipped: the comparison of $stored/libheat_battery.a with the proofs, as this kit makes another one"
else
    echo "$stored/libheat_battery.a is not what the proofs give: run tools/prebuilt.sh and commit $stored" >&2
    exit 1
fi
