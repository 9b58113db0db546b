#!/bin/sh
# Prints the folder that holds the published heat_battery_pcm.rs: the one that SRC names, else shared/papers beside the repository.
#
#   tools/published.sh WHAT     WHAT is skipped without it
#
# Ends with 1 where there is none, and with 2 where SRC names a folder without it.
set -eu
here=$(cd "$(dirname "$0")/.." && pwd)
folder=${SRC:-$here/../shared/papers}
for name in src--src--core--heating_systems--heat_battery_pcm.rs.txt heat_battery_pcm.rs; do
    [ ! -f "$folder/$name" ] || { cd "$folder" && pwd && exit; }
done
[ -z "${SRC-}" ] || { echo "no heat_battery_pcm.rs in $SRC, which SRC names" >&2; exit 2; }
echo "skipped: $1, as no heat_battery_pcm.rs is at hand; set SRC to the folder with $(cat "$here/rust/published/SOURCE")" >&2
exit 1
