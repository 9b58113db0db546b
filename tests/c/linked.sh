#!/bin/sh
# Makes the shared library and its pkg-config file, links a program with them and with the archive beside them, audits the winter day, and sees which of
# C's functions the archive asks for.
set -eu
root=$(cd "$(dirname "$0")/../.." && pwd)
room=$(mktemp -d)
trap 'rm -rf "$room"' EXIT
"$root/tools/shared.sh" "$room/made"
export PKG_CONFIG_PATH="$room/made/lib/pkgconfig"
if command -v pkg-config >/dev/null; then
    flags=$(pkg-config --cflags --libs heat_battery)
else
    echo "no pkg-config: linked by the flags that it would give"
    flags="-I$room/made/include -L$room/made/lib -lheat_battery"
fi

expect() { # WHAT COMMAND..
    what=$1
    shift
    said=$("$@" "$root/examples/winter-day.sheet")
    [ "$said" = $((204 * 256)) ] || { echo "$what: the audit gives $said" >&2; exit 1; }
    echo "$what: accepted 204"
}

# shellcheck disable=SC2086
cc -std=c11 -Wall -Wextra -Werror -o "$room/shared" "$root/tests/c/linked.c" $flags
expect "the shared library" env LD_LIBRARY_PATH="$room/made/lib" "$room/shared"
cc -std=c11 -Wall -Wextra -Werror -I"$room/made/include" -o "$room/static" "$root/tests/c/linked.c" \
    "$room/made/lib/libheat_battery.a"
expect "the archive" "$room/static"

# What include/heat_battery.h says that the archive needs of C's functions.
asked=$(nm -u "$root/prebuilt/x86_64-linux/libheat_battery.a" | awk '$1 == "U" { print $2 }' | sort -u | tr '\n' ' ')
[ "$asked" = "memcpy memset " ] || { echo "the archive asks for: $asked" >&2; exit 1; }
echo "the archive asks for memcpy and memset alone"
