#!/bin/sh
# Makes a shared library and a pkg-config file of the archive, for C and other languages.
#
#   tools/shared.sh FOLDER     FOLDER/include/heat_battery.h, FOLDER/lib/libheat_battery.so and .a, FOLDER/lib/pkgconfig/heat_battery.pc
#
# The archive is the prebuilt one, or the one in the folder that HEAT_BATTERY_LIB names.
set -eu
root=$(cd "$(dirname "$0")/.." && pwd)
archive=${HEAT_BATTERY_LIB:-$root/prebuilt/x86_64-linux}/libheat_battery.a
[ $# -eq 1 ] || { sed -n 's/^# *\(tools.*\)/\1/p' "$0" >&2; exit 2; }

mkdir -p "$1/include" "$1/lib/pkgconfig"
folder=$(cd "$1" && pwd)
cp "$root/include/heat_battery.h" "$folder/include/"
cp "$archive" "$folder/lib/"
"${CC:-cc}" -shared -o "$folder/lib/libheat_battery.so" -Wl,-soname,libheat_battery.so -Wl,-z,defs \
    -Wl,--whole-archive "$archive" -Wl,--no-whole-archive
cat >"$folder/lib/pkgconfig/heat_battery.pc" <<END
prefix=$folder
libdir=\${prefix}/lib
includedir=\${prefix}/include

Name: heat_battery
Description: The proved zone engine for salt hydrate heat batteries, its run sheet and its auditor
Version: 0.1.0
Cflags: -I\${includedir}
Libs: -L\${libdir} -lheat_battery
END
